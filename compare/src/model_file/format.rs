//! A plain reader and writer of the model file, from document 01's description and change request W1 alone, with the standard library's means.

use crate::refusal::{AFTER, KIND, MAX_DEGREE, SHORT, SIZE, TIDE};

/// Kind bytes of the records.
pub const HEAD: u8 = 1;
pub const PAIR: u8 = 2;
pub const END: u8 = 3;
pub const DATED_HEAD: u8 = 4;

/// What a file holds, doubles as bit patterns, a date as days from 2000-01-01.
#[derive(Clone, Debug, Default, PartialEq)]
pub struct Model {
    pub gm: u64,
    pub radius: u64,
    pub tide: u8,
    pub nmax: usize,
    pub date: Option<i32>,
    pub c: Vec<u64>,
    pub s: Vec<u64>,
}

impl Model {
    /// The head as the C entry hands it on: gm, radius, tide, N, whether there is a date, and the 32 bits of its count.
    pub fn words(&self) -> [u64; HEAD_WORDS] {
        let days = self.date.map_or([0; 4], i32::to_le_bytes);
        [self.gm, self.radius, self.tide as u64, self.nmax as u64, self.date.is_some() as u64, u32::from_le_bytes(days) as u64]
    }
}

/// How many words a head has.
pub const HEAD_WORDS: usize = 6;

/// The bytes of a head with its kind.
pub fn head_length(dated: bool) -> usize {
    1 + if dated { 23 } else { 19 }
}

/// The bytes of a file up to degree N: 21 + 17T, and four more where it is dated.
pub fn file_length(nmax: usize, dated: bool) -> usize {
    head_length(dated) + 17 * ((nmax + 1) * (nmax + 2) / 2) + 1
}

/// The bytes that are still to be read.
struct Rest<'a>(&'a [u8]);

impl Rest<'_> {
    fn bytes<const K: usize>(&mut self) -> Result<[u8; K], u32> {
        let (front, rest) = self.0.split_first_chunk::<K>().ok_or(SHORT)?;
        self.0 = rest;
        Ok(*front)
    }

    /// The body of a record of the kind due: first the kind byte is looked at, then whether the body is there.
    fn record<const K: usize>(&mut self, due: u8) -> Result<[u8; K], u32> {
        let [kind] = self.bytes()?;
        if kind == due { self.bytes() } else { Err(KIND) }
    }

    /// The body that both kinds of head have, and the date behind it. All of it must be there before what it says is looked at.
    fn head(&mut self) -> Result<([u8; 19], Option<i32>), u32> {
        match self.bytes()? {
            [HEAD] => Ok((self.bytes()?, None)),
            [DATED_HEAD] => Ok((self.bytes()?, Some(i32::from_le_bytes(self.bytes()?)))),
            [_] => Err(KIND),
        }
    }
}

/// The word whose least significant byte comes first, at a place of a body.
fn word(body: &[u8], place: usize) -> u64 {
    u64::from_le_bytes(body[place..place + 8].try_into().unwrap())
}

/// Read a file into a model, whose lists keep their memory; on a refusal they hold what was read before it.
pub fn read(bytes: &[u8], model: &mut Model) -> Result<(), u32> {
    let mut rest = Rest(bytes);
    let (head, date) = rest.head()?;
    let nmax = u16::from_le_bytes([head[17], head[18]]) as usize;
    if head[16] > 3 {
        return Err(TIDE);
    }
    if nmax > MAX_DEGREE {
        return Err(SIZE);
    }
    (model.gm, model.radius, model.tide, model.nmax, model.date) = (word(&head, 0), word(&head, 8), head[16], nmax, date);
    model.c.clear();
    model.s.clear();
    for n in 0..=nmax {
        for _ in 0..=n {
            let pair: [u8; 16] = rest.record(PAIR)?;
            model.c.push(word(&pair, 0));
            model.s.push(word(&pair, 8));
        }
    }
    let [] = rest.record(END)?;
    if rest.0.is_empty() { Ok(()) } else { Err(AFTER) }
}

/// Write a model's file in the place of what `out` holds.
pub fn write(model: &Model, out: &mut Vec<u8>) {
    out.clear();
    out.push(if model.date.is_some() { DATED_HEAD } else { HEAD });
    out.extend(model.gm.to_le_bytes());
    out.extend(model.radius.to_le_bytes());
    out.push(model.tide);
    out.extend((model.nmax as u16).to_le_bytes());
    out.extend(model.date.iter().flat_map(|days| days.to_le_bytes()));
    for (c, s) in model.c.iter().zip(&model.s) {
        out.push(PAIR);
        out.extend(c.to_le_bytes());
        out.extend(s.to_le_bytes());
    }
    out.push(END);
}

/// The file of a model.
pub fn file(model: &Model) -> Vec<u8> {
    let mut out = Vec::with_capacity(file_length(model.nmax, model.date.is_some()));
    write(model, &mut out);
    out
}
