//! Compression in zlib's form (RFC 1950 and 1951): LZ77 with hash chains and the fixed Huffman code.

/// The farthest a match may reach back.
const WINDOW: usize = 32_768;
/// The shortest and the longest match.
const SHORTEST: usize = 3;
const LONGEST: usize = 258;
/// How many earlier places are tried for a match.
const TRIES: usize = 96;
/// Places are found by a hash of their next three bytes.
const HASH_BITS: u32 = 15;
/// No place.
const NONE: usize = usize::MAX;
/// The symbol that ends a block.
const END_OF_BLOCK: u32 = 256;

/// The zlib stream of some bytes.
pub fn zlib(data: &[u8]) -> Vec<u8> {
    // Deflate with a window of 32 KiB; the second byte makes the two a multiple of 31.
    let mut out = vec![0x78, 0x9c];
    out.extend(deflate(data));
    out.extend(adler32(data).to_be_bytes());
    out
}

/// The checksum behind a zlib stream.
pub fn adler32(data: &[u8]) -> u32 {
    const MODULUS: u32 = 65_521;
    let (mut a, mut b) = (1, 0);
    // 5552 bytes are as many as keep both sums below 2³².
    for chunk in data.chunks(5552) {
        for &byte in chunk {
            a += u32::from(byte);
            b += a;
        }
        a %= MODULUS;
        b %= MODULUS;
    }
    b << 16 | a
}

/// One block, the last, in the fixed code.
fn deflate(data: &[u8]) -> Vec<u8> {
    let mut bits = BitWriter::default();
    bits.put(0b011, 3);
    let mut places = Places::new(data);
    let mut at = 0;
    while at < data.len() {
        let (length, distance) = places.longest_match(at);
        let step = if length >= SHORTEST {
            put_match(&mut bits, length, distance);
            length
        } else {
            put_symbol(&mut bits, u32::from(data[at]));
            1
        };
        for place in at..at + step {
            places.remember(place);
        }
        at += step;
    }
    put_symbol(&mut bits, END_OF_BLOCK);
    bits.finish()
}

/// The earlier places of every three bytes: the newest of each hash, and for a place the one before it.
struct Places<'a> {
    data: &'a [u8],
    newest: Vec<usize>,
    before: Vec<usize>,
}

impl<'a> Places<'a> {
    fn new(data: &'a [u8]) -> Self {
        Places { data, newest: vec![NONE; 1 << HASH_BITS], before: vec![NONE; data.len()] }
    }

    fn hash(&self, at: usize) -> Option<usize> {
        let three = self.data.get(at..at + SHORTEST)?;
        let word = u32::from_le_bytes([three[0], three[1], three[2], 0]);
        Some((word.wrapping_mul(0x9e37_79b1) >> (32 - HASH_BITS)) as usize)
    }

    fn remember(&mut self, at: usize) {
        if let Some(hash) = self.hash(at) {
            self.before[at] = self.newest[hash];
            self.newest[hash] = at;
        }
    }

    /// Length and distance of the longest match at a place; the nearest one where several are as long.
    fn longest_match(&self, at: usize) -> (usize, usize) {
        let mut best = (0, 0);
        let Some(hash) = self.hash(at) else { return best };
        let here = &self.data[at..self.data.len().min(at + LONGEST)];
        let mut place = self.newest[hash];
        for _ in 0..TRIES {
            if place == NONE || at - place > WINDOW {
                break;
            }
            let length = here.iter().zip(&self.data[place..]).take_while(|(a, b)| a == b).count();
            if length > best.0 {
                best = (length, at - place);
            }
            if length == here.len() {
                break;
            }
            place = self.before[place];
        }
        best
    }
}

/// A literal, a length or the end of the block, in the fixed code of RFC 1951, 3.2.6.
fn put_symbol(bits: &mut BitWriter, symbol: u32) {
    match symbol {
        0..=143 => bits.put_code(0x30 + symbol, 8),
        144..=255 => bits.put_code(0x190 + symbol - 144, 9),
        256..=279 => bits.put_code(symbol - 256, 7),
        _ => bits.put_code(0xc0 + symbol - 280, 8),
    }
}

/// A match: symbols whose ranges double, each range cut in four for lengths and in two for distances.
fn put_match(bits: &mut BitWriter, length: usize, distance: usize) {
    match (length - SHORTEST) as u32 {
        255 => put_symbol(bits, 285),
        beyond @ 0..8 => put_symbol(bits, 257 + beyond),
        beyond => {
            let extra = beyond.ilog2() - 2;
            put_symbol(bits, 257 + 4 * extra + (beyond >> extra));
            bits.put(beyond & ((1 << extra) - 1), extra);
        }
    }
    match (distance - 1) as u32 {
        beyond @ 0..4 => bits.put_code(beyond, 5),
        beyond => {
            let extra = beyond.ilog2() - 1;
            bits.put_code(2 * extra + (beyond >> extra), 5);
            bits.put(beyond & ((1 << extra) - 1), extra);
        }
    }
}

/// Bits packed from the least significant end of each byte.
#[derive(Default)]
struct BitWriter {
    bytes: Vec<u8>,
    pending: u64,
    count: u32,
}

impl BitWriter {
    /// A number, its least significant bit first.
    fn put(&mut self, value: u32, width: u32) {
        self.pending |= u64::from(value) << self.count;
        self.count += width;
        while self.count >= 8 {
            self.bytes.push(self.pending as u8);
            self.pending >>= 8;
            self.count -= 8;
        }
    }

    /// A Huffman code, its most significant bit first.
    fn put_code(&mut self, code: u32, width: u32) {
        self.put(code.reverse_bits() >> (32 - width), width);
    }

    fn finish(mut self) -> Vec<u8> {
        if self.count > 0 {
            self.bytes.push(self.pending as u8);
        }
        self.bytes
    }
}
