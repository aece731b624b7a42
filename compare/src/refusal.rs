//! Document 01's table of refusals ("Refused, by the place of the check"), stated here once more, for the comparison alone.

pub const SIZE: u32 = 1;
pub const LENGTH: u32 = 2;
pub const SPACE: u32 = 3;
pub const PLACE: u32 = 4;
pub const LOVE: u32 = 5;
pub const SHORT: u32 = 6;
pub const KIND: u32 = 7;
pub const AFTER: u32 = 8;
pub const TIDE: u32 = 9;
/// The C entries' own refusal of a number that is no functional's, before every check of the table.
pub const NO_FUNCTIONAL: u32 = 255;

/// The largest degree that passes.
pub const MAX_DEGREE: usize = 2700;

/// Degrees that don't pass; among them some whose low bits would, and some whose T wraps around to a small number.
pub const BEYOND: [usize; 9] = [2701, 2702, 65_535, 65_536, 1 << 32, (1 << 32) + 2, 1 << 63, usize::MAX - 1, usize::MAX];

/// T = (N+1)(N+2)/2, the number of pairs up to degree N, for every N.
pub fn pairs(nmax: usize) -> u128 {
    let n = nmax as u128;
    n * (n + 1) / 2 + n + 1
}

/// What the table looks at in one call. A list is its length beside the stated length.
#[derive(Default)]
pub struct Checks<'a> {
    /// N; for one factor, its n.
    pub degree: usize,
    /// Other sizes, each beside the largest that passes.
    pub sizes: &'a [(usize, usize)],
    pub inputs: &'a [(usize, u128)],
    /// The degree and order of one entry.
    pub place: Option<(usize, usize)>,
    /// The length of WaterHeight's list; none for another functional.
    pub love: Option<usize>,
    pub outputs: &'a [(usize, u128)],
}

impl Checks<'_> {
    /// The number of the refusal due, 0 where the call is accepted.
    pub fn due(&self) -> u32 {
        let table = [
            (SIZE, self.degree > MAX_DEGREE || self.sizes.iter().any(|(size, largest)| size > largest)),
            (LENGTH, self.inputs.iter().any(|&(length, stated)| length as u128 != stated)),
            (PLACE, self.place.is_some_and(|(n, m)| m > n || n > self.degree)),
            (LOVE, self.love.is_some_and(|length| (length as u128) < self.degree as u128 + 1)),
            (SPACE, self.outputs.iter().any(|&(length, stated)| (length as u128) < stated)),
        ];
        table.iter().find(|(_, refused)| *refused).map_or(0, |(number, _)| *number)
    }
}

/// What is wrong with a refusal's number.
pub fn fault(ours: u32, due: u32) -> Option<String> {
    (ours != due).then(|| format!("refusal {ours}, due {due}"))
}

/// The answer of an accepted call, nothing on a refusal.
pub fn answered<T>(due: u32, answer: impl FnOnce() -> T) -> Option<T> {
    (due == 0).then(answer)
}
