//! How a solver ended, through the two numbers that an entry is lent for it.

/// What stands in the two numbers before a call.
const BEFORE: (u32, usize) = (0xa55a_5aa5, 0x5ba5_5aa5_a55a_5ba5);

/// The two numbers, whether it settled and its count.
pub struct Ended {
    pub settled: u32,
    pub count: usize,
}

impl Ended {
    pub fn lent() -> Self {
        Ended { settled: BEFORE.0, count: BEFORE.1 }
    }

    /// What is wrong with them after a call whose solver left this note in the oracle, none where it was refused or has no solver; a solver takes
    /// so many steps at most.
    pub fn fault(&self, note: Option<(bool, usize)>, most: usize) -> Option<String> {
        let (settled, count) = note.map_or(BEFORE, |(settled, count)| (settled as u32, count));
        if (self.settled, self.count) != (settled, count) {
            return Some(format!("settled {} after {}, due {settled} after {count}", self.settled, self.count));
        }
        (note.is_some() && count > most).then(|| format!("{count} steps, above {most}"))
    }
}

/// The most steps of `symmetric_eigen` on a matrix of n rows.
pub fn most(n: usize) -> usize {
    if n > 32 { 100 * n } else { 100 }
}
