//! What a call refuses, by document 01's numbers and names.

use core::fmt;

/// Why a call was refused. A refused call has changed nothing.
#[derive(Clone, Copy, Debug, PartialEq, Eq, Hash)]
#[non_exhaustive]
pub enum Refusal {
    /// A degree above 2700 (Gauss rule 2701, matrix 512, cap 180, region 21), more than 65,535 rows, longitudes, points or nodes, or more
    /// than 4,096 vertices.
    Size,
    /// A list has not exactly the stated length.
    Length,
    /// A list for an answer or for working numbers is too short. The crate makes these itself, so no caller should meet it.
    Space,
    /// An entry outside its table: an order above its degree, or a degree above the table's.
    Place,
    /// Water heights without a load Love number for each degree used.
    Love,
    /// A model file that ends early.
    Short,
    /// A model file that has another record than the one due.
    Kind,
    /// A model file that goes on after its end record.
    After,
    /// A model file that names a tide system above 3.
    Tide,
    /// A number that is no functional's. [`Functional`](crate::Functional) has no such number, so no caller should meet it.
    NoFunctional,
    /// A number that this crate has no name for: the library is of another version than the crate.
    Unknown(u32),
}

impl Refusal {
    /// Those that have a name, with their numbers in document 01.
    const ALL: [(Refusal, u32); 10] = [
        (Refusal::Size, 1),
        (Refusal::Length, 2),
        (Refusal::Space, 3),
        (Refusal::Place, 4),
        (Refusal::Love, 5),
        (Refusal::Short, 6),
        (Refusal::Kind, 7),
        (Refusal::After, 8),
        (Refusal::Tide, 9),
        (Refusal::NoFunctional, 255),
    ];

    /// Its number in document 01, and in the answers of the C entries.
    pub fn number(self) -> u32 {
        match self {
            Refusal::Unknown(number) => number,
            named => Refusal::ALL.into_iter().find(|(refusal, _)| *refusal == named).map_or(0, |(_, number)| number),
        }
    }

    /// Its name in document 01.
    pub fn name(self) -> &'static str {
        self.texts().0
    }

    /// Its name and its meaning.
    fn texts(self) -> (&'static str, &'static str) {
        match self {
            Refusal::Size => (
                "SIZE",
                "a degree above 2700 (Gauss rule 2701, matrix 512, cap 180, region 21), more than 65,535 rows, longitudes, points or nodes, \
                 or more than 4,096 vertices",
            ),
            Refusal::Length => ("LENGTH", "a list has not exactly the stated length"),
            Refusal::Space => ("SPACE", "a list for an answer or for working numbers is too short"),
            Refusal::Place => ("PLACE", "an entry outside its table"),
            Refusal::Love => ("LOVE", "water heights without a load Love number for each degree used"),
            Refusal::Short => ("SHORT", "the model file ends early"),
            Refusal::Kind => ("KIND", "the model file has another record than the one due"),
            Refusal::After => ("AFTER", "the model file goes on after its end record"),
            Refusal::Tide => ("TIDE", "the model file names a tide system above 3"),
            Refusal::NoFunctional => ("NO FUNCTIONAL", "the number is no functional's"),
            Refusal::Unknown(_) => ("UNKNOWN", "the library has a refusal that this crate does not know; are they of one version?"),
        }
    }

    /// What the number that an entry answers says: done, or refused.
    pub(crate) fn check(number: u32) -> Result<(), Refusal> {
        if number == 0 {
            return Ok(());
        }
        let named = Refusal::ALL.into_iter().find(|&(_, known)| known == number);
        Err(named.map_or(Refusal::Unknown(number), |(refusal, _)| refusal))
    }
}

impl fmt::Display for Refusal {
    fn fmt(&self, f: &mut fmt::Formatter<'_>) -> fmt::Result {
        let (name, meaning) = self.texts();
        write!(f, "refused ({} {name}): {meaning}", self.number())
    }
}

impl core::error::Error for Refusal {}

/// The answer, for calls of the published crate, which panic where theirs is refused.
#[track_caller]
pub(crate) fn or_panic<T>(answer: Result<T, Refusal>) -> T {
    match answer {
        Ok(answer) => answer,
        Err(refusal) => panic!("{refusal}"),
    }
}

#[cfg(test)]
mod tests {
    use super::Refusal;

    #[test]
    fn every_name_has_its_number_and_comes_back() {
        for (refusal, number) in Refusal::ALL {
            assert_eq!(refusal.number(), number);
            assert_eq!(Refusal::check(number), Err(refusal));
        }
        assert_eq!(Refusal::check(0), Ok(()));
    }

    #[test]
    fn a_number_without_a_name_is_an_error() {
        for number in [10, 11, 12, 254, 256, u32::MAX] {
            assert_eq!(Refusal::check(number), Err(Refusal::Unknown(number)));
            assert_eq!(Refusal::Unknown(number).number(), number);
            assert!(Refusal::Unknown(number).to_string().contains(&number.to_string()));
        }
    }
}
