//! Files of the comparison of the C entries: inputs, lent lists, lengths, counting.

#[path = "../../../compare/src/cases.rs"]
pub mod cases;
#[path = "../../../compare/src/coefficients/fields.rs"]
pub mod fields;
#[path = "../../../compare/src/lent.rs"]
pub mod lent;
#[path = "../../../compare/src/refusal.rs"]
pub mod refusal;
#[path = "../../../compare/src/sizes.rs"]
pub mod sizes;
#[path = "../../../compare/src/tally.rs"]
pub mod tally;
