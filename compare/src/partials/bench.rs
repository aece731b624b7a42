//! Times of the crate `partials`.

use super::ENTRIES;
use crate::points;

pub fn bench() {
    points::bench::bench("partials", &ENTRIES);
}
