//! Times of the crate `second_partials`.

use super::ENTRIES;
use crate::points;

pub fn bench() {
    points::bench::bench("second_partials", &ENTRIES);
}
