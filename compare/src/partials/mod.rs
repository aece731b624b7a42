//! The crate `partials` against the oracle's `partials`, `acceleration_neu` and `gravity_neu`.

pub mod bench;
pub mod replay;

use oracle::Partials;

use crate::cases::Cases;
use crate::entries::*;
use crate::guarded::Guarded;
use crate::lent::latitude;
use crate::points::Entries;
use crate::refusal::{SPACE, answered, fault};
use crate::tally::{Report, Tally, shown};

/// The random points, and the random lists of points.
const COUNT: u64 = 20_000;
const ORBITS: u64 = 4_000;

/// A working list of four tables, four numbers a point.
pub const ENTRIES: Entries<4> = Entries {
    tables: 4,
    one: geopotential_partials,
    many: geopotential_partials_along,
    oracle: |field, place| four(&field.partials(place.r, place.lat, &place.lon)),
    law: |_, _, _, _| None,
};

pub fn compare(report: &mut Report) {
    report.call("partials.partials", |tally, cases| ENTRIES.one_by_one(tally, cases, COUNT));
    report.call("partials.partials_along", |tally, cases| ENTRIES.along(tally, cases, ORBITS));
    report.call("partials.along, refusals", |tally, cases| ENTRIES.along_refusals(tally, cases));
    report.call("partials.local", local);
}

/// The four numbers in the order of the lists.
pub fn four(at: &Partials) -> [f64; 4] {
    [at.v, at.dr, at.dlat, at.dlon]
}

/// Accelerations and gravity from any four numbers, at poles and at r = 0 too.
fn local(tally: &mut Tally, cases: &mut Cases) {
    for _ in cases.times(20 * COUNT) {
        let at = Partials { v: cases.number(), dr: cases.number(), dlat: cases.number(), dlon: cases.number() };
        let r = if cases.below(8) == 0 { 0.0 } else { cases.number() };
        let (lat, omega) = (latitude(cases), if cases.below(2) == 0 { 7.292115e-5 } else { cases.number() });
        let room = if cases.below(16) == 0 { cases.below(3) as usize } else { 3 + cases.below(3) as usize };
        let due = if room < 3 { SPACE } else { 0 };
        let (mut free, mut turning) = (Guarded::marked(room), Guarded::marked(room));
        let [v, dr, dlat, dlon] = four(&at);
        let ours = unsafe {
            let free = geopotential_acceleration_neu(v, dr, dlat, dlon, r, lat.0, lat.1, free.pointer(), room);
            (free, geopotential_gravity_neu(v, dr, dlat, dlon, r, lat.0, lat.1, omega, turning.pointer(), room))
        };
        let acceleration = answered(due, || at.acceleration_neu(r, lat).to_vec()).unwrap_or_default();
        let gravity = answered(due, || at.gravity_neu(r, lat, omega).to_vec()).unwrap_or_default();
        let fault = fault(ours.0, due)
            .or_else(|| fault(ours.1, due))
            .or_else(|| free.fault("acceleration", &acceleration))
            .or_else(|| turning.fault("gravity", &gravity));
        tally.call(fault, || format!("{at:?}, r, t, u, omega {:?}, room {room}", [r, lat.0, lat.1, omega].map(shown)));
    }
}
