//! Calls on points: the potential with its first derivatives, and with its second, and what is made of them in a local frame.

use crate::ffi::*;
use crate::{Coefficients, Partials, Refusal, SecondPartials};

/// An entry that writes its numbers at one point.
type AtPoint = unsafe extern "C" fn(
    gm: f64,
    radius: f64,
    nmax: usize,
    c: *const f64,
    c_len: usize,
    s: *const f64,
    s_len: usize,
    r: f64,
    t: f64,
    u: f64,
    trig: *const f64,
    trig_len: usize,
    work: *mut f64,
    work_len: usize,
    out: *mut f64,
    out_len: usize,
) -> u32;

/// The numbers that an entry writes at radius `r`, the latitude with sine `t` and cosine `u`, and the longitude of `trig`.
fn at_point<const NUMBERS: usize>(
    entry: AtPoint,
    field: &Coefficients,
    r: f64,
    (t, u): (f64, f64),
    trig: &[f64],
    work: &mut [f64],
) -> Result<[f64; NUMBERS], Refusal> {
    let (c, s) = (&field.c, &field.s);
    let mut out = [0.0; NUMBERS];
    // SAFETY: each list is one slice's; the last two are borrowed mutably.
    Refusal::check(unsafe {
        entry(
            field.gm,
            field.radius,
            field.nmax,
            c.as_ptr(),
            c.len(),
            s.as_ptr(),
            s.len(),
            r,
            t,
            u,
            trig.as_ptr(),
            trig.len(),
            work.as_mut_ptr(),
            work.len(),
            out.as_mut_ptr(),
            out.len(),
        )
    })?;
    Ok(out)
}

/// At radius `r`, the latitude with sine and cosine `pair`, and the longitude of `trig`.
pub fn partials(field: &Coefficients, r: f64, pair: (f64, f64), trig: &[f64], work: &mut [f64]) -> Result<Partials, Refusal> {
    at_point(geopotential_partials, field, r, pair, trig, work).map(|numbers| Partials::of(&numbers))
}

/// At radius `r`, the latitude with sine and cosine `pair`, and the longitude of `trig`.
pub fn second_partials(field: &Coefficients, r: f64, pair: (f64, f64), trig: &[f64], work: &mut [f64]) -> Result<SecondPartials, Refusal> {
    at_point(geopotential_second_partials, field, r, pair, trig, work).map(|numbers| SecondPartials::of(&numbers))
}

/// The lists of many points: their radii, pairs of their latitudes, cosines and sines of the multiples of their longitudes.
pub struct Points<'a> {
    pub count: usize,
    pub radii: &'a [f64],
    pub latitudes: &'a [f64],
    pub trig: &'a [f64],
}

/// An entry that writes its numbers for each of many points.
type AlongPoints = unsafe extern "C" fn(
    gm: f64,
    radius: f64,
    nmax: usize,
    c: *const f64,
    c_len: usize,
    s: *const f64,
    s_len: usize,
    points: usize,
    radii: *const f64,
    radii_len: usize,
    latitudes: *const f64,
    latitudes_len: usize,
    trig: *const f64,
    trig_len: usize,
    work: *mut f64,
    work_len: usize,
    out: *mut f64,
    out_len: usize,
) -> u32;

/// The numbers that an entry writes for each point.
fn along_points(
    entry: AlongPoints,
    field: &Coefficients,
    Points { count, radii, latitudes, trig }: Points,
    work: &mut [f64],
    out: &mut [f64],
) -> Result<(), Refusal> {
    let (c, s) = (&field.c, &field.s);
    // SAFETY: each list is one slice's; the last two are borrowed mutably.
    Refusal::check(unsafe {
        entry(
            field.gm,
            field.radius,
            field.nmax,
            c.as_ptr(),
            c.len(),
            s.as_ptr(),
            s.len(),
            count,
            radii.as_ptr(),
            radii.len(),
            latitudes.as_ptr(),
            latitudes.len(),
            trig.as_ptr(),
            trig.len(),
            work.as_mut_ptr(),
            work.len(),
            out.as_mut_ptr(),
            out.len(),
        )
    })
}

/// Four numbers for each point.
pub fn partials_along(field: &Coefficients, points: Points, work: &mut [f64], out: &mut [f64]) -> Result<(), Refusal> {
    along_points(geopotential_partials_along, field, points, work, out)
}

/// Ten numbers for each point.
pub fn second_partials_along(field: &Coefficients, points: Points, work: &mut [f64], out: &mut [f64]) -> Result<(), Refusal> {
    along_points(geopotential_second_partials_along, field, points, work, out)
}

/// At radius `r` and the latitude with sine `t` and cosine `u`.
pub fn acceleration_neu(Partials { v, dr, dlat, dlon }: Partials, r: f64, (t, u): (f64, f64)) -> Result<[f64; 3], Refusal> {
    let mut out = [0.0; 3];
    // SAFETY: the list is an array of our own.
    Refusal::check(unsafe { geopotential_acceleration_neu(v, dr, dlat, dlon, r, t, u, out.as_mut_ptr(), out.len()) })?;
    Ok(out)
}

/// At radius `r` and the latitude with sine `t` and cosine `u`, rotating at `omega`.
pub fn gravity_neu(Partials { v, dr, dlat, dlon }: Partials, r: f64, (t, u): (f64, f64), omega: f64) -> Result<[f64; 3], Refusal> {
    let mut out = [0.0; 3];
    // SAFETY: the list is an array of our own.
    Refusal::check(unsafe { geopotential_gravity_neu(v, dr, dlat, dlon, r, t, u, omega, out.as_mut_ptr(), out.len()) })?;
    Ok(out)
}

/// At radius `r` and the latitude with sine `t` and cosine `u`.
pub fn tensor_neu(second: SecondPartials, r: f64, (t, u): (f64, f64)) -> Result<[[f64; 3]; 3], Refusal> {
    let SecondPartials { first: Partials { v, dr, dlat, dlon }, drr, dlatlat, dlonlon, drlat, drlon, dlatlon } = second;
    let mut out = [[0.0; 3]; 3];
    let nine = out.as_flattened_mut();
    // SAFETY: the list is an array of our own.
    Refusal::check(unsafe {
        let (place, length) = (nine.as_mut_ptr(), nine.len());
        geopotential_tensor_neu(v, dr, dlat, dlon, drr, dlatlat, dlonlon, drlat, drlon, dlatlon, r, t, u, place, length)
    })?;
    Ok(out)
}

#[cfg(test)]
mod tests {
    use super::*;
    use crate::calls::lengths;

    /// Lists of these lengths.
    fn lists<const LISTS: usize>(lengths: [usize; LISTS]) -> [Vec<f64>; LISTS] {
        lengths.map(|length| vec![0.0; length])
    }

    #[test]
    fn wrong_lists_of_one_point_are_refused() {
        let field = Coefficients::zeros(8.0, 1.0, 2);
        let [_, _, trig, work, _] = lengths::second_partials(2).unwrap();
        let answer = |trig: usize, work: usize| {
            let [trig, mut work] = lists([trig, work]);
            second_partials(&field, 2.0, (0.6, 0.8), &trig, &mut work).map(|at| at.first.v)
        };
        assert_eq!(answer(trig, work), Ok(0.0));
        assert_eq!(answer(trig, work + 1), Ok(0.0));
        assert_eq!(answer(trig, work - 1), Err(Refusal::Space));
        for wrong in [trig - 1, trig + 1] {
            assert_eq!(answer(wrong, work), Err(Refusal::Length));
            assert_eq!(answer(wrong, 0), Err(Refusal::Length), "lengths come before space");
        }
    }

    #[test]
    fn wrong_lists_of_many_points_are_refused() {
        let field = Coefficients::zeros(8.0, 1.0, 2);
        let [_, _, due @ ..] = lengths::second_partials_along(2, 3).unwrap();
        let answer = |lengths: [usize; 5]| {
            let [radii, latitudes, trig, mut work, mut out] = lists(lengths);
            let points = Points { count: 3, radii: &radii, latitudes: &latitudes, trig: &trig };
            second_partials_along(&field, points, &mut work, &mut out)
        };
        assert_eq!(answer(due), Ok(()));
        let refused = |place: usize, change: isize| {
            let mut lengths = due;
            lengths[place] = lengths[place].saturating_add_signed(change);
            answer(lengths).err()
        };
        for input in 0..3 {
            assert_eq!([refused(input, -1), refused(input, 1)], [Some(Refusal::Length); 2], "list {input}");
        }
        for lent in 3..5 {
            assert_eq!([refused(lent, -1), refused(lent, 1)], [Some(Refusal::Space), None], "list {lent}");
        }
    }
}
