//! Sines and cosines, which the library is lent: worked out by the standard library, from the published crate's expressions.

/// Writes pairs end to end.
fn put(list: &mut [f64], pairs: impl Iterator<Item = [f64; 2]>) {
    for (place, pair) in list.as_chunks_mut().0.iter_mut().zip(pairs) {
        *place = pair;
    }
}

/// Cosine and sine of an angle, as lists of longitudes hold them.
fn cosine_and_sine(angle: f64) -> [f64; 2] {
    let (sin, cos) = angle.sin_cos();
    [cos, sin]
}

/// Sine and cosine of each latitude (radians).
pub fn put_latitudes(list: &mut [f64], lats: impl Iterator<Item = f64>) {
    put(list, lats.map(|lat| lat.sin_cos().into()));
}

/// Cosine and sine of m times each longitude (radians), m from 0 to `nmax`.
pub fn put_longitudes(list: &mut [f64], lons: impl Iterator<Item = f64>, nmax: usize) {
    put(list, lons.flat_map(|lon| (0..=nmax).map(move |m| cosine_and_sine(m as f64 * lon))));
}

/// Cosine and sine of m times each of `count` longitudes that divide the circle, order after order, m from 0 to `nmax`.
pub fn put_circle(list: &mut [f64], count: usize, nmax: usize) {
    let angle = move |m: usize, j: usize| m as f64 * core::f64::consts::TAU * j as f64 / count as f64;
    put(list, (0..=nmax).flat_map(|m| (0..count).map(move |j| cosine_and_sine(angle(m, j)))));
}
