//! The lengths of each call's lists, in the order of the call's list parameters, as the library tells them. Sizes above a call's
//! limits are refused here already.

use crate::Refusal;
use crate::ffi::lengths::*;

/// The lengths that an entry writes at a place, into a list of as many as are due.
fn told<const LISTS: usize>(entry: impl FnOnce(*mut usize, usize) -> u32) -> Result<[usize; LISTS], Refusal> {
    let mut lengths = [0; LISTS];
    Refusal::check(entry(lengths.as_mut_ptr(), lengths.len()))?;
    Ok(lengths)
}

/// A function for each entry: its sizes, how many lists its call has, and which.
macro_rules! lengths {
    ($($(#[$lists:meta])* fn $name:ident($($size:ident),*) -> $count:literal = $entry:ident;)*) => {$(
        $(#[$lists])*
        pub fn $name($($size: usize),*) -> Result<[usize; $count], Refusal> {
            // SAFETY: `lengths` and `count` are the list that `told` made for this call alone.
            told(|lengths, count| unsafe { $entry($($size,)* lengths, count) })
        }
    )*};
}

lengths! {
    /// c, s.
    fn zeros(nmax) -> 2 = geopotential_zeros_lengths;
    /// c, s, the answer's c, its s.
    fn truncated(nmax, cut) -> 4 = geopotential_truncated_lengths;
    /// c, s, the answer's c, its s.
    fn rescaled(nmax) -> 4 = geopotential_rescaled_lengths;
    /// c, s, out.
    fn degree_variances(nmax) -> 3 = geopotential_degree_variances_lengths;
    /// c, s, love, out.
    fn degree_amplitudes(nmax) -> 4 = geopotential_degree_amplitudes_lengths;
    /// a, b.
    fn legendre_new(nmax) -> 2 = geopotential_legendre_new_lengths;
    /// a, b.
    fn legendre_grow(nmax) -> 2 = geopotential_legendre_grow_lengths;
    /// a, b, p.
    fn legendre_compute(nmax) -> 3 = geopotential_legendre_compute_lengths;
    /// a, b, p, dp.
    fn legendre_compute_with_derivative(nmax) -> 4 = geopotential_legendre_compute_with_derivative_lengths;
    /// guesses, x, w.
    fn gauss_legendre(n) -> 3 = geopotential_gauss_legendre_lengths;
    /// c, s, love, latitudes, trig, work, out.
    fn grid(nmax, rows, longitudes) -> 7 = geopotential_grid_lengths;
    /// c, s, trig, work, out.
    fn partials(nmax) -> 5 = geopotential_partials_lengths;
    /// c, s, radii, latitudes, trig, work, out.
    fn partials_along(nmax, points) -> 7 = geopotential_partials_along_lengths;
    /// c, s, trig, work, out.
    fn second_partials(nmax) -> 5 = geopotential_second_partials_lengths;
    /// c, s, radii, latitudes, trig, work, out.
    fn second_partials_along(nmax, points) -> 7 = geopotential_second_partials_along_lengths;
    /// love, values, weights, latitudes, trig, work, c, s.
    fn analysis(nmax) -> 8 = geopotential_analysis_lengths;
    /// a, work, values, vectors.
    fn symmetric_eigen(n) -> 4 = geopotential_symmetric_eigen_lengths;
    /// a, work, values, vectors.
    fn householder_ql(n) -> 4 = geopotential_householder_ql_lengths;
    /// weights, latitudes, work, orders, concentrations, vectors, settled.
    fn polar_cap(lmax) -> 7 = geopotential_polar_cap_lengths;
    /// weights, latitudes, marks, s, c, work, matrix.
    fn concentration_matrix(lmax, nodes) -> 7 = geopotential_concentration_matrix_lengths;
    /// weights, latitudes, marks, s, c, work, concentrations, cs, ss.
    fn region(lmax, nodes) -> 9 = geopotential_region_lengths;
    /// outline, work, out.
    fn polygon_intervals(vertices) -> 3 = geopotential_polygon_intervals_lengths;
    /// outline, work, out.
    fn polygon_breaks(vertices) -> 3 = geopotential_polygon_breaks_lengths;
    /// weights, latitudes, marks, s, c, work, the kernel's c, its s.
    fn basin_kernel(lmax, nodes) -> 8 = geopotential_basin_kernel_lengths;
}

/// bytes, c, s, head: by the file's head, whose own refusals come first.
pub fn model_read(bytes: &[u8]) -> Result<[usize; 4], Refusal> {
    // SAFETY: `lengths` and `count` are the list that `told` made for this call alone; the bytes are one slice's.
    told(|lengths, count| unsafe { geopotential_model_read_lengths(bytes.as_ptr(), bytes.len(), lengths, count) })
}

/// c, s, out (bytes), the last longer where a date is stated.
pub fn model_write(nmax: usize, dated: bool) -> Result<[usize; 3], Refusal> {
    // SAFETY: `lengths` and `count` are the list that `told` made for this call alone.
    told(|lengths, count| unsafe { geopotential_model_write_lengths(nmax, dated.into(), lengths, count) })
}

#[cfg(test)]
mod tests {
    use super::*;
    use crate::MAX_DEGREE;

    /// T, the number of pairs to degree N.
    const fn pairs(nmax: usize) -> usize {
        (nmax + 1) * (nmax + 2) / 2
    }

    #[test]
    fn lengths_of_a_field() {
        for n in [0, 1, 7, MAX_DEGREE] {
            let t = pairs(n);
            assert_eq!(zeros(n), Ok([t; 2]));
            assert_eq!(rescaled(n), Ok([t; 4]));
            assert_eq!(truncated(n, 3), Ok([t, t, pairs(n.min(3)), pairs(n.min(3))]));
            assert_eq!(truncated(n, usize::MAX), Ok([t; 4]));
            assert_eq!(degree_variances(n), Ok([t, t, n + 1]));
            assert_eq!(degree_amplitudes(n), Ok([t, t, n + 1, n + 1]));
            assert_eq!(model_write(n, false), Ok([t, t, 21 + 17 * t]));
            assert_eq!(model_write(n, true), Ok([t, t, 25 + 17 * t]));
        }
    }

    #[test]
    fn lengths_of_tables_and_values() {
        for n in [0, 1, 7, MAX_DEGREE] {
            let (t, trig) = (pairs(n), 2 * n + 2);
            assert_eq!(legendre_new(n), Ok([t; 2]));
            assert_eq!(legendre_grow(n), Ok([t; 2]));
            assert_eq!(legendre_compute(n), Ok([t; 3]));
            assert_eq!(legendre_compute_with_derivative(n), Ok([t; 4]));
            assert_eq!(grid(n, 5, 9), Ok([t, t, n + 1, 10, 9 * trig, 3 * t + 3 * (n + 1), 45]));
            assert_eq!(analysis(n), Ok([n + 1, (n + 1) * trig, n + 1, trig, 2 * (n + 1) * trig, 3 * t, t, t]));
            // The four numbers of `Partials` and the ten of `SecondPartials`, whose place is an array.
            assert_eq!(partials(n), Ok([t, t, trig, 4 * t, 4]));
            assert_eq!(partials_along(n, 5), Ok([t, t, 5, 10, 5 * trig, 4 * t, 20]));
            assert_eq!(second_partials(n), Ok([t, t, trig, 5 * t, 10]));
            assert_eq!(second_partials_along(n, 5), Ok([t, t, 5, 10, 5 * trig, 5 * t, 50]));
        }
    }

    #[test]
    fn lengths_of_rules_matrices_and_caps() {
        assert_eq!(gauss_legendre(0), Ok([0; 3]));
        assert_eq!(gauss_legendre(2701), Ok([1351, 2701, 2701]));
        assert_eq!(symmetric_eigen(0), Ok([0; 4]));
        assert_eq!(symmetric_eigen(512), Ok([512 * 512, 512 * 516, 512, 512 * 512]));
        assert_eq!(householder_ql(3), Ok([9, 21, 3, 9]));
        assert_eq!(polar_cap(0), Ok([1, 2, 15, 1, 1, 1, 2]));
        assert_eq!(polar_cap(2), Ok([3, 6, 95, 6, 6, 14, 6]));
        assert_eq!(concentration_matrix(1, 5), Ok([5, 10, 5, 15, 15, 9, 16]));
        assert_eq!(region(1, 5), Ok([5, 10, 5, 15, 15, 93, 4, 12, 12]));
    }

    #[test]
    fn lengths_of_drawn_basins() {
        for v in [0, 1, 2, 3, 4, 7, 4096] {
            assert_eq!(polygon_intervals(v), Ok([2 * v, v, v / 2 * 2]));
            assert_eq!(polygon_breaks(v), Ok([2 * v, v, v]));
        }
        for (l, n) in [(0, 0), (1, 5), (21, 65_535), (MAX_DEGREE, 3), (MAX_DEGREE, 65_535)] {
            let (t, integrals) = (pairs(l), (2 * l + 1) * n);
            assert_eq!(basin_kernel(l, n), Ok([n, 2 * n, n, integrals, integrals, 3 * t, t, t]));
        }
    }

    #[test]
    fn lengths_of_a_file_come_from_its_head() {
        let mut head = [0; 20];
        (head[0], head[17], head[18]) = (1, 3, 2);
        // The six words of a head, whose place is an array.
        assert_eq!(model_read(&head), Ok([123, 6, 6, 6]));
        assert_eq!(model_read(&head[..19]), Err(Refusal::Short));
        // With a date four bytes more are looked at, whatever they hold.
        let mut dated = [&head[..], &[1, 2, 3, 255]].concat();
        dated[0] = 4;
        assert_eq!(model_read(&dated), Ok([127, 6, 6, 6]));
        assert_eq!(model_read(&dated[..23]), Err(Refusal::Short));
        head[19] = 255;
        assert_eq!(model_read(&head), Err(Refusal::Size));
        head[17] = 4;
        assert_eq!(model_read(&head), Err(Refusal::Tide));
        head[0] = 2;
        assert_eq!(model_read(&head), Err(Refusal::Kind));
    }

    #[test]
    fn sizes_above_the_limits_are_refused() {
        for n in [MAX_DEGREE + 1, 1 << 32, usize::MAX] {
            assert_eq!(zeros(n), Err(Refusal::Size));
            assert_eq!(truncated(n, 0), Err(Refusal::Size));
            assert_eq!(legendre_grow(n), Err(Refusal::Size));
            assert_eq!(analysis(n), Err(Refusal::Size));
            assert_eq!(partials(n), Err(Refusal::Size));
            assert_eq!(second_partials(n), Err(Refusal::Size));
            assert_eq!(basin_kernel(n, 0), Err(Refusal::Size));
        }
        assert_eq!(grid(2, 65_536, 0), Err(Refusal::Size));
        assert_eq!(grid(2, 0, 65_536), Err(Refusal::Size));
        assert_eq!(partials_along(2, 65_536), Err(Refusal::Size));
        assert_eq!(second_partials_along(2, 65_536), Err(Refusal::Size));
        assert_eq!(gauss_legendre(2702), Err(Refusal::Size));
        assert_eq!(symmetric_eigen(513), Err(Refusal::Size));
        assert_eq!(householder_ql(513), Err(Refusal::Size));
        assert_eq!(polar_cap(181), Err(Refusal::Size));
        assert_eq!(concentration_matrix(22, 0), Err(Refusal::Size));
        assert_eq!(region(21, 65_536), Err(Refusal::Size));
        assert_eq!(basin_kernel(0, 65_536), Err(Refusal::Size));
        for vertices in [4097, 1 << 32, 1 << 63, usize::MAX] {
            assert_eq!(polygon_intervals(vertices), Err(Refusal::Size));
            assert_eq!(polygon_breaks(vertices), Err(Refusal::Size));
        }
    }
}
