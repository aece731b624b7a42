//! Calls on tables of Legendre functions, and Gauss–Legendre rules.

use crate::Refusal;
use crate::ffi::*;

/// The recursion coefficients of tables to degree `nmax`.
pub struct Recursion<'a> {
    pub nmax: usize,
    pub a: &'a [f64],
    pub b: &'a [f64],
}

pub fn legendre_new(nmax: usize, a: &mut [f64], b: &mut [f64]) -> Result<(), Refusal> {
    // SAFETY: each list is one slice's, borrowed mutably.
    Refusal::check(unsafe { geopotential_legendre_new(nmax, a.as_mut_ptr(), a.len(), b.as_mut_ptr(), b.len()) })
}

/// The rows above degree `from`, behind those up to it.
pub fn legendre_grow(from: usize, nmax: usize, a: &mut [f64], b: &mut [f64]) -> Result<(), Refusal> {
    // SAFETY: each list is one slice's, borrowed mutably.
    Refusal::check(unsafe { geopotential_legendre_grow(from, nmax, a.as_mut_ptr(), a.len(), b.as_mut_ptr(), b.len()) })
}

/// At the latitude with sine `t` and cosine `u`.
pub fn legendre_compute(Recursion { nmax, a, b }: Recursion, (t, u): (f64, f64), p: &mut [f64]) -> Result<(), Refusal> {
    // SAFETY: each list is one slice's; the last is borrowed mutably.
    Refusal::check(unsafe { geopotential_legendre_compute(nmax, t, u, a.as_ptr(), a.len(), b.as_ptr(), b.len(), p.as_mut_ptr(), p.len()) })
}

/// At the latitude with sine `t` and cosine `u`.
pub fn legendre_compute_with_derivative(
    Recursion { nmax, a, b }: Recursion,
    (t, u): (f64, f64),
    p: &mut [f64],
    dp: &mut [f64],
) -> Result<(), Refusal> {
    // SAFETY: each list is one slice's; the last two are borrowed mutably.
    Refusal::check(unsafe {
        geopotential_legendre_compute_with_derivative(
            nmax,
            t,
            u,
            a.as_ptr(),
            a.len(),
            b.as_ptr(),
            b.len(),
            p.as_mut_ptr(),
            p.len(),
            dp.as_mut_ptr(),
            dp.len(),
        )
    })
}

/// A table of P at the sine t becomes that at -t.
pub fn legendre_mirror(nmax: usize, table: &mut [f64]) -> Result<(), Refusal> {
    // SAFETY: the list is one slice's, borrowed mutably.
    Refusal::check(unsafe { geopotential_legendre_mirror(nmax, table.as_mut_ptr(), table.len()) })
}

/// A table of derivatives by latitude at the sine t becomes that at -t.
pub fn legendre_mirror_derivative(nmax: usize, table: &mut [f64]) -> Result<(), Refusal> {
    // SAFETY: the list is one slice's, borrowed mutably.
    Refusal::check(unsafe { geopotential_legendre_mirror_derivative(nmax, table.as_mut_ptr(), table.len()) })
}

pub fn legendre_entry(nmax: usize, table: &[f64], n: usize, m: usize) -> Result<f64, Refusal> {
    let mut value = 0.0;
    // SAFETY: the list is one slice's; `value` is a number of our own.
    Refusal::check(unsafe { geopotential_legendre_entry(nmax, table.as_ptr(), table.len(), n, m, &mut value) })?;
    Ok(value)
}

pub fn gauss_legendre(n: usize, guesses: &[f64], x: &mut [f64], w: &mut [f64]) -> Result<(), Refusal> {
    // SAFETY: each list is one slice's; the last two are borrowed mutably.
    Refusal::check(unsafe {
        geopotential_gauss_legendre(n, guesses.as_ptr(), guesses.len(), x.as_mut_ptr(), x.len(), w.as_mut_ptr(), w.len())
    })
}

#[cfg(test)]
mod tests {
    use super::*;
    use crate::MAX_DEGREE;

    type Mirror = fn(usize, &mut [f64]) -> Result<(), Refusal>;

    const MIRRORS: [Mirror; 2] = [legendre_mirror, legendre_mirror_derivative];

    #[test]
    fn mirrored_signs() {
        let table = [1.0, 2.0, 3.0, 4.0, 5.0, 6.0, 0.0, -0.0, f64::INFINITY, 5e-324];
        let due = [
            [1.0, -2.0, 3.0, 4.0, -5.0, 6.0, -0.0, -0.0, -f64::INFINITY, 5e-324],
            [-1.0, 2.0, -3.0, -4.0, 5.0, -6.0, 0.0, 0.0, f64::INFINITY, -5e-324],
        ];
        for (mirror, due) in MIRRORS.into_iter().zip(due) {
            let mut turned = table;
            assert_eq!(mirror(3, &mut turned), Ok(()));
            assert_eq!(turned.map(f64::to_bits), due.map(f64::to_bits));
        }
    }

    #[test]
    fn a_table_that_is_not_mirrored_is_as_it_was() {
        for mirror in MIRRORS {
            let refused = |nmax, length| {
                let mut table = vec![7.5; length];
                let answer = mirror(nmax, &mut table);
                assert!(table.iter().all(|&number| number == 7.5), "{nmax}, {length} numbers");
                answer
            };
            // The degree is looked at before the length.
            for nmax in [MAX_DEGREE + 1, 1 << 32, usize::MAX - 1, usize::MAX] {
                [0, 1, 6].into_iter().for_each(|length| assert_eq!(refused(nmax, length), Err(Refusal::Size)));
            }
            assert_eq!(refused(MAX_DEGREE + 1, (MAX_DEGREE + 2) * (MAX_DEGREE + 3) / 2), Err(Refusal::Size));
            for nmax in [0, 1, 2, 5, 96] {
                let pairs = (nmax + 1) * (nmax + 2) / 2;
                [0, pairs - 1, pairs + 1].into_iter().for_each(|length| assert_eq!(refused(nmax, length), Err(Refusal::Length)));
            }
            assert_eq!(refused(MAX_DEGREE, 6), Err(Refusal::Length));
        }
    }
}
