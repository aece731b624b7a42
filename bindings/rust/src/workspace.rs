//! The lists that calls work with. Each thread has one set of them, which grows to what its largest call needs and is kept, so
//! that a call allocates nothing but its answer.

use core::cell::RefCell;

use crate::legendre::GaussLists;
use crate::trigonometry::put_longitudes;

/// A list that grows and never shrinks.
#[derive(Default)]
pub struct List<T = f64>(Vec<T>);

impl<T: Copy + Default> List<T> {
    /// Its first `length` numbers, whatever they are; it grows where it is shorter.
    pub fn front(&mut self, length: usize) -> &mut [T] {
        if self.0.len() < length {
            // What it holds is not wanted: let it go before the longer one is made, and copy nothing.
            self.0 = Vec::new();
            self.0 = vec![T::default(); length];
        }
        &mut self.0[..length]
    }
}

/// Cosines and sines of the multiples of a grid's longitudes, kept for the next grid: rows of different radii come by calls of
/// their own, with the same longitudes.
#[derive(Default)]
pub struct GridLongitudes {
    /// The bits of the longitudes that the list belongs to, and its degree.
    bits: Vec<u64>,
    nmax: usize,
    list: List,
}

impl GridLongitudes {
    /// The list of `length` numbers of these longitudes (radians), worked out where the last one was not theirs.
    pub fn list(&mut self, length: usize, lons: &[f64], nmax: usize) -> &[f64] {
        let known = self.nmax == nmax && self.bits.iter().copied().eq(lons.iter().map(|lon| lon.to_bits()));
        let list = self.list.front(length);
        if !known {
            put_longitudes(list, lons.iter().copied(), nmax);
            self.bits.clear();
            self.bits.extend(lons.iter().map(|lon| lon.to_bits()));
            self.nmax = nmax;
        }
        list
    }
}

/// The lists of one thread, each for one part of a call.
#[derive(Default)]
pub struct Workspace {
    /// Nodes and weights of a Gauss–Legendre rule.
    pub gauss: GaussLists,
    /// Geocentric radii of points.
    pub radii: List,
    /// Sines and cosines of latitudes.
    pub latitudes: List,
    /// Cosines and sines of the multiples of longitudes.
    pub trig: List,
    /// The same of a grid.
    pub longitudes: GridLongitudes,
    /// Working numbers of a call.
    pub work: List,
    /// Numbers of a call whose answer is a list of records: partials of points, vectors of a cap, cosine coefficients of a region's
    /// functions.
    pub numbers: List,
    /// Sine coefficients of a region's functions.
    pub sines: List,
    /// Orders of a cap's functions.
    pub orders: List,
    /// How the solver ended for each order of a cap.
    pub settled: List,
    /// Concentrations of a cap's or a region's functions.
    pub concentrations: List,
    /// Bit patterns of a model's C̄nm.
    pub c_bits: List<u64>,
    /// Bit patterns of a model's S̄nm.
    pub s_bits: List<u64>,
}

thread_local! {
    static WORKSPACE: RefCell<Workspace> = RefCell::default();
}

/// Lends the thread's lists to one call. A call that holds them calls no other that wants them.
pub fn lend<T>(call: impl FnOnce(&mut Workspace) -> T) -> T {
    WORKSPACE.with_borrow_mut(call)
}

#[cfg(test)]
mod tests {
    use super::*;

    #[test]
    fn a_grids_longitudes_are_kept_until_others_come() {
        let mut kept = GridLongitudes::default();
        let mut fresh = |lons: &[f64], nmax: usize| {
            let length = 2 * (nmax + 1) * lons.len();
            let mut expected = vec![0.0; length];
            put_longitudes(&mut expected, lons.iter().copied(), nmax);
            assert_eq!(kept.list(length, lons, nmax), expected);
            assert_eq!(kept.list(length, lons, nmax), expected);
        };
        fresh(&[], 0);
        fresh(&[0.5, 1.0], 3);
        fresh(&[0.5, 1.5], 3);
        fresh(&[0.5, 1.5], 2);
        fresh(&[0.5], 2);
        fresh(&[-0.5, 1.5, 2.0], 4);
        fresh(&[], 4);
        fresh(&[0.0], 4);
        // The two zeros are two longitudes: their sines differ.
        assert!(kept.list(10, &[-0.0], 4)[3].is_sign_negative());
    }

    #[test]
    fn a_list_grows_and_is_kept() {
        let mut list: List = List::default();
        assert!(list.front(0).is_empty());
        list.front(3).copy_from_slice(&[1.0, 2.0, 3.0]);
        assert_eq!(list.front(2), [1.0, 2.0]);
        let place = list.front(9).as_ptr();
        assert_eq!(list.front(4).len(), 4);
        assert_eq!(list.front(9).as_ptr(), place);
    }
}
