//! A call allocates its answer and nothing else, once the thread's lists have grown to what it needs.

use std::alloc::{GlobalAlloc, Layout, System};
use std::cell::Cell;
use std::hint::black_box;

use geopotential::linalg::{symmetric_eigen, try_symmetric_eigen_with};
use geopotential::slepian::{
    Nodes, basin_average, basin_kernel, cap, polar_cap, polygon, try_basin_kernel, try_polar_cap_with, try_polygon,
};
use geopotential::{Coefficients, Functional, Legendre, gauss_grid, gauss_legendre, model_file};

/// The system's allocator, counting each thread's allocations.
struct Counting;

thread_local! {
    static COUNT: Cell<usize> = const { Cell::new(0) };
}

// SAFETY: every call is the system allocator's.
unsafe impl GlobalAlloc for Counting {
    unsafe fn alloc(&self, layout: Layout) -> *mut u8 {
        COUNT.set(COUNT.get() + 1);
        // SAFETY: the caller keeps the allocator's contract.
        unsafe { System.alloc(layout) }
    }

    unsafe fn dealloc(&self, memory: *mut u8, layout: Layout) {
        // SAFETY: the caller keeps the allocator's contract.
        unsafe { System.dealloc(memory, layout) }
    }
}

#[global_allocator]
static ALLOCATOR: Counting = Counting;

/// How often a call allocates when it is made again.
fn again<T>(mut call: impl FnMut() -> T) -> usize {
    black_box(call());
    let before = COUNT.get();
    let answer = call();
    let count = COUNT.get() - before;
    black_box(answer);
    count
}

#[test]
fn grids_and_points() {
    let (field, (lats, lons)) = (Coefficients::zeros(8.0, 2.0, 20), gauss_grid(20));
    let values = vec![1.0; lats.len() * lons.len()];
    assert_eq!(again(|| field.grid(&Functional::GeoidHeight, 2.5, &lats, &lons)), 1);
    assert_eq!(again(|| field.partials(2.5, 0.3, 1.0)), 0);
    assert_eq!(again(|| field.partials(2.5, 0.3, 1.0).gravity_neu(2.5, 0.3, 0.1)), 0);
    assert_eq!(again(|| field.partials_along(&[(2.5, 0.3, 1.0); 7])), 1);
    assert_eq!(again(|| field.second_partials(2.5, 0.3, 1.0).tensor_neu(2.5, 0.3)), 0);
    assert_eq!(again(|| field.second_partials_along(&[(2.5, 0.3, 1.0); 7])), 1);
    assert_eq!(again(|| Coefficients::analysis(&Functional::GeoidHeight, 2.5, &values, 20, 8.0, 2.0)), 2, "c and s");
    assert_eq!(again(|| basin_average(&field, &field, &Functional::Potential, 2.5)), 0);
    // A smaller call takes the front of the lists.
    let small = field.truncated(3);
    assert_eq!(again(|| small.partials(2.5, 0.3, 1.0)), 0);
}

#[test]
fn fields_and_files() {
    let field = Coefficients::zeros(8.0, 2.0, 20);
    let bytes = model_file::write(&field).unwrap();
    assert_eq!(again(|| model_file::write(&field)), 1);
    assert_eq!(again(|| model_file::read(&bytes)), 2, "c and s");
    assert_eq!(again(|| model_file::read(&bytes[1..])), 0);
    assert_eq!(again(|| field.rescaled(1.0, 1.0)), 2);
    assert_eq!(again(|| field.degree_amplitudes(&Functional::Potential)), 1);
}

#[test]
fn tables_rules_and_matrices() {
    let mut leg = Legendre::new(20);
    assert_eq!(again(|| leg.compute(0.3)), 0);
    assert_eq!(again(|| leg.compute_with_derivative(-0.3)), 0);
    assert_eq!(again(|| leg.mirror()), 0);
    assert_eq!(again(|| leg.grow(20)), 0);
    assert_eq!(again(|| leg.try_grow(2701)), 0);
    for _ in 0..20 {
        assert!(again(|| leg.grow(leg.max_degree() + 1)) <= 3, "P̄nm and the two lists of recursion coefficients");
    }
    // Steps with no latitude between make no list anew: each list is lengthened by doubling it.
    let before = COUNT.get();
    (0..100).for_each(|_| leg.grow(leg.max_degree() + 1));
    assert!(COUNT.get() - before <= 3 * 4);
    assert_eq!(again(|| gauss_legendre(21)), 2, "nodes and weights");
    assert_eq!(again(|| symmetric_eigen(&[2.0, 1.0, 1.0, 2.0], 2)), 2, "values and vectors");
    assert_eq!(again(|| try_symmetric_eigen_with(&[2.0, 1.0, 1.0, 2.0], 2)), 2, "values and vectors");
    assert_eq!(again(|| polar_cap(6, 0.5)), 29, "28 functions and their list");
    assert_eq!(again(|| try_polar_cap_with(6, 0.5)), 30, "and the list of the orders");
    let (intervals, breaks) = cap(0.9, 0.0, 0.4);
    let nodes = Nodes::new(2, &intervals, &breaks, 6);
    assert_eq!(again(|| nodes.concentration_matrix()), 1);
    assert_eq!(again(|| nodes.region()), 19, "c and s of 9 functions, and their list");
}

#[test]
fn drawn_basins() {
    let outline = [(0.0, 0.0), (1.0, 0.0), (1.0, 1.0), (0.5, 0.25), (0.0, 1.0)];
    assert_eq!(again(|| polygon(&outline)), 2, "the copy of the vertices, and the breaks");
    assert_eq!(again(|| try_polygon(&[(0.0, 0.0); 4097]).is_err()), 0);
    let (intervals, breaks) = polygon(&outline);
    let (north, south) = (breaks[1] - 0.1, breaks[1] + 0.1);
    for (theta, count) in [(north, 2), (south, 1)] {
        assert_eq!(intervals(theta).len(), count);
        assert_eq!(again(|| intervals(theta)), 1);
    }
    assert_eq!(again(|| intervals(0.0)), 0, "no interval, no list");
    let nodes = Nodes::new(20, &intervals, &breaks, 6);
    assert_eq!(again(|| nodes.basin_kernel()), 2, "c and s");
    assert_eq!(
        again(|| basin_kernel(20, &intervals, &breaks, 6)),
        2 + 5 + 2 + 12,
        "and five lists, a Gauss rule, the intervals at 12 nodes"
    );
    assert_eq!(again(|| try_basin_kernel(2701, &intervals, &breaks, 6)), 0);
}
