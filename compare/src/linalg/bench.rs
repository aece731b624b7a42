//! Times of the crate `linalg`. The Rust allocates its lists in every call.

use super::{SOLVERS, Solver, work_size};
use crate::cases::Cases;
use crate::ended::Ended;
use crate::timing::{allocated, race, repeat};

pub fn bench() {
    for (n, calls) in [(8, 200), (32, 4), (33, 4), (181, 1), (512, 1)] {
        for Solver { name, ours, oracle, .. } in SOLVERS {
            // Above 32 both are the same work.
            if n > 32 && name != "symmetric_eigen" {
                continue;
            }
            let mut cases = Cases::new(1, 1);
            let mut a = vec![0.0; n * n];
            for i in 0..n {
                for j in 0..=i {
                    a[i * n + j] = cases.fraction() - 0.5;
                    a[j * n + i] = a[i * n + j];
                }
            }
            let (mut work, mut values, mut vectors) = (vec![0.0; work_size(n) as usize], vec![0.0; n], vec![0.0; n * n]);
            let (wide, square, mut ended) = (work.len(), n * n, Ended::lent());
            let mine = || {
                repeat(calls, || unsafe {
                    let (w, d, v) = (work.as_mut_ptr(), values.as_mut_ptr(), vectors.as_mut_ptr());
                    ours(n, a.as_ptr(), square, w, wide, d, n, v, square, &mut ended.settled, &mut ended.count)
                })
            };
            race(&format!("{name} n = {n}"), calls, mine, || repeat(calls, || allocated(oracle(&a, n))));
        }
    }
}
