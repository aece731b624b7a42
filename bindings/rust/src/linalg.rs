//! Dense linear algebra that the potential-field crates share: eigenvalues and eigenvectors of symmetric matrices.
//!
//! ```
//! use geopotential::linalg::symmetric_eigen;
//!
//! // [[2, 1], [1, 2]] has the eigenvalues 1 and 3, with (1, −1)/√2 and (1, 1)/√2.
//! let (values, vectors) = symmetric_eigen(&[2.0, 1.0, 1.0, 2.0], 2);
//! assert!((values[0] - 1.0).abs() < 1e-15 && (values[1] - 3.0).abs() < 1e-15);
//! assert!((vectors[1] - 0.5f64.sqrt()).abs() < 1e-15 && (vectors[3] - 0.5f64.sqrt()).abs() < 1e-15);
//! ```

use crate::calls::{lengths, matrices};
use crate::refusal::{Refusal, or_panic};
use crate::workspace;

/// How a solver ended. The answer is given in either case, and neither number is an error bound.
///
/// Settled is not right: `[1, 1e200; 1e200, 1]` settles after 0 sweeps with its diagonal as the eigenvalues, because its squares
/// overflow. Unsettled is not wrong: eigenvalues that cluster at 0 keep the test from passing, however good the answer is. The two
/// solvers test different things, and a matrix may settle by one and not by the other.
#[derive(Clone, Copy, Debug, PartialEq, Eq)]
pub struct Convergence {
    /// By rotations: the test before one of the hundred sweeps passed. By QL iteration: each of the `n` numbers met its stopping
    /// test within its hundred rounds.
    pub settled: bool,
    /// By rotations ([`symmetric_eigen`] with `n ≤ 32`): the sweeps done, at most 100. By QL iteration: the rounds of all `n`
    /// numbers that went past the stopping test, those that broke off on a zero among them, at most `100n`.
    pub count: usize,
}

/// Eigenvalues and eigenvectors of a symmetric `n×n` matrix `a` (row-major). Eigenvalue `k` is
/// `values[k]`, with its eigenvector, meant to be of unit norm, in column `k` of `vectors`
/// (row-major), in no particular order. One that has not settled is still answered, and
/// [`try_symmetric_eigen_with`] tells of it. Up to `n = 32` by cyclic Jacobi rotations, which are
/// meant to keep small eigenvalues accurate to the matrix's round-off; above that by
/// [`householder_ql`], which costs one `O(n³)` instead of one per sweep.
///
/// # Panics
/// If `n > 512`, or `a` has not exactly `n²` entries.
#[track_caller]
pub fn symmetric_eigen(a: &[f64], n: usize) -> (Vec<f64>, Vec<f64>) {
    or_panic(try_symmetric_eigen(a, n))
}

/// [`symmetric_eigen`], refused instead of a panic.
pub fn try_symmetric_eigen(a: &[f64], n: usize) -> Result<(Vec<f64>, Vec<f64>), Refusal> {
    plain(try_symmetric_eigen_with(a, n))
}

/// [`try_symmetric_eigen`], with how the solver ended.
///
/// ```
/// use geopotential::linalg::{Convergence, try_symmetric_eigen_with};
///
/// let (values, _, end) = try_symmetric_eigen_with(&[7.0, 0.0, 0.0, 5.0], 2)?;
/// assert_eq!((values, end), (vec![7.0, 5.0], Convergence { settled: true, count: 0 }));
/// // A NaN keeps the test from passing.
/// let (_, _, end) = try_symmetric_eigen_with(&[f64::NAN], 1)?;
/// assert_eq!(end, Convergence { settled: false, count: 100 });
/// # Ok::<(), geopotential::Refusal>(())
/// ```
pub fn try_symmetric_eigen_with(a: &[f64], n: usize) -> Result<(Vec<f64>, Vec<f64>, Convergence), Refusal> {
    eigen(a, n, lengths::symmetric_eigen(n)?, matrices::symmetric_eigen)
}

/// [`symmetric_eigen`] by Householder reduction to tridiagonal form and the implicit QL
/// iteration with Wilkinson shifts (Golub & Van Loan, *Matrix Computations*, Algorithms 8.3.1
/// and 8.3.3; EISPACK's `tred2` and `tql2`), `(4/3)n³` operations for the reduction and `O(n²)`
/// per eigenvalue after it. Eigenvalues are meant to be accurate to round-off times the matrix's
/// norm.
///
/// # Panics
/// If `n > 512`, or `a` has not exactly `n²` entries.
#[track_caller]
pub fn householder_ql(a: &[f64], n: usize) -> (Vec<f64>, Vec<f64>) {
    or_panic(try_householder_ql(a, n))
}

/// [`householder_ql`], refused instead of a panic.
pub fn try_householder_ql(a: &[f64], n: usize) -> Result<(Vec<f64>, Vec<f64>), Refusal> {
    plain(try_householder_ql_with(a, n))
}

/// [`try_householder_ql`], with how the solver ended.
///
/// ```
/// use geopotential::linalg::{Convergence, try_householder_ql_with};
///
/// let (values, _, end) = try_householder_ql_with(&[1.0, 1e200, 1e200, 1.0], 2)?;
/// assert!((values[0] + 1e200).abs() < 1e185 && (values[1] - 1e200).abs() < 1e185);
/// assert_eq!(end, Convergence { settled: true, count: 1 });
/// # Ok::<(), geopotential::Refusal>(())
/// ```
pub fn try_householder_ql_with(a: &[f64], n: usize) -> Result<(Vec<f64>, Vec<f64>, Convergence), Refusal> {
    eigen(a, n, lengths::householder_ql(n)?, matrices::householder_ql)
}

/// An answer without how the solver ended.
fn plain(answer: Result<(Vec<f64>, Vec<f64>, Convergence), Refusal>) -> Result<(Vec<f64>, Vec<f64>), Refusal> {
    answer.map(|(values, vectors, _)| (values, vectors))
}

/// A solver of the library: n, the matrix, working numbers, eigenvalues, eigenvectors.
type Solver = fn(usize, &[f64], &mut [f64], &mut [f64], &mut [f64]) -> Result<Convergence, Refusal>;

/// One solver with lists of the lengths that it was told: the matrix, working numbers, eigenvalues, eigenvectors.
fn eigen(a: &[f64], n: usize, [_, work, values, vectors]: [usize; 4], solve: Solver) -> Result<(Vec<f64>, Vec<f64>, Convergence), Refusal> {
    let (mut values, mut vectors) = (vec![0.0; values], vec![0.0; vectors]);
    let convergence = workspace::lend(|lists| solve(n, a, lists.work.front(work), &mut values, &mut vectors))?;
    Ok((values, vectors, convergence))
}
