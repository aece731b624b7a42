//! Spherical-harmonic gravity fields from degree 0 to 2700: the calls of the published crate `geopotential`
//! (FusionVault/physica, commit 52f1dbc835, MIT), answered by a library in which every one of them is proved but [`gauss_grid`],
//! whose angles, with their `asin`, are Rust alone, and the nodes of regions ([`slepian::Nodes`], [`slepian::cap`]).
//!
//! Names, paths, signatures and most of the doc comments are the published crate's, so a program written against it compiles when
//! one line of its `Cargo.toml` is changed. Angles are radians. This crate works out sines and cosines by the standard library,
//! from the published expressions, and makes the lists; the arithmetic on them is the proved library's, in the published order.
//! What is proved is the library; this crate is tested and compared with the published one. What the doc comments say of a
//! method's accuracy is the published crate's word, not proved.
//!
//! ```
//! use geopotential::{Coefficients, Functional};
//!
//! let mut field = Coefficients::zeros(3.986004415e14, 6378136.3, 2);
//! field.set(2, 0, -4.8417e-4, 0.0);
//! let geoid = field.grid(&Functional::GeoidHeight, 6378136.3, &[0.0, 0.5], &[0.0, 1.0, 2.0]);
//! assert_eq!(geoid.len(), 6);
//! assert!((geoid[0] - 3452.7).abs() < 0.1);
//! ```
//!
//! # Refusals
//!
//! A call that the library can refuse has a twin `try_NAME`, which answers `Result<_, `[`Refusal`]`>`; the published name panics
//! with the refusal's line. A call without a twin is never refused: fields, tables and nodes of a degree above [`MAX_DEGREE`] can't be
//! made, nor outlines of more than 4,096 vertices, so what is worked out from one always fits.
//!
//! # Added
//!
//! [`Coefficients::partials_along`] and [`Coefficients::second_partials_along`] take many points at once, [`Legendre::grow`] carries
//! a table on to a higher degree, [`Legendre::mirror`] makes it that of the latitude −φ, [`slepian::Nodes`] keeps the nodes of a region
//! for several calls, [`model_file`] keeps a field in a file with every bit of it, [`Coefficients::date`] is the day that a field is of,
//! and [`Refusal`] says why a call was refused.
//! [`linalg::Convergence`] tells how a solver ended: [`linalg::try_symmetric_eigen_with`], [`linalg::try_householder_ql_with`],
//! [`slepian::try_polar_cap_with`] and [`slepian::try_region_with`] answer it beside what their twins answer.
//!
//! # Not ported
//!
//! Of the published crate: `compute_with_second_derivative` and `ddp` of [`Legendre`]; `geopotential` and `deflections` of
//! [`Partials`]; `to_tide_system` and `TimeVariable`; `gauss` and `cholesky*` of [`linalg`]; the modules `normal` and `field`; the
//! feature `serde`.
//!
//! # Memory
//!
//! A call allocates its answer and nothing else: working lists belong to the thread, grow to what its largest call needs and are
//! kept until it ends (4T numbers for partials and 5T for second partials, T = (N+1)(N+2)/2; a grid keeps 2N + 2 numbers for each
//! longitude, a region 3T + 4(L+1)⁴ + 5(L+1)² beside its functions' numbers, a kernel 3T, an outline two for each vertex). Only
//! [`slepian::concentration_matrix`], [`slepian::region`] and [`slepian::basin_kernel`] also allocate their nodes (five lists, a Gauss
//! rule, and the intervals at each), which [`slepian::Nodes`] keeps for several calls. A [`slepian::polygon`] owns a copy of its vertices.

#![deny(unsafe_code)]

mod basin;
#[allow(unsafe_code)]
mod calls;
#[allow(unsafe_code)]
mod ffi;
mod nodes;
mod trigonometry;
mod workspace;

/// Spherical-harmonic coefficients of a field.
pub mod coefficients;
/// Factors of the functionals by degree.
pub mod functional;
pub mod legendre;
pub mod linalg;
pub mod model_file;
pub mod refusal;
pub mod slepian;
/// Synthesis and analysis of a field.
pub mod synthesis;

pub use coefficients::{Coefficients, TideSystem};
pub use functional::{Functional, RHO_EARTH, RHO_WATER};
pub use legendre::{Legendre, MAX_DEGREE, gauss_legendre, try_gauss_legendre};
pub use refusal::Refusal;
pub use synthesis::{Partials, SecondPartials, gauss_grid, try_gauss_grid};

/// The version of the entries of the library that is linked, raised wherever one of them changes its parameters or the meaning of its
/// answer.
pub fn library_version() -> u32 {
    ffi::geopotential_version()
}
