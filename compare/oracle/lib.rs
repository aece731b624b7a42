//! The published crate `geopotential` (FusionVault/physica, commit 52f1dbc835, MIT) with the stand-ins of documents 01 and 02, as
//! `edits.txt` lists them. Without normal.rs, which leans on the crate `metrology`, and field.rs, which leans on normal.rs.

/// Spherical harmonic coefficients of a field.
pub mod coefficients;
/// Factors of the functionals by degree.
pub mod functional;
/// Associated Legendre functions and Gauss–Legendre quadrature.
pub mod legendre;
pub mod linalg;
pub mod slepian;
pub mod standins;
/// Synthesis and analysis of a field.
pub mod synthesis;

pub use coefficients::{Coefficients, Term, TermKind, TideSystem, TimeVariable};
pub use functional::{Functional, RHO_EARTH, RHO_WATER};
pub use legendre::{Legendre, MAX_DEGREE, gauss_legendre};
pub use synthesis::{Partials, SecondPartials, gauss_grid};
