//! The C entries of the proved library (crate `geopotential`): those that the Rust crate declares, and here the rest, which it has no
//! use for. An answer of the type u32 is the refusal's number, 0 where the call is done.

#[path = "../../bindings/rust/src/ffi/entries.rs"]
mod calls;
#[path = "../../bindings/rust/src/ffi/lengths.rs"]
mod lengths;

pub use calls::*;
pub use lengths::*;

unsafe extern "C" {
    pub safe fn geopotential_root(x: f64) -> f64;
    /// The root by way of a guess at it, which may be any number.
    pub safe fn geopotential_root_near(x: f64, guess: f64) -> f64;
    pub safe fn geopotential_hypot(x: f64, y: f64) -> f64;
    pub safe fn geopotential_signum(x: f64) -> f64;
    pub safe fn geopotential_magnitude(x: f64) -> f64;
    pub safe fn geopotential_powi(base: f64, exponent: usize) -> f64;
    /// The number of a bit pattern; any NaN's pattern gives NaN.
    pub safe fn geopotential_number_of_bits(bits: u64) -> f64;
    /// The bit pattern of a number; NaN gives 7ff8000000000000.
    pub safe fn geopotential_bits_of_number(x: f64) -> u64;
    /// 1 where x comes strictly before y in the falling order, else 0.
    pub safe fn geopotential_ranks_before(x: f64, y: f64) -> u32;
    /// The length of each list of a call, in the order of its parameters, at the front of `lengths`.
    pub fn geopotential_factor_lengths(n: usize, lengths: *mut usize, lengths_len: usize) -> u32;
    pub fn geopotential_coefficient_c_lengths(nmax: usize, lengths: *mut usize, lengths_len: usize) -> u32;
    pub fn geopotential_coefficient_s_lengths(nmax: usize, lengths: *mut usize, lengths_len: usize) -> u32;
    pub fn geopotential_set_lengths(nmax: usize, lengths: *mut usize, lengths_len: usize) -> u32;
    pub fn geopotential_legendre_mirror_lengths(nmax: usize, lengths: *mut usize, lengths_len: usize) -> u32;
    pub fn geopotential_legendre_mirror_derivative_lengths(nmax: usize, lengths: *mut usize, lengths_len: usize) -> u32;
    pub fn geopotential_legendre_entry_lengths(nmax: usize, lengths: *mut usize, lengths_len: usize) -> u32;
    pub fn geopotential_acceleration_neu_lengths(lengths: *mut usize, lengths_len: usize) -> u32;
    pub fn geopotential_gravity_neu_lengths(lengths: *mut usize, lengths_len: usize) -> u32;
    pub fn geopotential_tensor_neu_lengths(lengths: *mut usize, lengths_len: usize) -> u32;
    pub fn geopotential_basin_average_lengths(nmax: usize, kmax: usize, lengths: *mut usize, lengths_len: usize) -> u32;
}
