//! The C entries of the proved library: those of the calls, and those that tell the lengths of their lists. The comparison of the
//! entries (`compare/`) has these two files too.

mod entries;
pub mod lengths;

pub use entries::*;

#[cfg(test)]
mod tests {
    /// The version that these declarations are of; include/geopotential.h has the same number.
    const VERSION: u32 = 3;

    #[test]
    fn the_library_is_of_the_version_that_is_declared() {
        assert_eq!(crate::library_version(), VERSION);
    }
}
