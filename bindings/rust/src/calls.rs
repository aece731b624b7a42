//! The library's calls on slices: the only place where its entries are called. Each public function is one entry; nothing is
//! worked out here. What makes a call safe is the same everywhere: a pointer and a length are one slice's (never null, aligned,
//! for an empty slice too), a list that is written is borrowed mutably and so overlaps no other, and an entry keeps no pointer.

pub mod basins;
pub mod fields;
pub mod files;
pub mod lengths;
pub mod matrices;
pub mod models;
pub mod points;
pub mod tables;
