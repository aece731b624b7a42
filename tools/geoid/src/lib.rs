//! Gravity-field models on the command line, over the verified library `geopotential`.
//!
//! A command reads its arguments, asks the library, and answers the text for standard output; only
//! [`commands::main`] prints. Files are written whole or not at all ([`output`]).

pub mod arguments;
pub mod basin;
pub mod body;
pub mod canvas;
pub mod colours;
pub mod commands;
pub mod crs;
pub mod date;
pub mod dating;
pub mod day;
pub mod deflate;
pub mod difference;
pub mod drawn;
pub mod error;
pub mod field_file;
pub mod finite;
pub mod font;
pub mod foreign;
pub mod formats;
pub mod gauss;
pub mod gfc;
pub mod grid;
pub mod grid_file;
pub mod gsm;
pub mod heights;
pub mod love;
pub mod map;
pub mod netcdf;
pub mod normal;
pub mod outline;
pub mod output;
pub mod pair_table;
pub mod part_file;
pub mod plot;
pub mod png;
pub mod point_list;
pub mod progress;
pub mod provenance;
pub mod quantity;
pub mod random;
pub mod reduction;
pub mod rows;
pub mod sample;
pub mod scale;
pub mod span;
pub mod technical_note;
pub mod tensor;
pub mod text;
