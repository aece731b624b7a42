//! A grid as a file, in the format that its name says, and the files beside it.

use std::path::Path;

use crate::error::Error;
use crate::field_file::has_extension;
use crate::grid::Nodes;
use crate::map::{self, Map};
use crate::outline::Ring;
use crate::output::{is_special, write_whole, write_with};
use crate::provenance::Provenance;
use crate::{formats, netcdf, png};

/// How a grid is written.
#[derive(Clone, Copy)]
pub enum Format {
    Csv,
    Esri,
    NetCdf,
    Png,
}

impl Format {
    /// The format that a name's extension says.
    pub fn of(path: &Path) -> Result<Format, Error> {
        let formats = [("csv", Format::Csv), ("asc", Format::Esri), ("nc", Format::NetCdf), ("png", Format::Png)];
        let found = formats.into_iter().find(|(extension, _)| has_extension(path, extension));
        found
            .map(|(_, format)| format)
            .ok_or_else(|| Error::usage(format!("--out is '{}'; expected a name that ends with .csv, .asc, .nc or .png", path.display())))
    }
}

/// Write a grid and the files beside it; answers the unit of its numbers. A map has outlines too.
pub fn write(
    out: &Path,
    format: Format,
    nodes: &Nodes,
    values: Vec<f64>,
    about: &Provenance,
    rings: &[Ring],
) -> Result<&'static str, Error> {
    match format {
        Format::Csv => write_with(out, |out| formats::csv(nodes, &values, out))?,
        Format::Esri => write_with(out, |out| formats::esri(nodes, &values, out))?,
        Format::NetCdf => write_with(out, |out| netcdf::write(nodes, &values, about, out))?,
        Format::Png => write_whole(out, &picture(nodes, values, about, rings)?)?,
    }
    write_beside(out, format, about)?;
    Ok(if matches!(format, Format::Png) { about.quantity.unit } else { about.quantity.si_unit })
}

/// The files beside a grid of text, which has no place for its system and its history.
fn write_beside(out: &Path, format: Format, about: &Provenance) -> Result<(), Error> {
    let files = match format {
        _ if is_special(out) => vec![],
        Format::Csv => vec![formats::aux_file(out, about)],
        Format::Esri => vec![formats::prj_file(out, about), formats::aux_file(out, about)],
        Format::NetCdf | Format::Png => vec![],
    };
    files.iter().try_for_each(|(path, text)| write_whole(path, text.as_bytes()))
}

/// The map's file.
fn picture(nodes: &Nodes, mut values: Vec<f64>, about: &Provenance, rings: &[Ring]) -> Result<Vec<u8>, Error> {
    let quantity = about.quantity;
    values.iter_mut().for_each(|value| *value *= quantity.per_si);
    let lines = about.lines();
    let subtitle = lines.each_ref().map(String::as_str);
    let image = map::draw_with(&Map { nodes, values: &values, unit: quantity.unit, title: &about.title, subtitle }, rings)?;
    let description = lines.join("; ");
    Ok(png::encode(&image, &[("Title", &about.title), ("Description", &description), ("Software", "geoid")]))
}
