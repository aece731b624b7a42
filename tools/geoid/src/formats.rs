//! Grids as text files. Numbers have the shortest digits that read back to the same bits. Neither kind has a place for what the
//! values are and where they come from: files beside them have it, in the way of geographic information systems.

use std::ffi::OsString;
use std::io::{self, Write};
use std::path::{Path, PathBuf};

use crate::crs::{esri_text, well_known_text};
use crate::grid::Nodes;
use crate::provenance::Provenance;

/// What an ESRI grid has where there is no number.
const NODATA: f64 = -9999.0;

/// Lines `lat,lon,z`, degrees and SI units, behind a line of names: those by which GDAL knows a raster.
pub fn csv(nodes: &Nodes, values: &[f64], out: &mut dyn Write) -> io::Result<()> {
    writeln!(out, "lat,lon,z")?;
    for (lat, row) in nodes.latitudes.iter().zip(values.chunks(nodes.longitudes.len())) {
        for (lon, value) in nodes.longitudes.iter().zip(row) {
            writeln!(out, "{lat},{lon},{value:?}")?;
        }
    }
    Ok(())
}

/// An ESRI ASCII grid. Its cells are centred at the nodes, hence `xllcenter`.
pub fn esri(nodes: &Nodes, values: &[f64], out: &mut dyn Write) -> io::Result<()> {
    let columns = nodes.longitudes.len();
    writeln!(out, "ncols {columns}\nnrows {}", nodes.latitudes.len())?;
    writeln!(out, "xllcenter {}\nyllcenter {}", nodes.region.west, nodes.region.south)?;
    writeln!(out, "cellsize {}\nNODATA_value {NODATA}", nodes.step)?;
    for row in values.chunks(columns) {
        let numbers: Vec<String> = row.iter().map(|&value| format!("{:?}", if value.is_finite() { value } else { NODATA })).collect();
        writeln!(out, "{}", numbers.join(" "))?;
    }
    Ok(())
}

/// The file beside a grid that has its system and its history (GDAL's `.aux.xml`): its name and its text.
pub fn aux_file(path: &Path, about: &Provenance) -> (PathBuf, String) {
    let mut name = OsString::from(path);
    name.push(".aux.xml");
    let items = [("title", &about.title), ("source", &about.source), ("comment", &about.comment()), ("history", &about.history)];
    let items: String = items.map(|(key, text)| format!("    <MDI key=\"{key}\">{}</MDI>\n", escaped(text))).concat();
    let text = format!(
        "<PAMDataset>\n  <SRS dataAxisToSRSAxisMapping=\"2,1\">{}</SRS>\n  <Metadata>\n{items}  </Metadata>\n  \
         <PAMRasterBand band=\"1\">\n    <Description>{}</Description>\n    <UnitType>{}</UnitType>\n  </PAMRasterBand>\n</PAMDataset>\n",
        escaped(&well_known_text(&about.surface)),
        escaped(about.quantity.title),
        escaped(about.quantity.si_unit)
    );
    (name.into(), text)
}

/// The file beside an ESRI grid that has its system: its name and its text.
pub fn prj_file(path: &Path, about: &Provenance) -> (PathBuf, String) {
    (path.with_extension("prj"), esri_text(&about.surface) + "\n")
}

/// A text in XML; control characters have no place there.
fn escaped(text: &str) -> String {
    let text = text.replace('&', "&amp;").replace('<', "&lt;").replace('>', "&gt;").replace('"', "&quot;");
    text.replace(char::is_control, " ")
}

#[cfg(test)]
mod tests {
    use super::*;
    use crate::grid::Region;

    fn written(write: fn(&Nodes, &[f64], &mut dyn Write) -> io::Result<()>) -> String {
        let nodes = Nodes::new(Region { west: -0.5, east: 0.5, south: 10.0, north: 10.5 }, 0.5).unwrap();
        let mut out = Vec::new();
        write(&nodes, &[1.0, -0.1, 1e-9, f64::NAN, 1e300, 12345.678], &mut out).unwrap();
        String::from_utf8(out).unwrap()
    }

    #[test]
    fn csv_has_a_line_a_node() {
        let expected = "lat,lon,z\n10.5,-0.5,1.0\n10.5,0,-0.1\n10.5,0.5,1e-9\n10,-0.5,NaN\n10,0,1e300\n10,0.5,12345.678\n";
        assert_eq!(written(csv), expected);
    }

    #[test]
    fn esri_has_a_line_a_row() {
        let expected = "ncols 3\nnrows 2\nxllcenter -0.5\nyllcenter 10\ncellsize 0.5\nNODATA_value -9999\n\
                        1.0 -0.1 1e-9\n-9999.0 1e300 12345.678\n";
        assert_eq!(written(esri), expected);
    }
}
