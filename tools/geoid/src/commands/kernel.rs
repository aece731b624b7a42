//! `geoid kernel`: the kernel of a basin from its outline.

use geopotential::MAX_DEGREE;

use super::Command;
use crate::arguments::{Arguments, Opt};
use crate::basin::{Basin, MORE};
use crate::drawn::{Fineness, NODES};
use crate::error::Error;
use crate::field_file::{save, summary};
use crate::outline::{self, Latitudes, OUTLINE_ELLIPSOID, Outline, is_outline};
use crate::output::note;

/// The largest degree whose kernels are worked out a second time, with more nodes.
const CHECKED: usize = 180;
/// A kernel that changes by more than this part of its share wants more nodes.
const CHANGE: f64 = 1e-6;

pub const COMMAND: Command = Command {
    name: "kernel",
    summary: "a basin's kernel, for geoid average, from its outline",
    usage: "OUTLINE --degree L --out BASIN.model [OPTIONS]",
    operands: &["OUTLINE"],
    options: &[
        Opt { name: "--degree", value: "L", help: "its largest degree, 0 to 2700" },
        Opt { name: "--out", value: "PATH", help: "the file to write: ICGEM text where it ends with .gfc, else a model file" },
        OUTLINE_ELLIPSOID,
        NODES,
    ],
    details: "OUTLINE is known by its extension: .geojson or .json (a Polygon or MultiPolygon, or one Feature with one of them), .wkt\n\
              (POLYGON or MULTIPOLYGON) or .csv (lines longitude,latitude, with or without the names lon,lat). Degrees; edges are\n\
              straight in longitude and geocentric latitude. Latitudes are taken as geocentric, as they stand; with\n\
              --outline-ellipsoid each vertex goes from its geodetic latitude to the geocentric one, tan lat' = (1 - e^2) tan lat\n\
              (0.192 degrees nearer to the equator at 45; poles stay poles), and edges are straight between those vertices.\n\
              The first ring of a polygon is its outline and the others are holes, whichever way round they go: kernels of\n\
              outlines are added, those of holes taken off. A ring has at most 4096 vertices. One that crosses 180 degrees is\n\
              shifted, with a note; one that goes round a pole is refused (geoid caps has polar caps), unless it runs along the\n\
              pole itself.\n\
              Integrals are exact in longitude but for rounding, and by K nodes on each panel in latitude. To degree 180 the kernel\n\
              is worked out once more with K + 4, and the largest change of a number is printed, as a part of the basin's share of\n\
              the sphere. Nodes that need more than 4 GB of memory are refused.\n",
    run,
};

fn run(arguments: &Arguments) -> Result<String, Error> {
    let missing = |name: &str| Error::usage(format!("{name} is missing; see geoid kernel --help"));
    let degree = arguments.count("--degree", MAX_DEGREE)?.ok_or_else(|| missing("--degree L"))?;
    let out = arguments.path("--out").ok_or_else(|| missing("--out PATH"))?;
    if is_outline(out) {
        return Err(Error::usage(format!("--out is '{}', an outline's name; expected one such as BASIN.model", out.display())));
    }
    let fineness = Fineness::of(arguments)?;
    let latitudes = Latitudes::of(arguments)?;
    let path = arguments.operand(0);
    let outline = outline::load(path, latitudes)?;
    latitudes.tell();
    let basin = Basin::of(path, &outline, degree, fineness)?;
    let check = check(arguments, &basin, &outline, fineness)?;
    save(out, &basin.kernel)?;
    let share = basin.kernel.try_c(0, 0)?;
    Ok(format!("{}: {}\nshare of the sphere {share:?}\n{}\n{check}\n", out.display(), summary(&basin.kernel), basin.line()))
}

/// What more nodes change, in a line.
fn check(arguments: &Arguments, basin: &Basin, outline: &Outline, fineness: Fineness) -> Result<String, Error> {
    if basin.kernel.max_degree() > CHECKED {
        return Ok(format!("not checked by {MORE} nodes more a panel, as kernels to degree {CHECKED} are"));
    }
    match basin.change(arguments.operand(0), outline, fineness) {
        Ok(change) => {
            if change > CHANGE {
                note(&format!("the kernel still changes by {change:.1e} of its share with {MORE} nodes more a panel: --nodes takes more"));
            }
            Ok(format!("{MORE} nodes more a panel change no number by more than {change:.1e} of the share"))
        }
        Err(error) => Ok(format!("not checked by {MORE} nodes more a panel: {error}")),
    }
}
