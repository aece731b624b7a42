//! `geoid grid`: a functional of a field on a regular grid, as text or as a map.

use std::path::Path;

use geopotential::{Coefficients, MAX_DEGREE, model_file};

use super::{ABSENT_AS_ZERO, Command, EPOCH, FUNCTIONAL, LOVE, field_file};
use crate::arguments::{Arguments, Opt};
use crate::body::{ANY_BODY, check_radius};
use crate::dating::shown;
use crate::error::Error;
use crate::field_file::{FieldFile, has_extension};
use crate::finite::strange;
use crate::grid::{GLOBE, Nodes, Region, Surface, cores, evaluate_by};
use crate::grid_file::{Format, write};
use crate::heights::{GAMMA, Heights, W0};
use crate::normal::NormalGravity;
use crate::outline::{self, Latitudes, OUTLINE_ELLIPSOID, Ring};
use crate::provenance::Provenance;
use crate::quantity::{Love, Quantity};
use crate::reduction::{NORMAL, Reduction, Wish, ZERO_DEGREE};
use crate::rows::{self, Whole};

pub const COMMAND: Command = Command {
    name: "grid",
    summary: "values on a regular grid, as .csv, .asc (ESRI ASCII grid), .nc (NetCDF-3) or .png (a map)",
    usage: "FILE --out PATH [OPTIONS]",
    operands: &["FILE"],
    options: &[
        Opt { name: "--out", value: "PATH", help: "the file to write; its extension says how" },
        Opt { name: "--region", value: "W/E/S/N", help: "degrees; default -180/180/-90/90" },
        Opt { name: "--step", value: "D", help: "degrees between nodes, a number or a fraction such as 1/12; default 1" },
        FUNCTIONAL,
        Opt { name: "--radius", value: "R", help: "geocentric latitudes on the sphere of R metres; default the field's own radius" },
        Opt { name: "--ellipsoid", value: "grs80|wgs84", help: "geodetic latitudes; each row at its geocentric latitude and radius" },
        NORMAL,
        ZERO_DEGREE,
        GAMMA,
        W0,
        Opt { name: "--degree", value: "N", help: "cut the field to degree N" },
        LOVE,
        ABSENT_AS_ZERO,
        EPOCH,
        ANY_BODY,
        Opt {
            name: "--title",
            value: "TEXT",
            help: "the title of a map, .nc file or .aux.xml; default the functional's name, and the field's date if it has one",
        },
        Opt { name: "--outline", value: "FILE", help: "draw a basin's outline on a map (.png), as geoid kernel takes it" },
        OUTLINE_ELLIPSOID,
        Opt { name: "--threads", value: "K", help: "how many threads work side by side; default one a core" },
        Opt { name: "--rows", value: "FROM/TO", help: "only these rows, counted from 1 in the north, as a piece (--out PIECE.rows)" },
        Opt { name: "--pieces", value: "FOLDER", help: "put the grid together from the .rows files there, made with the same options" },
    ],
    details: "Rows run from north to south, nodes lie on the region's edges. Files have the library's SI numbers with all\n\
              their digits; a map shows mGal and E. An .nc file has CF names and its history; beside .csv and .asc stand\n\
              files with the coordinate system and the history (.aux.xml, .prj). Values that are not finite are counted.\n\
              The normal field (even zonals and degree 0) is rescaled to the field's GM and radius before it is taken off,\n\
              so degree 0 keeps 1 - GM0/GM. Water heights ignore the radius.\n\
              A geoid height is the disturbing potential over GM/r^2 (--gamma sphere), the library's functional, whose\n\
              rounding margin is proved of finite values for coefficients, cosines and sines up to 1 in size (the\n\
              tool's cosines and sines should be); --gamma ellipsoid multiplies it by one factor a row, (GM/r^2)/gamma\n\
              with gamma by Somigliana, and --w0 takes (W - U0)/gamma off it. geoid average has no such factor.\n\
              An outline's vertices are drawn at the map's own latitudes, geocentric, or geodetic with --ellipsoid, whichever\n\
              they are in (--outline-ellipsoid), with straight edges between.\n",
    run,
};

fn run(arguments: &Arguments) -> Result<String, Error> {
    let out = arguments.path("--out").ok_or_else(|| Error::usage("--out PATH is missing; see geoid grid --help"))?;
    if arguments.has("--rows") || has_extension(out, "rows") {
        return piece(arguments, out);
    }
    let format = Format::of(out)?;
    let rings = rings(arguments, matches!(format, Format::Png))?;
    let task = Task::of(arguments)?;
    let values = match arguments.path("--pieces") {
        Some(folder) => rows::join(folder, task.whole()?)?,
        None => task.values(&task.nodes, threads(arguments)?)?,
    };
    let counted = not_finite(&values);
    let unit = write(out, format, &task.nodes, values, &task.about, &rings)?;
    Ok(format!("{}: {} x {} values in {unit}{counted}\n", out.display(), task.nodes.latitudes.len(), task.nodes.longitudes.len()))
}

/// The rings of the outline that is to be drawn, if there is one, in the latitudes of the map's rows; only a map has room for it.
fn rings(arguments: &Arguments, map: bool) -> Result<Vec<Ring>, Error> {
    let Some(path) = arguments.path("--outline") else {
        return match arguments.has(OUTLINE_ELLIPSOID.name) {
            true => Err(Error::usage(format!("{} needs --outline, whose latitudes it is about", OUTLINE_ELLIPSOID.name))),
            false => Ok(Vec::new()),
        };
    };
    if !map {
        return Err(Error::usage("--outline is drawn on a map; expected --out with a name that ends with .png"));
    }
    let latitudes = Latitudes::of(arguments)?;
    let rows = surface(arguments)?.and_then(|surface| surface.ellipsoid());
    let outline = outline::load(path, latitudes.on(rows))?;
    latitudes.tell();
    Ok(outline.rings)
}

/// What the answer adds where some values are not finite.
fn not_finite(values: &[f64]) -> String {
    strange(values).map_or(String::new(), |text| format!("; {text}"))
}

/// Make a piece of the grid: the values of some rows.
fn piece(arguments: &Arguments, out: &Path) -> Result<String, Error> {
    let text = match arguments.text("--rows")? {
        Some(text) if has_extension(out, "rows") && !arguments.has("--pieces") => text,
        _ => return Err(Error::usage("a piece of a grid takes --rows FROM/TO and --out PIECE.rows together, and no --pieces")),
    };
    rings(arguments, false)?;
    let task = Task::of(arguments)?;
    let rows = rows::parse(text, task.nodes.latitudes.len())?;
    let values = task.values(&task.nodes.rows(rows.clone()), threads(arguments)?)?;
    rows::write(out, task.whole()?, rows.clone(), &values)?;
    let (from, to, all) = (rows.start + 1, rows.end, task.nodes.latitudes.len());
    Ok(format!("{}: rows {from} to {to} of {all}{}\n", out.display(), not_finite(&values)))
}

fn threads(arguments: &Arguments) -> Result<usize, Error> {
    match arguments.count("--threads", 1024)? {
        Some(0) => Err(Error::usage("--threads is 0; expected 1 or more")),
        count => Ok(count.unwrap_or_else(cores)),
    }
}

/// A grid that is to be worked out.
struct Task {
    nodes: Nodes,
    /// The field, cut and less what is taken off.
    field: Coefficients,
    love: Love,
    /// What the values are of that field, and where.
    about: Provenance,
}

impl Task {
    fn of(arguments: &Arguments) -> Result<Task, Error> {
        let quantity = Quantity::named(arguments.text("--functional")?)?;
        let nodes = nodes(arguments)?;
        let wish = Wish::of(arguments)?;
        let cut = arguments.count("--degree", MAX_DEGREE)?;
        let surface = surface(arguments)?;
        let title = arguments.text("--title")?;
        let love = quantity.love(arguments.path("--love"))?;
        let file = field_file(arguments, arguments.operand(0))?;
        let whole = file.field.truncated(cut.unwrap_or(MAX_DEGREE));
        love.check(whole.max_degree())?;
        let surface = surface.unwrap_or(Surface::Sphere(whole.radius));
        if let Surface::Sphere(radius) = surface {
            check_radius(radius, &whole, arguments.has(ANY_BODY.name))?;
        }
        let reduction = Reduction::decide(wish, quantity, &whole, surface.ellipsoid())?;
        let heights = Heights::chosen(arguments, quantity, surface.ellipsoid(), reduction.normal)?;
        let field = reduction.of(&whole)?;
        if let Some(heights) = heights {
            heights.tell(arguments, &field)?;
        }
        let title = title.map_or_else(|| default_title(quantity, field.date), str::to_string);
        let source = source(&file, arguments.operand(0), field.max_degree());
        let history = format!("geoid {}: geoid grid {}", env!("CARGO_PKG_VERSION"), arguments.line);
        let about = Provenance { quantity, title, source, reduction, heights, surface, history };
        Ok(Task { nodes, field, love, about })
    }

    /// The values at some of its nodes, in SI units.
    fn values(&self, nodes: &Nodes, threads: usize) -> Result<Vec<f64>, Error> {
        let functional = (self.about.quantity.functional)(&self.love.numbers);
        let mut values = evaluate_by(threads, &self.field, &functional, nodes, self.about.surface)?;
        if let Some(heights) = self.about.heights {
            for (row, &latitude) in values.chunks_mut(nodes.longitudes.len()).zip(&nodes.latitudes) {
                let (factor, shift) = heights.factor_and_shift(self.field.gm, latitude, self.about.surface.row(latitude).1);
                row.iter_mut().for_each(|value| *value = *value * factor - shift);
            }
        }
        Ok(values)
    }

    /// Everything that a value depends on, so that pieces of other grids are known.
    fn whole(&self) -> Result<Whole, Error> {
        let model = model_file::write(&self.field)?;
        let bytes = |numbers: &[f64]| numbers.iter().flat_map(|number| number.to_le_bytes()).collect::<Vec<u8>>();
        let lists = [&self.nodes.latitudes, &self.nodes.longitudes, &self.love.numbers].map(|list| bytes(list));
        let names = format!("{} {:?} {:?}", self.about.quantity.name, self.about.surface, self.about.heights);
        let parts = [model.as_slice(), names.as_bytes()].into_iter().chain(lists.iter().map(Vec::as_slice));
        let (rows, columns) = (self.nodes.latitudes.len(), self.nodes.longitudes.len());
        Ok(Whole { fingerprint: rows::fingerprint(parts), rows, columns })
    }
}

fn nodes(arguments: &Arguments) -> Result<Nodes, Error> {
    let region = arguments.text("--region")?.map_or(Ok(GLOBE), Region::parse)?;
    Nodes::new(region, arguments.text("--step")?.map_or(Ok(1.0), step)?)
}

/// A step in degrees: a number, or two with a slash between.
fn step(text: &str) -> Result<f64, Error> {
    let (above, below) = text.split_once('/').unwrap_or((text, "1"));
    match (above.parse::<f64>(), below.parse::<f64>()) {
        (Ok(above), Ok(below)) if above / below > 0.0 && (above / below).is_finite() => Ok(above / below),
        _ => Err(Error::usage(format!("--step is '{text}'; expected degrees above 0, such as 0.5 or 1/12"))),
    }
}

/// Where the values are taken, if an option says so.
fn surface(arguments: &Arguments) -> Result<Option<Surface>, Error> {
    match (arguments.positive("--radius")?, arguments.text("--ellipsoid")?) {
        (Some(_), Some(_)) => Err(Error::usage("--radius and --ellipsoid are both given; expected one of them")),
        (Some(radius), None) => Ok(Some(Surface::Sphere(radius))),
        (None, Some(text)) => Ok(Some(Surface::Ellipsoid(NormalGravity::of_option("--ellipsoid", text, "grs80 or wgs84")?))),
        (None, None) => Ok(None),
    }
}

/// The functional's name, and the date of a field that has one, so that two months' maps don't look the same.
fn default_title(quantity: Quantity, date: Option<i32>) -> String {
    quantity.title.to_string() + &date.map_or(String::new(), |date| format!(", {}", shown(date)))
}

/// The model's name where it is known and not the file's own, its file, its degree, and the time that it is of.
fn source(file: &FieldFile, path: &Path, degree: usize) -> String {
    let names = [path.file_name(), path.file_stem()].map(|name| name.unwrap_or_default().to_string_lossy());
    let model = file.name.iter().filter(|model| !names.iter().any(|name| name == *model));
    let model: String = model.map(|name| format!("model {name}, file ")).collect();
    let time = file.when().map_or(String::new(), |time| format!(", of {time}"));
    format!("{model}{}, to degree {degree}{time}", names[0])
}

#[cfg(test)]
mod tests {
    use super::step;

    #[test]
    fn steps_are_numbers_or_fractions() {
        assert_eq!(step("0.5").unwrap(), 0.5);
        assert_eq!(step("1/12").unwrap(), 1.0 / 12.0);
        for wrong in ["0", "-1", "x", "1/0", "1/", "1/2/3", "inf", "nan"] {
            assert!(step(wrong).is_err(), "{wrong}");
        }
    }
}
