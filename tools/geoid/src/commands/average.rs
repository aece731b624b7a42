//! `geoid average`: the mean of a field over basins.

use std::f64::consts::PI;
use std::fmt::Write;
use std::path::{Path, PathBuf};

use geopotential::Coefficients;
use geopotential::slepian::try_basin_average;

use super::{ABSENT_AS_ZERO, Command, EPOCH, FUNCTIONAL, LOVE, field, kernel};
use crate::arguments::{Arguments, Opt};
use crate::basin::Basin;
use crate::body::{ANY_BODY, check_radius};
use crate::dating::shown;
use crate::difference::{DEGREE, Matching, Named, TIDE_AS_IS, dates_line};
use crate::drawn::{Fineness, NODES};
use crate::error::Error;
use crate::outline::{self, Latitudes, OUTLINE_ELLIPSOID, is_outline};
use crate::output::{note, write_whole};
use crate::quantity::{Love, Quantity};
use crate::reduction::{NORMAL, Reduction, Wish, ZERO_DEGREE};

pub const COMMAND: Command = Command {
    name: "average",
    summary: "the mean of a field over basins, by the basins' kernels or outlines",
    usage: "FIELD KERNEL|OUTLINE... [OPTIONS]",
    operands: &["FIELD", "KERNEL..."],
    options: &[
        Opt { name: "--minus", value: "FIELD2", help: "the mean of FIELD less FIELD2, such as two months" },
        Opt { name: "--out", value: "FILE.csv", help: "write a table, one line a kernel" },
        FUNCTIONAL,
        LOVE,
        Opt { name: "--radius", value: "R", help: "metres; default the field's own radius" },
        NORMAL,
        ZERO_DEGREE,
        DEGREE,
        TIDE_AS_IS,
        OUTLINE_ELLIPSOID,
        NODES,
        ABSENT_AS_ZERO,
        EPOCH,
        ANY_BODY,
    ],
    details: "KERNEL is a basin's kernel as a field (Swenson & Wahr 2002; its first coefficient is the share of the sphere\n\
              that the basin covers; its GM and radius are not used). The lower of the two degrees is used. One kernel\n\
              without --out answers one number in SI units with all its digits; several, or --out, a table: name, average,\n\
              share of the sphere, degree used, water heights in millimetres of water (the library's times 1000), all else\n\
              in SI units. --minus, --degree and --tide-as-is are those of geoid subtract. A geoid height is divided by\n\
              GM/r^2, as by geoid grid --gamma sphere. Where a field has a date (as geoid convert finds it) the table has a\n\
              column more, date, and with --minus another, minus date, which is empty for a field without one.\n\
              OUTLINE is a basin's outline, as geoid kernel takes it (.geojson, .json, .wkt or .csv): its kernel is made here, to\n\
              the field's degree, by --nodes, and by --outline-ellipsoid where its latitudes are geodetic. One outline without\n\
              --out answers a second line, the share of the sphere, the area on the sphere of the field's radius, and panels and\n\
              nodes; a table has two columns more, area and nodes.\n",
    run,
};

/// The columns that tell months apart: a name and the same word in every line.
type Dates = Vec<(&'static str, String)>;

/// The mean over one basin.
struct Mean {
    name: String,
    mean: f64,
    share: f64,
    degree: usize,
    drawn: Option<Drawn>,
}

/// How an outline was integrated: in words, and by how many nodes.
struct Drawn {
    line: String,
    nodes: usize,
}

fn run(arguments: &Arguments) -> Result<String, Error> {
    let quantity = Quantity::named(arguments.text("--functional")?)?;
    let radius = arguments.positive("--radius")?;
    let wish = Wish::of(arguments)?;
    let matching = Matching::of(arguments)?;
    let fineness = Fineness::of(arguments)?;
    let latitudes = Latitudes::of(arguments)?;
    let love = quantity.love(arguments.path("--love"))?;
    let (whole, dates) = minuend(arguments, matching)?;
    let radius = radius.unwrap_or(whole.radius);
    check_radius(radius, &whole, arguments.has(ANY_BODY.name))?;
    let field = Reduction::decide(wish, quantity, &whole, None)?.of(&whole)?;
    if quantity.is_height() {
        note("geoid heights are divided by GM/r², as by geoid grid --gamma sphere: no factor of normal gravity");
    }
    let over = |path| {
        let (kernel, drawn) = kernel_or_drawn(arguments, path, latitudes, field.max_degree(), fineness)?;
        mean(path, kernel, &field, quantity, &love, radius).map(|mean| Mean { drawn, ..mean })
    };
    tell_outlines(arguments, latitudes);
    let means: Result<Vec<Mean>, Error> = arguments.operands_from(1).map(over).collect();
    answer(arguments, &Table { means: means?, quantity, dates, radius: whole.radius })
}

/// Say once what the basins' outlines are taken as, or which options are in vain where there is none.
fn tell_outlines(arguments: &Arguments, latitudes: Latitudes) {
    if arguments.operands_from(1).any(is_outline) {
        return latitudes.tell();
    }
    for name in [OUTLINE_ELLIPSOID.name, NODES.name].into_iter().filter(|name| arguments.has(name)) {
        note(&format!("{name} has no effect: there is no outline among the basins"));
    }
}

/// The kernel in a file, or that of the outline in it, to a degree, with how it was integrated.
fn kernel_or_drawn(
    arguments: &Arguments,
    path: &Path,
    latitudes: Latitudes,
    degree: usize,
    fineness: Fineness,
) -> Result<(Coefficients, Option<Drawn>), Error> {
    if !is_outline(path) {
        return Ok((kernel(arguments, path)?, None));
    }
    let basin = Basin::of(path, &outline::load(path, latitudes)?, degree, fineness)?;
    let drawn = Drawn { line: basin.line(), nodes: basin.nodes };
    Ok((basin.kernel, Some(drawn)))
}

/// The field, less another one if an option names it, and cut if one says so; and the columns of their dates.
fn minuend(arguments: &Arguments, matching: Matching) -> Result<(Coefficients, Dates), Error> {
    let path = arguments.operand(0);
    let first = field(arguments, path)?;
    let named = Named { path, field: &first };
    let Some(path) = arguments.path("--minus") else {
        return Ok((matching.alone(named)?, first.date.map(|date| ("date", shown(date))).into_iter().collect()));
    };
    let second = field(arguments, path)?;
    let rest = matching.subtract(named, Named { path, field: &second })?;
    let Some(line) = dates_line(&first, &second) else { return Ok((rest, Dates::new())) };
    note(&format!("the averages are those of {line}"));
    let column = |name, field: &Coefficients| (name, field.date.map_or(String::new(), shown));
    Ok((rest, vec![column("date", &first), column("minus date", &second)]))
}

/// The mean over the basin of a kernel, which is named by the kernel's file.
fn mean(path: &Path, kernel: Coefficients, field: &Coefficients, quantity: Quantity, love: &Love, radius: f64) -> Result<Mean, Error> {
    let degree = field.max_degree().min(kernel.max_degree());
    love.check(degree)?;
    let mean = try_basin_average(field, &kernel, &(quantity.functional)(&love.numbers), radius)?;
    let name = path.file_stem().unwrap_or_default().to_string_lossy().into_owned();
    Ok(Mean { name, mean, share: kernel.try_c(0, 0)?, degree, drawn: None })
}

/// The number alone, or a table in the answer or in a file.
fn answer(arguments: &Arguments, table: &Table) -> Result<String, Error> {
    match (arguments.path("--out").map(PathBuf::from), &table.means[..]) {
        (Some(out), means) => {
            write_whole(&out, table.text().as_bytes())?;
            Ok(format!("{}: {} averages in {}\n", out.display(), means.len(), table.quantity.table_unit().0))
        }
        (None, [mean]) => Ok(format!("{:?}\n{}", mean.mean, table.line(mean))),
        (None, _) => Ok(table.text()),
    }
}

/// The means over all basins.
struct Table {
    means: Vec<Mean>,
    quantity: Quantity,
    dates: Dates,
    /// The field's radius, m.
    radius: f64,
}

impl Table {
    /// A basin's area on the sphere of the field's radius, km².
    fn area(&self, mean: &Mean) -> f64 {
        mean.share * 4.0 * PI * (self.radius / 1e3).powi(2)
    }

    /// What is said of a basin that was drawn, below its number.
    fn line(&self, mean: &Mean) -> String {
        mean.drawn.as_ref().map_or(String::new(), |Drawn { line, .. }| {
            format!("share of the sphere {:?}, {:.1} km² at radius {:?} m; {line}\n", mean.share, self.area(mean), self.radius)
        })
    }

    fn text(&self) -> String {
        let (unit, per_si) = self.quantity.table_unit();
        let drawn = self.means.iter().any(|mean| mean.drawn.is_some());
        let names: String = self.dates.iter().map(|(name, _)| format!(",{name}")).collect();
        let days: String = self.dates.iter().map(|(_, day)| format!(",{day}")).collect();
        let more = if drawn { ",area (km²),nodes" } else { "" };
        let mut text = format!("name,average ({unit}),share of the sphere,degree used{more}{names}\n");
        for mean in &self.means {
            let nodes = mean.drawn.as_ref().map_or(String::new(), |drawn| drawn.nodes.to_string());
            let more = if drawn { format!(",{:?},{nodes}", self.area(mean)) } else { String::new() };
            let _ = writeln!(text, "{},{:?},{:?},{}{more}{days}", quoted(&mean.name), mean.mean * per_si, mean.share, mean.degree);
        }
        text
    }
}

/// A field of a table, in quotation marks where it needs them.
fn quoted(text: &str) -> String {
    if text.contains([',', '"', '\n', '\r']) { format!("\"{}\"", text.replace('"', "\"\"")) } else { text.into() }
}

#[cfg(test)]
mod tests {
    use super::quoted;

    #[test]
    fn names_with_commas_are_quoted() {
        assert_eq!(quoted("Ob"), "Ob");
        assert_eq!(quoted("Amur, \"upper\""), "\"Amur, \"\"upper\"\"\"");
    }
}
