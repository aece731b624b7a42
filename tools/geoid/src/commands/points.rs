//! `geoid points`: potential, gravity, geoid height and the gradient tensor at a list of points.

use std::fmt::Write;
use std::path::Path;

use geopotential::{Coefficients, MAX_DEGREE, Partials, Refusal};

use super::{ABSENT_AS_ZERO, Command, EPOCH, field};
use crate::arguments::{Arguments, Opt};
use crate::body::{self, ANY_BODY};
use crate::error::Error;
use crate::heights::{GAMMA, Heights, W0};
use crate::normal::{GRS80, NormalGravity};
use crate::output::{note, write_whole};
use crate::point_list::{self, Place, PointList, Vertical};
use crate::progress::Progress;
use crate::quantity::Quantity;
use crate::reduction::{NORMAL, Reduction, Wish, ZERO_DEGREE};
use crate::tensor;

/// The most points of one call of the library, and numbers in its table of cosines and sines (64 MiB).
const CALL_LIMIT: usize = 65_535;
const TRIG_LIMIT: usize = 1 << 23;
/// The normal field has no more than this in it: its zonals fall by a hundred and fifty from one to the next.
const NORMAL_DEGREE: usize = 20;

const TENSOR: Opt = Opt { name: "--tensor", value: "", help: "add the gradient tensor of V and its trace, in Eotvos" };

/// The names of the columns that are always added.
const COLUMNS: [&str; 5] = ["potential (m²/s²)", "gravity north (m/s²)", "gravity east (m/s²)", "gravity up (m/s²)", "geoid height (m)"];

pub const COMMAND: Command = Command {
    name: "points",
    summary: "potential, gravity, geoid height and gradient tensor at a list of points",
    usage: "FIELD --at LIST.csv [OPTIONS]",
    operands: &["FIELD"],
    options: &[
        Opt { name: "--at", value: "LIST.csv", help: "the points; see below" },
        Opt { name: "--out", value: "FILE.csv", help: "write the table; default standard output" },
        Opt { name: "--ellipsoid", value: "grs80|wgs84", help: "the ellipsoid of the heights and of gamma; default grs80" },
        NORMAL,
        ZERO_DEGREE,
        Opt {
            name: GAMMA.name,
            value: GAMMA.value,
            help: "what geoid heights divide the potential by: GM/r^2, or normal gravity at the point; default\nellipsoid for heights, sphere for radii",
        },
        W0,
        Opt {
            name: "--omega",
            value: "W",
            help: "angular velocity, rad/s; default the Earth's 7.292115e-5, and 0 for a\ndifference of fields and another body",
        },
        TENSOR,
        Opt { name: "--degree", value: "N", help: "cut the field to degree N" },
        ABSENT_AS_ZERO,
        EPOCH,
        ANY_BODY,
    ],
    details: "LIST.csv has a line of names, then a line a point: latitude and longitude in degrees, and height (metres above\n\
              the ellipsoid, latitudes geodetic) or radius (metres from the centre, latitudes geocentric), in any order;\n\
              other columns are kept. Five columns are added: the gravitational potential V of the whole field (m^2/s^2);\n\
              gravity north, east and up, which is V's gradient and the centrifugal part (m/s^2), up being along the\n\
              ellipsoid's normal for heights and along the radius for radii; and the geoid height T/gamma (m), T the\n\
              potential less the normal field's at the point itself: off the ellipsoid that is a height anomaly. V, its\n\
              derivatives and T are the library's.\n\
              With --tensor there are seven more: the second derivatives of V along n, e, u, which are north, east and up\n\
              of the gravity columns, Vnn, Vne, Vnu, Vee, Veu and Vuu in Eotvos (1 E = 1e-9/s^2), and their trace\n\
              Vnn+Vee+Vuu. V is the gravitational potential of the whole field: no normal field is taken off, and there\n\
              is no centrifugal part, neither of the Earth's rotation nor of a gradiometer's own. The trace is 0 but for\n\
              rounding whatever the coefficients (Laplace's equation): it tells the digits that are left, and nothing of\n\
              the model's errors. At a pole itself, where the cosine of the latitude divides, Vne and Vee keep few or none.\n",
    run,
};

fn run(arguments: &Arguments) -> Result<String, Error> {
    let list_path = arguments.path("--at").ok_or_else(|| Error::usage("--at LIST.csv is missing; see geoid points --help"))?;
    let wish = Wish::of(arguments)?;
    let cut = arguments.count("--degree", MAX_DEGREE)?.unwrap_or(MAX_DEGREE);
    let omega = arguments.number("--omega")?;
    let ellipsoid = match arguments.text("--ellipsoid")? {
        None => GRS80,
        Some(text) => NormalGravity::of_option("--ellipsoid", text, "grs80 or wgs84")?,
    };
    let list = point_list::load(list_path)?;
    let field = field(arguments, arguments.operand(0))?.truncated(cut);
    let places: Vec<Place> = list.points.iter().map(|point| point.place(list.vertical, ellipsoid)).collect();
    if !arguments.has(ANY_BODY.name) {
        point_list::check_radii(list_path, &list.points, &places, &field)?;
    }
    let omega = omega.map_or_else(|| rotation(&field), Ok)?;
    let at = partials(&field, &places)?;
    let by_default = list.vertical == Vertical::Height && body::is_earth(&field);
    let heights = heights(arguments, wish, &field, &places, ellipsoid, by_default)?;
    let mut names = COLUMNS.to_vec();
    let mut rows: Vec<Vec<f64>> =
        places.iter().zip(&at).zip(heights).map(|((place, at), height)| row(place, at, omega, height).to_vec()).collect();
    if arguments.has(TENSOR.name) {
        names.extend(tensor::COLUMNS);
        rows.iter_mut().zip(tensors(&field, &places)?).for_each(|(row, tensor)| row.extend(tensor));
    }
    answer(arguments.path("--out"), &list, &names, &rows)
}

/// The geoid heights at the places, by an ellipsoid's normal gravity if an option says so or none does and it is the default.
fn heights(
    arguments: &Arguments,
    wish: Wish,
    field: &Coefficients,
    places: &[Place],
    ellipsoid: NormalGravity,
    by_default: bool,
) -> Result<Vec<f64>, Error> {
    let reduction = Reduction::decide(wish, Quantity::named(None)?, field, Some(ellipsoid))?;
    let rest = reduction.of(field)?;
    let own = (by_default || arguments.has(GAMMA.name)).then_some(ellipsoid);
    let heights = Heights::of_height(arguments, own, reduction.normal)?;
    heights.tell_points(arguments, &rest)?;
    let gravities = gravities(places, heights.gamma, field.gm)?;
    Ok(partials(&rest, places)?.iter().zip(gravities).map(|(at, gravity)| (at.v - heights.shift()) / gravity).collect())
}

/// The columns of the tensor at the places.
fn tensors(field: &Coefficients, places: &[Place]) -> Result<Vec<[f64; 7]>, Error> {
    let second = along(field, places, Coefficients::try_second_partials_along)?;
    let tensors: Vec<[f64; 7]> = places.iter().zip(&second).map(|(place, at)| tensor::numbers(place, at)).collect();
    tensor::tell(&tensors);
    Ok(tensors)
}

/// The potential and its first derivatives at the places.
fn partials(field: &Coefficients, places: &[Place]) -> Result<Vec<Partials>, Error> {
    along(field, places, Coefficients::try_partials_along)
}

/// A call for points (radius, latitude, longitude).
type Along<P> = fn(&Coefficients, &[(f64, f64, f64)]) -> Result<Vec<P>, Refusal>;

/// What a call answers at the places, in calls of a size that the library takes.
fn along<P>(field: &Coefficients, places: &[Place], call: Along<P>) -> Result<Vec<P>, Error> {
    let mut progress = Progress::new("points", places.len());
    let mut all = Vec::with_capacity(places.len());
    for places in places.chunks((TRIG_LIMIT / (2 * field.max_degree() + 2)).clamp(1, CALL_LIMIT)) {
        let points: Vec<(f64, f64, f64)> = places.iter().map(|place| (place.radius, place.latitude, place.longitude)).collect();
        all.extend(call(field, &points)?);
        progress.advance(places.len());
    }
    Ok(all)
}

/// The angular velocity of a field's body: the Earth's for a whole field of the Earth.
fn rotation(field: &Coefficients) -> Result<f64, Error> {
    if body::is_earth(field) && !body::is_difference(field)? {
        return Ok(GRS80.omega);
    }
    note("gravity has no centrifugal part: a difference of fields or another body (--omega says otherwise)");
    Ok(0.0)
}

/// What the potential is divided by at each place: normal gravity there, or `GM/r²`.
fn gravities(places: &[Place], ellipsoid: Option<NormalGravity>, gm: f64) -> Result<Vec<f64>, Error> {
    let Some(ellipsoid) = ellipsoid else {
        return Ok(places.iter().map(|place| gm / (place.radius * place.radius)).collect());
    };
    let normal = ellipsoid.coefficients(NORMAL_DEGREE)?;
    let at = partials(&normal, places)?;
    Ok(places.iter().zip(at).map(|(place, at)| size(at.gravity_neu(place.radius, place.latitude, ellipsoid.omega))).collect())
}

fn size([north, east, up]: [f64; 3]) -> f64 {
    north.hypot(east).hypot(up)
}

/// The numbers of a point: potential, gravity north, east and up by the list's latitudes, geoid height.
fn row(place: &Place, at: &Partials, omega: f64, height: f64) -> [f64; 5] {
    let [north, east, up] = place.turned(at.gravity_neu(place.radius, place.latitude, omega));
    [at.v, north, east, up, height]
}

fn answer(out: Option<&Path>, list: &PointList, names: &[&str], rows: &[Vec<f64>]) -> Result<String, Error> {
    let mut text = format!("{},{}\n", list.heading, names.join(","));
    for (point, row) in list.points.iter().zip(rows) {
        text.push_str(&point.line);
        for number in row {
            let _ = write!(text, ",{number:?}");
        }
        text.push('\n');
    }
    match out {
        None => Ok(text),
        Some(path) => {
            write_whole(path, text.as_bytes())?;
            Ok(format!("{}: {} points\n", path.display(), list.points.len()))
        }
    }
}
