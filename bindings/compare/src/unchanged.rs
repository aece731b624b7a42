//! The same program, compiled against the bindings and against the published crate with its files unchanged. It names no date, which
//! the published type has not: its fields have none, and `==` answers as published. Of these calls the stand-ins touch three things: a
//! sum of a grid starts at +0.0, so a zero may have another sign; a tensor's tan is t/u, which has a part in its entries ee and
//! ne; and a polygon's cuts and breaks that are NaN stand last, whatever their sign. Solver and caps have another `hypot` and are left to
//! the oracle.

use geopotential::Legendre;

use crate::cases::Cases;
use crate::inputs::{angles, fault, unsigned};
use crate::tally::{Report, Tally};

/// What the program is run with.
#[derive(Clone)]
struct Input {
    nmax: usize,
    gm: f64,
    radius: f64,
    c: Vec<f64>,
    s: Vec<f64>,
    love: Vec<f64>,
    r: f64,
    cut: usize,
    again: usize,
    lats: Vec<f64>,
    lons: Vec<f64>,
    values: Vec<f64>,
}

impl Input {
    fn random(cases: &mut Cases, nmax: usize) -> Self {
        let strange = cases.below(4) == 0;
        let mut numbers = |count: usize| (0..count).map(|_| if strange { cases.number() } else { cases.fraction() - 0.5 }).collect();
        let pairs = (nmax + 1) * (nmax + 2) / 2;
        let (c, s, love, values) = (numbers(pairs), numbers(pairs), numbers(nmax + 1), numbers((nmax + 1) * (2 * nmax + 2)));
        let [gm, radius] = [0; 2].map(|_| if strange { cases.number() } else { 1.0 + cases.fraction() });
        let (rows, columns) = (cases.below(5) as usize, cases.below(10) as usize);
        let ([cut, again], r) = ([0; 2].map(|_| cases.below(50) as usize), radius * (1.0 + 0.1 * cases.fraction()));
        Input { nmax, gm, radius, c, s, love, r, cut, again, lats: angles(cases, rows), lons: angles(cases, columns), values }
    }

    /// An outline with a vertex for each pair of the field.
    fn vertices(&self) -> Vec<(f64, f64)> {
        self.c.iter().zip(&self.s).map(|(&c, &s)| (6.0 * c, 3.0 * s)).collect()
    }

    /// The same with other numbers for NaN and those above 1e9 in size: no cut of the outline and no break is NaN then.
    fn bounded(&self) -> Self {
        let bounded = |list: &[f64]| list.iter().map(|&x| if x.abs() <= 1e9 { x } else { 1.0 / x.abs().max(1.0) }).collect();
        Input { c: bounded(&self.c), s: bounded(&self.s), lats: bounded(&self.lats), ..self.clone() }
    }

    /// The latitudes negated, all else as it is.
    fn negated(&self) -> Self {
        Input { lats: self.lats.iter().map(|lat| -lat).collect(), ..self.clone() }
    }
}

/// The program, for one of the two crates. Each function is a call and its answer in one list.
macro_rules! program {
    ($name:ident, $library:ident) => {
        mod $name {
            use core::f64::consts::FRAC_PI_2;

            use $library::slepian::{basin_average, basin_kernel, cap, concentration_matrix, polygon};
            use $library::{Coefficients, Functional, Legendre, Partials, SecondPartials, TideSystem, gauss_grid, gauss_legendre};

            use super::Input;

            fn field(input: &Input) -> Coefficients {
                let mut field = Coefficients::zeros(input.gm, input.radius, input.nmax);
                let places = (0..=input.nmax).flat_map(|n| (0..=n).map(move |m| (n, m)));
                places.zip(input.c.iter().zip(&input.s)).for_each(|((n, m), (&c, &s))| field.set(n, m, c, s));
                field
            }

            fn numbers(field: &Coefficients) -> Vec<f64> {
                let places = (0..=field.max_degree()).flat_map(|n| (0..=n).map(move |m| (n, m)));
                [field.gm, field.radius].into_iter().chain(places.flat_map(|(n, m)| [field.c(n, m), field.s(n, m)])).collect()
            }

            fn functionals(input: &Input) -> [Functional<'_>; 6] {
                let water = Functional::WaterHeight { love: &input.love };
                use Functional::*;
                [Potential, GeoidHeight, GravityDisturbance, GravityAnomaly, RadialGradient, water]
            }

            pub fn factor(input: &Input) -> Vec<f64> {
                let factors =
                    |f: Functional| (0..=input.nmax).map(move |n| f.factor(n, input.gm, input.radius, input.r)).collect::<Vec<_>>();
                functionals(input).into_iter().flat_map(factors).collect()
            }

            pub fn coefficients(input: &Input) -> Vec<f64> {
                let field = field(input);
                let amplitudes = functionals(input).into_iter().flat_map(|f| field.degree_amplitudes(&f));
                let changed = [field.truncated(input.cut), field.rescaled(input.r, input.gm)];
                field.degree_variances().into_iter().chain(amplitudes).chain(changed.iter().flat_map(numbers)).collect()
            }

            /// A field after one cut or several: its tide system and its numbers.
            pub fn truncated(input: &Input, cuts: &[usize]) -> Vec<f64> {
                let mut field = field(input);
                field.tide_system = TideSystem::ZeroTide;
                let field = cuts.iter().fold(field, |field, &cut| field.truncated(cut));
                [f64::from(field.tide_system as u8)].into_iter().chain(numbers(&field)).collect()
            }

            /// `==` of a field with its copy, with the field cut, with the field rescaled to its own head, and of two that are newly made.
            pub fn equality(input: &Input) -> Vec<f64> {
                let field = field(input);
                let [cut, rescaled] = [field.truncated(input.cut), field.rescaled(input.gm, input.radius)];
                let zeros = || Coefficients::zeros(input.gm, input.radius, input.nmax);
                [field == field.clone(), field == cut, field == rescaled, zeros() == zeros()].map(f64::from).to_vec()
            }

            pub fn legendre(input: &Input) -> Vec<f64> {
                entries(Legendre::new(input.nmax), input, |_| {})
            }

            /// The entries at each latitude, after `change`.
            pub fn entries(mut leg: Legendre, input: &Input, change: fn(&mut Legendre)) -> Vec<f64> {
                let mut out = Vec::new();
                for &lat in &input.lats {
                    leg.compute(lat);
                    change(&mut leg);
                    out.push(leg.p(input.nmax, input.nmax / 2));
                    leg.compute_with_derivative(lat);
                    change(&mut leg);
                    (0..=input.nmax).for_each(|n| (0..=n).for_each(|m| out.extend([leg.p(n, m), leg.dp(n, m)])));
                }
                out
            }

            pub fn rules(input: &Input) -> Vec<f64> {
                let ((x, w), (lats, lons)) = (gauss_legendre(input.nmax), gauss_grid(input.nmax));
                [x, w, lats, lons].concat()
            }

            pub fn grid(input: &Input) -> Vec<f64> {
                let field = field(input);
                functionals(input).into_iter().flat_map(|f| field.grid(&f, input.r, &input.lats, &input.lons)).collect()
            }

            pub fn partials(input: &Input) -> Vec<f64> {
                let (field, r) = (field(input), input.r);
                let at = |(&lat, &lon): (&f64, &f64)| {
                    let partials @ Partials { v, dr, dlat, dlon } = field.partials(r, lat, lon);
                    [&[v, dr, dlat, dlon][..], &partials.acceleration_neu(r, lat), &partials.gravity_neu(r, lat, 0.1)].concat()
                };
                input.lats.iter().zip(&input.lons).flat_map(at).collect()
            }

            fn second(input: &Input) -> impl Iterator<Item = (f64, SecondPartials)> {
                let field = field(input);
                input.lats.iter().zip(&input.lons).map(move |(&lat, &lon)| (lat, field.second_partials(input.r, lat, lon)))
            }

            pub fn second_partials(input: &Input) -> Vec<f64> {
                let numbers = |(_, at): (f64, SecondPartials)| {
                    let SecondPartials { first: Partials { v, dr, dlat, dlon }, drr, dlatlat, dlonlon, drlat, drlon, dlatlon } = at;
                    [v, dr, dlat, dlon, drr, dlatlat, dlonlon, drlat, drlon, dlatlon]
                };
                second(input).flat_map(numbers).collect()
            }

            pub fn tensor(input: &Input) -> Vec<f64> {
                second(input).flat_map(|(lat, at)| at.tensor_neu(input.r, lat).concat()).collect()
            }

            pub fn analysis(input: &Input) -> Vec<f64> {
                let analysis = |f| Coefficients::analysis(&f, input.r, &input.values, input.nmax, input.gm, input.radius);
                functionals(input).into_iter().flat_map(|f| numbers(&analysis(f))).collect()
            }

            /// The matrix of a cap about any point, and of a band of any longitudes; their functions go by another `hypot`.
            pub fn matrix(input: &Input) -> Vec<f64> {
                let lmax = input.nmax % 8;
                let (intervals, breaks) = cap(3.0 * input.r.fract().abs(), input.gm, 1.5 * input.radius.fract().abs());
                let (lo, hi) = (input.c[0], input.s[0]);
                let band = concentration_matrix(lmax, &|theta| if theta < 1.0 { vec![(lo, hi)] } else { vec![] }, &[0.3, 0.9, 1.7], 3);
                concentration_matrix(lmax, &intervals, &breaks, 2 + input.cut % 5).into_iter().chain(band).collect()
            }

            /// An outline's breaks, and its intervals at colatitudes of the input and of some vertices.
            fn drawn(input: &Input) -> (Vec<f64>, Vec<Vec<(f64, f64)>>) {
                let vertices = input.vertices();
                let (intervals, breaks) = polygon(&vertices);
                let lats = input.lats.iter().copied().chain(vertices.iter().map(|&(_, lat)| lat).take(9));
                (breaks, lats.map(|lat| intervals(FRAC_PI_2 - lat)).collect())
            }

            pub fn outline(input: &Input) -> Vec<f64> {
                let (breaks, at) = drawn(input);
                let ends = at.iter().flat_map(|at| [(at.len() as f64, 0.0)].into_iter().chain(at.iter().copied()));
                breaks.into_iter().chain(ends.flat_map(|(west, east)| [west, east])).collect()
            }

            /// Of an outline what does not hang on the rank of a NaN: the breaks, each NaN at the end, and how many intervals there are.
            pub fn counts(input: &Input) -> Vec<f64> {
                let (breaks, at) = drawn(input);
                let (nan, numbers): (Vec<f64>, Vec<f64>) = breaks.into_iter().partition(|x| x.is_nan());
                numbers.into_iter().chain(nan).chain(at.iter().map(|at| at.len() as f64)).collect()
            }

            /// The kernels of a drawn basin and of a cap, and a field's averages by the first.
            pub fn kernels(input: &Input) -> Vec<f64> {
                let vertices = input.vertices();
                let (basin, breaks) = polygon(&vertices[..vertices.len().min(12)]);
                let drawn = basin_kernel(input.nmax, &basin, &breaks, 2 + input.cut % 5);
                let (intervals, breaks) = cap(3.0 * input.r.fract().abs(), input.gm, 1.5 * input.radius.fract().abs());
                let round = basin_kernel(input.again, &intervals, &breaks, 4);
                let (field, averages) = (field(input), functionals(input));
                let averages = averages.iter().map(|f| basin_average(&field, &drawn, f, input.r));
                numbers(&drawn).into_iter().chain(numbers(&round)).chain(averages).collect()
            }

            pub fn average(input: &Input) -> Vec<f64> {
                let field = field(input);
                functionals(input).iter().map(|f| basin_average(&field, &field.truncated(input.cut), f, input.r)).collect()
            }
        }
    };
}

program!(ours, geopotential);
program!(theirs, published);

/// A table that grew degree by degree, which the published one can't.
fn grown(input: &Input) -> Legendre {
    let mut leg = Legendre::new(input.cut.min(input.nmax));
    (input.cut..=input.nmax).for_each(|nmax| leg.grow(nmax));
    leg
}

/// The part `legendre` at the negated latitudes by a table that is mirrored, which the published one can't be; zeros unsigned.
fn mirrored(leg: Legendre, input: &Input) -> Vec<f64> {
    unsigned(&ours::entries(leg, input, Legendre::mirror))
}

fn negated(input: &Input) -> Vec<f64> {
    unsigned(&theirs::legendre(&input.negated()))
}

/// Our field cut twice.
fn cut_twice(input: &Input) -> Vec<f64> {
    ours::truncated(input, &[input.cut, input.again])
}

type Program = fn(&Input) -> Vec<f64>;

/// Each part of the program, compiled against the one and the other.
const PARTS: &[(&str, Program, Program)] = &[
    ("factor", ours::factor, theirs::factor),
    ("coefficients", ours::coefficients, theirs::coefficients),
    ("truncated twice", cut_twice, |input| theirs::truncated(input, &[input.cut, input.again])),
    ("truncated twice, or once", cut_twice, |input| theirs::truncated(input, &[input.cut.min(input.again)])),
    ("equality", ours::equality, theirs::equality),
    ("legendre", ours::legendre, theirs::legendre),
    ("legendre, grown", |input| ours::entries(grown(input), input, |_| {}), theirs::legendre),
    ("legendre, mirrored", |input| mirrored(Legendre::new(input.nmax), input), negated),
    ("legendre grown, mirrored", |input| mirrored(grown(input), input), negated),
    ("gauss rules, grids", ours::rules, theirs::rules),
    ("grid", ours::grid, theirs::grid),
    ("grid, zeros unsigned", |input| unsigned(&ours::grid(input)), |input| unsigned(&theirs::grid(input))),
    ("partials", ours::partials, theirs::partials),
    ("second_partials", ours::second_partials, theirs::second_partials),
    ("tensor, without tan", |input| without_tan(ours::tensor(input)), |input| without_tan(theirs::tensor(input))),
    ("analysis", ours::analysis, theirs::analysis),
    ("basin_average", ours::average, theirs::average),
    ("concentration_matrix", ours::matrix, theirs::matrix),
    ("polygon, NaN apart", ours::counts, theirs::counts),
    ("polygon, no NaN", |input| ours::outline(&input.bounded()), |input| theirs::outline(&input.bounded())),
    ("basin_kernel, no NaN", |input| ours::kernels(&input.bounded()), |input| theirs::kernels(&input.bounded())),
];

/// Of each tensor's nine entries those that no tangent has a part in: nn, nu, eu, un, ue, uu.
fn without_tan(numbers: Vec<f64>) -> Vec<f64> {
    numbers.as_chunks::<9>().0.iter().flat_map(|tensor| [0, 2, 5, 6, 7, 8].map(|place| tensor[place])).collect()
}

pub fn compare(report: &mut Report) {
    for &(name, ours, published) in PARTS {
        report.call(name, |tally, cases| runs(tally, cases, ours, published));
    }
}

fn runs(tally: &mut Tally, cases: &mut Cases, ours: Program, published: Program) {
    for _ in cases.times(2_000) {
        let nmax = cases.below(41) as usize;
        let input = Input::random(cases, nmax);
        tally.call(fault("answer", &ours(&input), &published(&input)), || format!("N {nmax}"));
    }
}
