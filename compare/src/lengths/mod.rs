//! The entries that tell the lengths of a call's lists, against document 01's lengths, stated here once more.

use crate::cases::Cases;
use crate::entries::*;
use crate::guarded::Guarded;
use crate::polygon::MAX_VERTICES;
use crate::refusal::{KIND, MAX_DEGREE, SHORT, SIZE, SPACE, TIDE, fault, pairs};
use crate::tally::{Report, Tally};

/// The most rows, longitudes, points or nodes.
const MAX_LINES: usize = 65_535;

/// An entry by how many sizes it takes.
enum Entry {
    None(unsafe extern "C" fn(*mut usize, usize) -> u32),
    One(unsafe extern "C" fn(usize, *mut usize, usize) -> u32),
    Two(unsafe extern "C" fn(usize, usize, *mut usize, usize) -> u32),
    Three(unsafe extern "C" fn(usize, usize, usize, *mut usize, usize) -> u32),
}

use Entry::{None, One, Three, Two};

impl Entry {
    fn call(&self, sizes: &[usize], lengths: &mut Guarded<usize>) -> u32 {
        let (pointer, length) = (lengths.pointer(), lengths.len());
        match (self, sizes) {
            (None(entry), []) => unsafe { entry(pointer, length) },
            (One(entry), &[a]) => unsafe { entry(a, pointer, length) },
            (Two(entry), &[a, b]) => unsafe { entry(a, b, pointer, length) },
            (Three(entry), &[a, b, c]) => unsafe { entry(a, b, c, pointer, length) },
            _ => unreachable!("an entry takes as many sizes as it has limits"),
        }
    }
}

/// An entry, the limit of each size, and the lengths that are due.
struct Told {
    name: &'static str,
    entry: Entry,
    limits: &'static [usize],
    due: fn(&[usize]) -> Vec<u128>,
}

const DEGREE: &[usize] = &[MAX_DEGREE];

/// So many tables up to the first size.
fn tables<const COUNT: usize>(sizes: &[usize]) -> Vec<u128> {
    vec![pairs(sizes[0]); COUNT]
}

/// n + 1.
fn rows(n: usize) -> u128 {
    n as u128 + 1
}

fn grid(sizes: &[usize]) -> Vec<u128> {
    let (t, orders, lines, longitudes) = (pairs(sizes[0]), rows(sizes[0]), sizes[1] as u128, sizes[2] as u128);
    vec![t, t, orders, 2 * lines, 2 * longitudes * orders, 3 * t + 3 * orders, lines * longitudes]
}

/// One point: so many tables of working numbers, so many numbers that are answered.
fn point<const TABLES: u128, const NUMBERS: u128>(sizes: &[usize]) -> Vec<u128> {
    let (t, orders) = (pairs(sizes[0]), rows(sizes[0]));
    vec![t, t, 2 * orders, TABLES * t, NUMBERS]
}

/// Many points, so many numbers for each.
fn along<const TABLES: u128, const NUMBERS: u128>(sizes: &[usize]) -> Vec<u128> {
    let (t, orders, points) = (pairs(sizes[0]), rows(sizes[0]), sizes[1] as u128);
    vec![t, t, points, 2 * points, 2 * points * orders, TABLES * t, NUMBERS * points]
}

fn analysis(sizes: &[usize]) -> Vec<u128> {
    let (t, lines) = (pairs(sizes[0]), rows(sizes[0]));
    vec![lines, 2 * lines * lines, lines, 2 * lines, 4 * lines * lines, 3 * t, t, t]
}

fn matrix(sizes: &[usize]) -> Vec<u128> {
    let n = sizes[0] as u128;
    vec![n * n, n * n + 4 * n, n, n * n]
}

fn cap(sizes: &[usize]) -> Vec<u128> {
    let (t, k) = (pairs(sizes[0]), rows(sizes[0]));
    let vectors = k * (k + 1) * (2 * k + 1) / 6;
    vec![k, 2 * k, 3 * t + 4 * k * k + 5 * k + (t + t + vectors), t, t, vectors, 2 * k]
}

/// The five lists of the nodes of a region.
fn nodes(sizes: &[usize]) -> Vec<u128> {
    let (integrals, nodes) = (2 * rows(sizes[0]) - 1, sizes[1] as u128);
    vec![nodes, 2 * nodes, nodes, integrals * nodes, integrals * nodes]
}

fn concentration_matrix(sizes: &[usize]) -> Vec<u128> {
    let functions = rows(sizes[0]).pow(2);
    [nodes(sizes), vec![3 * pairs(sizes[0]), functions * functions]].concat()
}

fn region(sizes: &[usize]) -> Vec<u128> {
    let (t, functions) = (pairs(sizes[0]), rows(sizes[0]).pow(2));
    let work = 3 * t + 4 * functions * functions + 5 * functions;
    [nodes(sizes), vec![work, functions, functions * t, functions * t]].concat()
}

fn kernel(sizes: &[usize]) -> Vec<u128> {
    let t = pairs(sizes[0]);
    [nodes(sizes), vec![3 * t, t, t]].concat()
}

/// An outline of so many vertices, and the most intervals or breaks that it can have.
fn intervals(sizes: &[usize]) -> Vec<u128> {
    let vertices = sizes[0] as u128;
    vec![2 * vertices, vertices, vertices - vertices % 2]
}

fn breaks(sizes: &[usize]) -> Vec<u128> {
    let vertices = sizes[0] as u128;
    vec![2 * vertices, vertices, vertices]
}

fn average(sizes: &[usize]) -> Vec<u128> {
    let (t, kernel) = (pairs(sizes[0]), pairs(sizes[1]));
    vec![t, t, kernel, kernel, rows(sizes[0].min(sizes[1]))]
}

fn cut(sizes: &[usize]) -> Vec<u128> {
    let (t, kept) = (pairs(sizes[0]), pairs(sizes[0].min(sizes[1])));
    vec![t, t, kept, kept]
}

const TOLD: &[Told] = &[
    Told { name: "factor", entry: One(geopotential_factor_lengths), limits: DEGREE, due: |s| vec![rows(s[0])] },
    Told { name: "zeros", entry: One(geopotential_zeros_lengths), limits: DEGREE, due: tables::<2> },
    Told { name: "coefficient_c", entry: One(geopotential_coefficient_c_lengths), limits: DEGREE, due: tables::<1> },
    Told { name: "coefficient_s", entry: One(geopotential_coefficient_s_lengths), limits: DEGREE, due: tables::<1> },
    Told { name: "set", entry: One(geopotential_set_lengths), limits: DEGREE, due: tables::<2> },
    Told { name: "truncated", entry: Two(geopotential_truncated_lengths), limits: &[MAX_DEGREE, usize::MAX], due: cut },
    Told { name: "rescaled", entry: One(geopotential_rescaled_lengths), limits: DEGREE, due: tables::<4> },
    Told {
        name: "degree_variances",
        entry: One(geopotential_degree_variances_lengths),
        limits: DEGREE,
        due: |s| [tables::<2>(s), vec![rows(s[0])]].concat(),
    },
    Told {
        name: "degree_amplitudes",
        entry: One(geopotential_degree_amplitudes_lengths),
        limits: DEGREE,
        due: |s| [tables::<2>(s), vec![rows(s[0]); 2]].concat(),
    },
    Told { name: "legendre_new", entry: One(geopotential_legendre_new_lengths), limits: DEGREE, due: tables::<2> },
    Told { name: "legendre_grow", entry: One(geopotential_legendre_grow_lengths), limits: DEGREE, due: tables::<2> },
    Told { name: "legendre_compute", entry: One(geopotential_legendre_compute_lengths), limits: DEGREE, due: tables::<3> },
    Told {
        name: "legendre_compute_with_derivative",
        entry: One(geopotential_legendre_compute_with_derivative_lengths),
        limits: DEGREE,
        due: tables::<4>,
    },
    Told { name: "legendre_mirror", entry: One(geopotential_legendre_mirror_lengths), limits: DEGREE, due: tables::<1> },
    Told {
        name: "legendre_mirror_derivative",
        entry: One(geopotential_legendre_mirror_derivative_lengths),
        limits: DEGREE,
        due: tables::<1>,
    },
    Told { name: "legendre_entry", entry: One(geopotential_legendre_entry_lengths), limits: DEGREE, due: tables::<1> },
    Told {
        name: "gauss_legendre",
        entry: One(geopotential_gauss_legendre_lengths),
        limits: &[2701],
        due: |s| vec![(s[0] as u128).div_ceil(2), s[0] as u128, s[0] as u128],
    },
    Told { name: "grid", entry: Three(geopotential_grid_lengths), limits: &[MAX_DEGREE, MAX_LINES, MAX_LINES], due: grid },
    Told { name: "partials", entry: One(geopotential_partials_lengths), limits: DEGREE, due: point::<4, 4> },
    Told { name: "partials_along", entry: Two(geopotential_partials_along_lengths), limits: &[MAX_DEGREE, MAX_LINES], due: along::<4, 4> },
    Told { name: "acceleration_neu", entry: None(geopotential_acceleration_neu_lengths), limits: &[], due: |_| vec![3] },
    Told { name: "gravity_neu", entry: None(geopotential_gravity_neu_lengths), limits: &[], due: |_| vec![3] },
    Told { name: "second_partials", entry: One(geopotential_second_partials_lengths), limits: DEGREE, due: point::<5, 10> },
    Told {
        name: "second_partials_along",
        entry: Two(geopotential_second_partials_along_lengths),
        limits: &[MAX_DEGREE, MAX_LINES],
        due: along::<5, 10>,
    },
    Told { name: "tensor_neu", entry: None(geopotential_tensor_neu_lengths), limits: &[], due: |_| vec![9] },
    Told { name: "analysis", entry: One(geopotential_analysis_lengths), limits: DEGREE, due: analysis },
    Told { name: "symmetric_eigen", entry: One(geopotential_symmetric_eigen_lengths), limits: &[512], due: matrix },
    Told { name: "householder_ql", entry: One(geopotential_householder_ql_lengths), limits: &[512], due: matrix },
    Told { name: "polar_cap", entry: One(geopotential_polar_cap_lengths), limits: &[180], due: cap },
    Told {
        name: "concentration_matrix",
        entry: Two(geopotential_concentration_matrix_lengths),
        limits: &[21, MAX_LINES],
        due: concentration_matrix,
    },
    Told { name: "region", entry: Two(geopotential_region_lengths), limits: &[21, MAX_LINES], due: region },
    Told { name: "polygon_intervals", entry: One(geopotential_polygon_intervals_lengths), limits: &[MAX_VERTICES], due: intervals },
    Told { name: "polygon_breaks", entry: One(geopotential_polygon_breaks_lengths), limits: &[MAX_VERTICES], due: breaks },
    Told { name: "basin_kernel", entry: Two(geopotential_basin_kernel_lengths), limits: &[MAX_DEGREE, MAX_LINES], due: kernel },
    Told { name: "basin_average", entry: Two(geopotential_basin_average_lengths), limits: &[MAX_DEGREE, MAX_DEGREE], due: average },
];

pub fn compare(report: &mut Report) {
    report.call("lengths", |tally, _| TOLD.iter().for_each(|told| all_sizes(tally, told)));
    report.call("lengths of model_write", |tally, _| written(tally));
    report.call("lengths of model_read", heads);
}

/// Sizes from 0 up, about the limit, and far beyond it.
fn sizes_about(limit: usize) -> Vec<usize> {
    let small = (0..40).chain([96, 180, 360]);
    let large = [limit - 1, limit, limit.saturating_add(1), MAX_LINES, MAX_LINES + 1, 1 << 32, (1 << 32) + 2, 1 << 63, usize::MAX];
    small.chain(large).collect()
}

fn all_sizes(tally: &mut Tally, told: &Told) {
    let every = told.limits.iter().fold(vec![vec![]], |lists: Vec<Vec<usize>>, &limit| {
        lists.iter().flat_map(|list| sizes_about(limit).into_iter().map(|size| [list.as_slice(), &[size]].concat())).collect()
    });
    for sizes in every {
        let passes = sizes.iter().zip(told.limits).all(|(size, limit)| size <= limit);
        let due = if passes { (told.due)(&sizes) } else { vec![] };
        one(
            tally,
            told.name,
            if passes { Ok(&due) } else { Err(SIZE) },
            |lengths| told.entry.call(&sizes, lengths),
            || format!("{sizes:?}"),
        );
    }
}

/// One answer, into lists of lengths that are long enough and into shorter ones. No entry tells more than 9 lengths.
fn one(tally: &mut Tally, name: &str, due: Result<&[u128], u32>, call: impl Fn(&mut Guarded<usize>) -> u32, input: impl Fn() -> String) {
    for room in [0, 1, 2, 3, 4, 6, 7, 8, 9, 11] {
        let mut lengths = Guarded::marked(room);
        let number = call(&mut lengths);
        let (refusal, answer) = match due {
            Err(refusal) => (refusal, vec![]),
            Ok(due) if due.len() > room => (SPACE, vec![]),
            Ok(due) => (0, due.iter().map(|&length| length as usize).collect()),
        };
        let wrong = fault(number, refusal).or_else(|| lengths.fault("lengths", &answer));
        tally.call(wrong, || format!("{name} {}, room for {room}", input()));
    }
}

/// Every degree with numbers that state a date, and with 0, which states none.
fn written(tally: &mut Tally) {
    for nmax in sizes_about(MAX_DEGREE) {
        for dated in [0, 1, 2, 7, 256, 65_536, 1 << 31, u32::MAX] {
            let t = pairs(nmax);
            let due = if nmax > MAX_DEGREE { Err(SIZE) } else { Ok([t, t, 17 * t + if dated == 0 { 21 } else { 25 }]) };
            let call =
                |lengths: &mut Guarded<usize>| unsafe { geopotential_model_write_lengths(nmax, dated, lengths.pointer(), lengths.len()) };
            one(tally, "model_write", due.as_ref().map(|due| &due[..]).map_err(|&refusal| refusal), call, || {
                format!("{nmax}, dated {dated}")
            });
        }
    }
}

/// The lengths of a model file's lists by its first bytes.
fn due_of_head(bytes: &[u8]) -> Result<Vec<u128>, u32> {
    let length = match bytes {
        [] => return Err(SHORT),
        [1, ..] => 20,
        [4, ..] => 24,
        _ => return Err(KIND),
    };
    if bytes.len() < length {
        return Err(SHORT);
    }
    if bytes[17] > 3 {
        return Err(TIDE);
    }
    let nmax = u16::from_le_bytes([bytes[18], bytes[19]]) as usize;
    let t = pairs(nmax);
    if nmax > MAX_DEGREE { Err(SIZE) } else { Ok(vec![length as u128 + 17 * t + 1, t, t, 6]) }
}

/// A head by both.
fn head(tally: &mut Tally, bytes: &[u8]) {
    let due = due_of_head(bytes);
    let mut file = Guarded::of(bytes, bytes.len());
    let (pointer, length) = (file.pointer(), file.len());
    let call = |lengths: &mut Guarded<usize>| unsafe { geopotential_model_read_lengths(pointer, length, lengths.pointer(), lengths.len()) };
    one(tally, "model_read", due.as_deref().map_err(|&refusal| refusal), call, || format!("{bytes:x?}"));
}

fn heads(tally: &mut Tally, cases: &mut Cases) {
    // Heads of both kinds and of others, of every length about theirs, with tides and degrees that pass or don't.
    for kind in 0..=5 {
        for (tide, nmax) in [0, 3, 4, 255].into_iter().flat_map(|tide| [0u16, 2, 2700, 2701, 65_535].map(|nmax| (tide, nmax))) {
            let mut bytes: Vec<u8> = (0..40).map(|_| cases.below(256) as u8).collect();
            (bytes[0], bytes[17]) = (kind, tide);
            bytes[18..20].copy_from_slice(&nmax.to_le_bytes());
            (0..=26).for_each(|length| head(tally, &bytes[..length]));
        }
    }
    for _ in cases.times(80_000) {
        let mut bytes: Vec<u8> = (0..cases.below(40)).map(|_| cases.below(256) as u8).collect();
        if let Some(kind) = bytes.first_mut().filter(|_| cases.below(8) > 0) {
            *kind = [1, 4][cases.below(2) as usize];
        }
        if bytes.len() >= 20 && cases.below(8) > 0 {
            bytes[17] = cases.below(5) as u8;
            bytes[18..20].copy_from_slice(&(cases.below(2800) as u16).to_le_bytes());
        }
        head(tally, &bytes);
    }
}
