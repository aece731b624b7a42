//! Cases for `compare/margins.py`: values that the proved calls hand back beside every number in their sums, as bit patterns.

use std::fmt::Write;

use crate::cases::Cases;
use crate::entries::*;
use crate::sizes::table;

/// A number of at most 1 in size: ones, their neighbours below, ordinary fractions, small powers of two, subnormals, zeros.
fn at_most_one(cases: &mut Cases) -> f64 {
    let sign = if cases.below(2) == 0 { 1.0 } else { -1.0 };
    sign * match cases.below(8) {
        0 => 1.0,
        1 => 1.0 - f64::EPSILON / 2.0,
        2 => cases.subnormal().abs(),
        3 => 2f64.powi(-(cases.below(1070) as i32)),
        4 => 0.0,
        _ => cases.fraction(),
    }
}

/// The lists of a sum, its largest degree first.
struct Sum {
    text: String,
}

impl Sum {
    fn new(kind: &str, nmax: usize) -> Self {
        Sum { text: format!("{kind} {nmax}") }
    }

    fn add(&mut self, numbers: &[f64]) {
        for x in numbers {
            write!(self.text, " {:016x}", x.to_bits()).expect("a string");
        }
    }
}

/// gm, radius and r: as for the Earth, near 1, or far from it, so that factors overflow and underflow.
fn head(cases: &mut Cases) -> [f64; 3] {
    match cases.below(4) {
        0 => [3.986004415e14, 6378136.3, 6378136.3 * (1.0 + 0.1 * cases.fraction())],
        1 => [cases.near_one(), cases.near_one(), cases.near_one()],
        2 => [2f64.powi(-(cases.below(1000) as i32)), cases.near_one(), cases.near_one()],
        _ => [1.0, 1.0, 2f64.powi(cases.below(400) as i32)],
    }
}

/// The degree of a sum, its functional, and what the functional takes: gm, radius, r, the Love numbers.
struct Setting {
    nmax: usize,
    functional: u32,
    head: [f64; 3],
    love: Vec<f64>,
}

fn setting(cases: &mut Cases) -> Setting {
    let nmax = cases.below(9) as usize;
    let (functional, head) = (cases.below(6) as u32, head(cases));
    Setting { nmax, functional, head, love: (0..=nmax).map(|_| cases.fraction() - 0.5).collect() }
}

/// So many numbers of at most 1 in size.
fn draw(cases: &mut Cases, count: usize) -> Vec<f64> {
    (0..count).map(|_| at_most_one(cases)).collect()
}

/// The factors of the degrees up to N, as the call answers them.
fn factors(Setting { nmax, functional, head: [gm, radius, r], love }: &Setting) -> Vec<f64> {
    let factor = |n| {
        let mut value = 0.0;
        let refusal = unsafe { geopotential_factor(*functional, love.as_ptr(), love.len(), n, *gm, *radius, *r, &mut value) };
        assert_eq!(refusal, 0);
        value
    };
    (0..=*nmax).map(factor).collect()
}

/// One value of a grid: its factors, P, c, s, cosines, sines, and the value.
fn grid(cases: &mut Cases) -> String {
    let setting = setting(cases);
    let Setting { nmax, functional, head: [gm, radius, r], ref love } = setting;
    let (size, order) = (table(nmax), nmax + 1);
    let (c, s, trig) = (draw(cases, size), draw(cases, size), draw(cases, 2 * order));
    let (t, u) = match cases.below(3) {
        0 => (cases.number(), cases.number()),
        1 => (cases.near_one(), cases.near_one()),
        _ => (3.2 * cases.fraction() - 1.6).sin_cos(),
    };
    let (mut a, mut b, mut p) = (vec![0.0; size], vec![0.0; size], vec![0.0; size]);
    let (mut work, mut value) = (vec![f64::NAN; 3 * size + 3 * order], [0.0]);
    let refusals = unsafe {
        [
            geopotential_legendre_new(nmax, a.as_mut_ptr(), size, b.as_mut_ptr(), size),
            geopotential_legendre_compute(nmax, t, u, a.as_ptr(), size, b.as_ptr(), size, p.as_mut_ptr(), size),
            geopotential_grid(
                gm,
                radius,
                nmax,
                c.as_ptr(),
                size,
                s.as_ptr(),
                size,
                functional,
                love.as_ptr(),
                order,
                r,
                1,
                [t, u].as_ptr(),
                2,
                1,
                trig.as_ptr(),
                2 * order,
                work.as_mut_ptr(),
                work.len(),
                value.as_mut_ptr(),
                1,
            ),
        ]
    };
    assert_eq!(refusals, [0; 3]);
    let mut sum = Sum::new("grid", nmax);
    sum.add(&factors(&setting));
    [&p, &c, &s].iter().for_each(|list| sum.add(list));
    sum.add(&trig.iter().step_by(2).copied().collect::<Vec<_>>());
    sum.add(&trig.iter().skip(1).step_by(2).copied().collect::<Vec<_>>());
    sum.add(&value);
    sum.text
}

/// One average: its factors, c, s, the kernel's c and s, and the value.
fn average(cases: &mut Cases) -> String {
    let setting = setting(cases);
    let Setting { nmax, functional, head: [gm, radius, r], ref love } = setting;
    let (size, order) = (table(nmax), nmax + 1);
    let [c, s, kc, ks] = [(); 4].map(|()| draw(cases, size));
    let mut value = 0.0;
    let refusal = unsafe {
        let lists = [&c, &s, &kc, &ks].map(|list| list.as_ptr());
        geopotential_basin_average(
            gm,
            radius,
            nmax,
            lists[0],
            size,
            lists[1],
            size,
            nmax,
            lists[2],
            size,
            lists[3],
            size,
            functional,
            love.as_ptr(),
            order,
            r,
            &mut value,
        )
    };
    assert_eq!(refusal, 0);
    let mut sum = Sum::new("average", nmax);
    sum.add(&factors(&setting));
    [&c, &s, &kc, &ks].iter().for_each(|list| sum.add(list));
    sum.add(&[value]);
    sum.text
}

/// `count` lines of each kind.
pub fn lines(seed: u64, count: usize) -> String {
    let mut cases = Cases::new(seed, 1);
    let mut text = String::new();
    for _ in 0..count {
        text += &grid(&mut cases);
        text += "\n";
        text += &average(&mut cases);
        text += "\n";
    }
    text
}
