//! The difference of two fields, such as two months of the same series.

use std::path::Path;

use geopotential::{Coefficients, MAX_DEGREE, RHO_EARTH, RHO_WATER, TideSystem};

use crate::arguments::{Arguments, Opt};
use crate::dating::shown;
use crate::error::Error;
use crate::output::note;

pub const DEGREE: Opt = Opt {
    name: "--degree",
    value: "N|smaller",
    help: "cut both fields to degree N, or to the smaller of their degrees, where they differ",
};

pub const TIDE_AS_IS: Opt = Opt { name: "--tide-as-is", value: "", help: "subtract fields of different tide systems as they are" };

/// A field and the file it came from.
#[derive(Clone, Copy)]
pub struct Named<'a> {
    pub path: &'a Path,
    pub field: &'a Coefficients,
}

/// How fields that don't match are made to.
#[derive(Clone, Copy)]
pub struct Matching {
    degree: Option<Cut>,
    tide_as_is: bool,
}

#[derive(Clone, Copy)]
enum Cut {
    To(usize),
    Smaller,
}

impl Matching {
    pub fn of(arguments: &Arguments) -> Result<Self, Error> {
        let degree = match arguments.text(DEGREE.name)? {
            None => None,
            Some("smaller") => Some(Cut::Smaller),
            Some(_) => arguments.count(DEGREE.name, MAX_DEGREE)?.map(Cut::To),
        };
        Ok(Matching { degree, tide_as_is: arguments.has(TIDE_AS_IS.name) })
    }

    /// The degree of the difference.
    fn degree(&self, first: Named, second: Named) -> Result<usize, Error> {
        let [a, b] = [first, second].map(|named| named.field.max_degree());
        let told = format!("{} has degree {a}, {} degree {b}", first.path.display(), second.path.display());
        match self.degree {
            None if a == b => Ok(a),
            None => Err(Error::failure(format!("{told}; --degree smaller (or a number) cuts both to the same"))),
            Some(Cut::Smaller) => Ok(a.min(b)),
            Some(Cut::To(degree)) if degree <= a.min(b) => Ok(degree),
            Some(Cut::To(degree)) => Err(Error::failure(format!("--degree is {degree}, but {told}; expected at most {}", a.min(b)))),
        }
    }

    fn check_tides(&self, first: Named, second: Named) -> Result<(), Error> {
        let [a, b] = [first, second].map(|named| named.field.tide_system);
        if a == b || self.tide_as_is {
            return Ok(());
        }
        let name = |tide_system| tide_name(tide_system).unwrap_or("of no stated tide system");
        Err(Error::failure(format!(
            "{} is {}, {} {}: C(2,0) would differ by the permanent tide; --tide-as-is subtracts them as they are",
            first.path.display(),
            name(a),
            second.path.display(),
            name(b)
        )))
    }

    /// A field of which nothing is subtracted, cut where a degree is given.
    pub fn alone(&self, named: Named) -> Result<Coefficients, Error> {
        let degree = named.field.max_degree();
        match self.degree {
            None | Some(Cut::Smaller) => Ok(named.field.clone()),
            Some(Cut::To(cut)) if cut <= degree => Ok(named.field.truncated(cut)),
            Some(Cut::To(cut)) => Err(Error::failure(format!("--degree is {cut}, but {} has degree {degree}", named.path.display()))),
        }
    }

    /// The first field less the second, which the library expresses with the first one's GM and radius. It is no month's field:
    /// it has no date.
    pub fn subtract(&self, first: Named, second: Named) -> Result<Coefficients, Error> {
        self.check_tides(first, second)?;
        let degree = self.degree(first, second)?;
        let mut rest = first.field.truncated(degree);
        rest.date = None;
        let other = second.field.truncated(degree).rescaled(rest.gm, rest.radius);
        for n in 0..=degree {
            for m in 0..=n {
                let (c, s) = (rest.try_c(n, m)? - other.try_c(n, m)?, rest.try_s(n, m)? - other.try_s(n, m)?);
                rest.try_set(n, m, c, s)?;
            }
        }
        if first.field.gm != second.field.gm {
            tell_masses(&rest)?;
        }
        Ok(rest)
    }
}

/// Of which days the two fields of a difference are, if one of them has a date.
pub fn dates_line(first: &Coefficients, second: &Coefficients) -> Option<String> {
    let of = |date: i32| format!("of {}", shown(date));
    let without = || "of no stated date".to_string();
    let stated = first.date.or(second.date).is_some();
    let [first, second] = [first, second].map(|field| field.date.map_or_else(without, of));
    stated.then(|| format!("a field {first} less one {second}"))
}

/// Two centres' GM are two conventions, but their difference looks like a mass of its own, spread over the globe.
fn tell_masses(rest: &Coefficients) -> Result<(), Error> {
    let first = rest.try_c(0, 0)?;
    let water = 1e3 * first * rest.radius * RHO_EARTH / (3.0 * RHO_WATER);
    if first != 0.0 {
        note(&format!(
            "the fields' GM differ, and C(0,0) of their difference is {first:e}: {water:.3} mm of water everywhere (--zero-degree drop leaves it out)"
        ));
    }
    Ok(())
}

/// A tide system in words, where it is stated.
pub fn tide_name(tide_system: TideSystem) -> Option<&'static str> {
    match tide_system {
        TideSystem::TideFree => Some("tide-free"),
        TideSystem::ZeroTide => Some("zero tide"),
        TideSystem::MeanTide => Some("mean tide"),
        TideSystem::Unknown => None,
    }
}
