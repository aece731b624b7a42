//! `geoid smooth`: a field weighted by degree.

use super::{ABSENT_AS_ZERO, Command, EPOCH, field_or_kernel};
use crate::arguments::{Arguments, Opt};
use crate::body::ANY_BODY;
use crate::error::Error;
use crate::field_file::{save, summary};
use crate::gauss;

/// The least and the largest radius of the filter, km.
const LEAST: f64 = 1.0;
const LARGEST: f64 = 10_000.0;

pub const COMMAND: Command = Command {
    name: "smooth",
    summary: "a field smoothed by Jekeli's Gaussian filter",
    usage: "IN OUT --gauss KM",
    operands: &["IN", "OUT"],
    options: &[
        Opt {
            name: "--gauss",
            value: "KM",
            help: "the distance at which the filter has fallen to a half, 1 to 10000 km on a sphere of 6371 km",
        },
        ABSENT_AS_ZERO,
        EPOCH,
        ANY_BODY,
    ],
    details: "Every C(n,m) and S(n,m) is multiplied by the weight of its degree (Jekeli 1981; Wahr et al. 1998), 1 at degree\n\
              0. The weights are worked out from the highest degree downwards, which keeps their digits at every degree; the\n\
              usual upward recursion loses them (at 300 km from degree 120 on). OUT has the date of IN, as geoid convert\n\
              finds it.\n",
    run,
};

fn run(arguments: &Arguments) -> Result<String, Error> {
    let kilometres = arguments.positive("--gauss")?.ok_or_else(|| Error::usage("--gauss KM is missing; see geoid smooth --help"))?;
    if !(LEAST..=LARGEST).contains(&kilometres) {
        return Err(Error::usage(format!("--gauss is {kilometres}; expected kilometres from {LEAST} to {LARGEST}")));
    }
    let (from, to) = (arguments.operand(0), arguments.operand(1));
    let mut field = field_or_kernel(arguments, from, None)?;
    for (n, weight) in gauss::weights(1e3 * kilometres, field.max_degree()).into_iter().enumerate() {
        for m in 0..=n {
            field.try_set(n, m, weight * field.try_c(n, m)?, weight * field.try_s(n, m)?)?;
        }
    }
    save(to, &field)?;
    Ok(format!("{}: {}, Gauss {kilometres} km\n", to.display(), summary(&field)))
}
