//! `geoid subtract`: one field less another.

use super::{ABSENT_AS_ZERO, Command, EPOCH, field};
use crate::arguments::{Arguments, Opt};
use crate::body::ANY_BODY;
use crate::dating;
use crate::difference::{DEGREE, Matching, Named, TIDE_AS_IS, dates_line};
use crate::error::Error;
use crate::field_file::{save, summary};
use crate::output::note;
use crate::reduction::{Wish, ZERO_DEGREE};

pub const COMMAND: Command = Command {
    name: "subtract",
    summary: "one field less another, such as a month less a mean",
    usage: "A B --out D [OPTIONS]",
    operands: &["A", "B"],
    options: &[
        Opt { name: "--out", value: "D", help: "the file to write: ICGEM text where it ends with .gfc, else a model file" },
        DEGREE,
        TIDE_AS_IS,
        Opt {
            name: ZERO_DEGREE.name,
            value: ZERO_DEGREE.value,
            help: "what is left at degree 0, which fields of different GM have; default keep",
        },
        dating::option("the date that D states; default none"),
        ABSENT_AS_ZERO,
        EPOCH,
        ANY_BODY,
    ],
    details: "B is first expressed with A's GM and radius, by the library. D has A's GM, radius and tide system; each of its\n\
              coefficients is one rounded subtraction. Different degrees or tide systems are refused unless an option says\n\
              what to do. D is a new field, without a date of its own; a note names the dates of A and B.\n",
    run,
};

fn run(arguments: &Arguments) -> Result<String, Error> {
    let out = arguments.path("--out").ok_or_else(|| Error::usage("--out D is missing; see geoid subtract --help"))?;
    let (matching, wish) = (Matching::of(arguments)?, Wish::of(arguments)?);
    let date = dating::wished(arguments)?;
    let (a, b) = (arguments.operand(0), arguments.operand(1));
    let (first, second) = (field(arguments, a)?, field(arguments, b)?);
    let rest = matching.subtract(Named { path: a, field: &first }, Named { path: b, field: &second })?;
    let mut rest = wish.degree_zero_of(rest)?;
    rest.date = date.flatten();
    save(out, &rest)?;
    if let Some(dates) = dates_line(&first, &second) {
        let own = match date {
            None => ", with no date of its own (--date gives it one)",
            Some(None) => ", with no date of its own",
            Some(Some(_)) => "",
        };
        note(&format!("{}: {dates}{own}", out.display()));
    }
    Ok(format!("{}: {}, {} less {}\n", out.display(), summary(&rest), a.display(), b.display()))
}
