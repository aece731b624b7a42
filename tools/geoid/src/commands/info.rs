//! `geoid info`: what a field is, and how strong it is at each degree.

use super::{ABSENT_AS_ZERO, Command, EPOCH, FUNCTIONAL, LOVE};
use crate::arguments::{Arguments, Opt};
use crate::body::{ANY_BODY, check_either};
use crate::dating::shown;
use crate::difference::tide_name;
use crate::error::Error;
use crate::field_file::{Choices, FieldFile, pairs, read};
use crate::plot;
use crate::quantity::Quantity;

/// Degrees that a short table shows one by one, and about how many it shows in all.
const FIRST: usize = 10;
const SHORT: usize = 30;

pub const COMMAND: Command = Command {
    name: "info",
    summary: "a field's head, its degree amplitudes and a plot of them",
    usage: "FILE [OPTIONS]",
    operands: &["FILE"],
    options: &[
        FUNCTIONAL,
        LOVE,
        Opt { name: "--all", value: "", help: "every degree in the table, however many there are" },
        ABSENT_AS_ZERO,
        EPOCH,
        ANY_BODY,
    ],
    details: "Amplitudes are those on the field's own reference sphere; 'to here' is the root of the sum of squares\n\
              from degree 2. Gravity is shown in mGal, gradients in E. The model's name and the time that the field is of\n\
              are shown where the file tells them. The date is that of geoid convert, with its days from 2000-01-01.\n",
    run,
};

fn run(arguments: &Arguments) -> Result<String, Error> {
    let quantity = Quantity::named(arguments.text("--functional")?)?;
    let love = quantity.love(arguments.path("--love"))?;
    let path = arguments.operand(0);
    let file = read(path, &Choices::of(arguments)?)?;
    let field = &file.field;
    check_either(path, field, arguments.has(ANY_BODY.name))?;
    love.check(field.max_degree())?;
    let mut amplitudes = field.try_degree_amplitudes(&(quantity.functional)(&love.numbers))?;
    amplitudes.iter_mut().for_each(|amplitude| *amplitude *= quantity.per_si);
    let shown = degrees(field.max_degree(), arguments.has("--all"));
    Ok(sayings(&file) + &head(&file) + &table(&amplitudes, &shown, quantity) + "\n" + &plot::bars(&amplitudes, quantity.unit))
}

/// What the file itself says of the field, and what was taken for granted. Control characters are shown as `?`.
fn sayings(file: &FieldFile) -> String {
    let name = file.name.iter().map(|name| ("model", name));
    let time = file.time.iter().map(|time| ("time", time));
    let notes = file.notes.iter().map(|text| ("note", text));
    name.chain(time).chain(notes).map(|(label, text)| format!("{label:<13}{}\n", text.replace(char::is_control, "?"))).collect()
}

fn head(file: &FieldFile) -> String {
    let field = &file.field;
    let tide = tide_name(field.tide_system).unwrap_or("not stated");
    let date = field.date.map_or("not stated".into(), |days| format!("{} (day {days}){}", shown(days), by(file)));
    format!(
        "GM           {:e} m³/s²\nradius       {} m\ntide system  {tide}\ndate         {date}\ndegree       {}\npairs        {}\n\n",
        field.gm,
        field.radius,
        field.max_degree(),
        pairs(field)
    )
}

/// What the date is by, where the file does not state it.
fn by(file: &FieldFile) -> String {
    file.dating.map_or(String::new(), |by| format!(", {by}"))
}

/// The degrees of the table: all of a small field, else the first ones and multiples of a round number.
fn degrees(last: usize, all: bool) -> Vec<usize> {
    if all || last <= SHORT + FIRST {
        return (0..=last).collect();
    }
    let step = crate::scale::round_step(last as f64, SHORT).ceil() as usize;
    (0..=last).filter(|&n| n <= FIRST || n % step == 0 || n == last).collect()
}

fn table(amplitudes: &[f64], degrees: &[usize], quantity: Quantity) -> String {
    let mut text = format!("{:>6}  {:>14}  {:>14}\n", "degree", format!("{} ({})", quantity.name, quantity.unit), "to here");
    let width = text.len() - 1 - 6 - 2 - 2 - 14;
    let mut squares = 0.0;
    for (n, amplitude) in amplitudes.iter().enumerate() {
        squares += if n < 2 { 0.0 } else { amplitude * amplitude };
        if degrees.binary_search(&n).is_ok() {
            text.push_str(&format!("{n:>6}  {amplitude:>width$.6e}  {:>14.6e}\n", squares.sqrt()));
        }
    }
    text
}

#[cfg(test)]
mod tests {
    use super::degrees;

    #[test]
    fn large_tables_are_thinned() {
        assert_eq!(degrees(3, false), [0, 1, 2, 3]);
        assert_eq!(degrees(40, false).len(), 41);
        assert_eq!(degrees(96, true).len(), 97);
        let short = degrees(2190, false);
        assert!(short.len() < 50 && short[..11] == [0, 1, 2, 3, 4, 5, 6, 7, 8, 9, 10] && short.last() == Some(&2190));
    }
}
