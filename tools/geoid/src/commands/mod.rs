//! The commands, their help, and the way from the command line to an exit status.

mod average;
mod caps;
mod convert;
mod grid;
mod info;
mod kernel;
mod points;
mod region;
mod replace;
mod sample;
mod smooth;
mod subtract;

use std::ffi::OsString;
use std::io::{self, ErrorKind, Write};
use std::path::Path;
use std::process::ExitCode;

use geopotential::Coefficients;

use crate::arguments::{Arguments, Opt};
use crate::body;
use crate::error::Error;
use crate::field_file::{Choices, FieldFile, read};
use crate::part_file::catch_signals;

/// A command: how it is called, what its help says, and what runs it. It answers the text for standard
/// output.
pub struct Command {
    pub name: &'static str,
    pub summary: &'static str,
    pub usage: &'static str,
    pub operands: &'static [&'static str],
    pub options: &'static [Opt],
    pub details: &'static str,
    pub run: fn(&Arguments) -> Result<String, Error>,
}

const COMMANDS: &[&Command] = &[
    &convert::COMMAND,
    &info::COMMAND,
    &grid::COMMAND,
    &points::COMMAND,
    &average::COMMAND,
    &kernel::COMMAND,
    &subtract::COMMAND,
    &replace::COMMAND,
    &smooth::COMMAND,
    &caps::COMMAND,
    &region::COMMAND,
    &sample::COMMAND,
];

/// Run the words of a command line: the answer goes to standard output, an error's one line to
/// standard error.
pub fn main(words: Vec<OsString>) -> ExitCode {
    catch_signals();
    let printed = run(words).and_then(|text| print(&text));
    match printed {
        Ok(()) => ExitCode::SUCCESS,
        Err(error) => {
            let _ = writeln!(io::stderr(), "geoid: {error}");
            ExitCode::from(error.status())
        }
    }
}

/// Print a text; a reader that stops early (`geoid info FILE | head`) is no error.
fn print(text: &str) -> Result<(), Error> {
    let mut out = io::stdout();
    match out.write_all(text.as_bytes()).and_then(|()| out.flush()) {
        Err(error) if error.kind() != ErrorKind::BrokenPipe => Err(Error::failure(format!("standard output cannot be written: {error}"))),
        _ => Ok(()),
    }
}

/// What a command line answers.
pub fn run(mut words: Vec<OsString>) -> Result<String, Error> {
    if words.is_empty() {
        return Err(Error::usage("no command; see geoid --help"));
    }
    let first = words.remove(0);
    match first.to_str() {
        Some("--help" | "-h" | "help") => Ok(overview()),
        Some("--version" | "-V") => Ok(format!("geoid {}\n", env!("CARGO_PKG_VERSION"))),
        name => match COMMANDS.iter().find(|command| Some(command.name) == name) {
            Some(command) => command.answer(words),
            None => Err(unknown(&first.to_string_lossy())),
        },
    }
}

fn unknown(word: &str) -> Error {
    let kind = if word.starts_with('-') { "option" } else { "command" };
    let names: Vec<&str> = COMMANDS.iter().map(|command| command.name).collect();
    Error::usage(format!("unknown {kind} '{word}'; expected one of {}, --help, --version", names.join(", ")))
}

fn overview() -> String {
    let mut text = String::from(
        "geoid: gravity-field models, over a verified library\n\n\
         usage: geoid COMMAND ..., geoid COMMAND --help, geoid --version\n\n",
    );
    for command in COMMANDS {
        text.push_str(&format!("  {:<10}{}\n", command.name, command.summary));
    }
    text + "\nA field is a model file, ICGEM text (.gfc) or a monthly text of GRACE (GSM-2, release 06), known by its content.\n"
}

impl Command {
    fn answer(&self, words: Vec<OsString>) -> Result<String, Error> {
        if words.iter().take_while(|word| *word != "--").any(|word| word == "--help" || word == "-h") {
            return Ok(self.help());
        }
        let see = |error: Error| Error::usage(format!("{error}; see geoid {} --help", self.name));
        let arguments = Arguments::parse(words, self.options).map_err(see)?;
        arguments.expect_operands(self.operands).map_err(see)?;
        (self.run)(&arguments)
    }

    fn help(&self) -> String {
        let mut text = format!("usage: geoid {} {}\n\n{}\n", self.name, self.usage, self.summary);
        if !self.options.is_empty() {
            text.push_str("\noptions:\n");
        }
        for opt in self.options {
            text.push_str(&format!("  {:<27}{}\n", format!("{} {}", opt.name, opt.value), opt.help.replace('\n', &format!("\n{:29}", ""))));
        }
        text + "\n" + self.details
    }
}

/// A field with what its file says of it, its head checked.
fn field_file(arguments: &Arguments, path: &Path) -> Result<FieldFile, Error> {
    let file = read(path, &Choices::of(arguments)?)?;
    file.tell(path);
    body::check_field(path, &file.field, arguments.has(body::ANY_BODY.name))?;
    Ok(file)
}

/// A field from a file, its head checked.
fn field(arguments: &Arguments, path: &Path) -> Result<Coefficients, Error> {
    field_file(arguments, path).map(|file| file.field)
}

/// A field or a kernel from a file, its head checked, with the date that an option names if one does.
fn field_or_kernel(arguments: &Arguments, path: &Path, date: Option<Option<i32>>) -> Result<Coefficients, Error> {
    let mut file = read(path, &Choices::of(arguments)?)?;
    file.tell_and_date(path, date);
    body::check_either(path, &file.field, arguments.has(body::ANY_BODY.name))?;
    Ok(file.field)
}

/// A kernel from a file, checked. A basin does not change with time: an epoch is the field's alone, and so is the time that is told.
fn kernel(arguments: &Arguments, path: &Path) -> Result<Coefficients, Error> {
    let file = read(path, &Choices { epoch: None, ..Choices::of(arguments)? })?;
    file.tell_notes(path);
    body::check_kernel(path, &file.field)?;
    Ok(file.field)
}

/// The option that names a functional, with its values.
const FUNCTIONAL: Opt = Opt {
    name: "--functional",
    value: "NAME",
    help: "potential, geoid-height (default), gravity-disturbance,\ngravity-anomaly, radial-gradient or water-height",
};

/// The option that water heights need.
const LOVE: Opt = Opt {
    name: "--love",
    value: "FILE",
    help: "load Love numbers for water-height: lines 'n k', n rising from 0;\nbetween the n of the file they are linear",
};

/// The options of every command that reads a field.
const ABSENT_AS_ZERO: Opt = Opt { name: "--absent-as-zero", value: "", help: "pairs that a text leaves out are 0, not a mistake" };
const EPOCH: Opt =
    Opt { name: "--epoch", value: "DATE", help: "when ICGEM coefficients that change with time are taken:\nYYYY-MM-DD or a decimal year" };
