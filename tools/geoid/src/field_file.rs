//! Fields in files: the library's model file, ICGEM text, or a monthly text of GRACE.

use std::path::Path;

use geopotential::{Coefficients, model_file};

use crate::arguments::Arguments;
use crate::date::Date;
use crate::dating::shown;
use crate::error::Error;
use crate::output::{note, read_whole, write_whole};
use crate::span::Span;
use crate::text::decoded;
use crate::{foreign, gfc, gsm};

/// The bytes that begin a model file, without a date and with one, and no text file.
const MODEL_FILE: [u8; 2] = [1, 4];

/// What the command line says of how fields are read.
#[derive(Clone, Copy, Debug, Default)]
pub struct Choices {
    /// Pairs that a text leaves out are 0, not a mistake.
    pub absent_as_zero: bool,
    /// When coefficients that change with time are taken.
    pub epoch: Option<Date>,
}

impl Choices {
    /// The choices of a command's options `--absent-as-zero` and `--epoch`.
    pub fn of(arguments: &Arguments) -> Result<Choices, Error> {
        let epoch = arguments.text("--epoch")?.map(Date::parse).transpose();
        let epoch = epoch.map_err(|what| Error::usage(format!("--epoch: {what}")))?;
        Ok(Choices { absent_as_zero: arguments.has("--absent-as-zero"), epoch })
    }

    /// What is said where an epoch is given for a field that does not change with time.
    pub fn unused_epoch(&self) -> Option<String> {
        self.epoch.map(|_| "nothing in it changes with time; --epoch has no effect".to_string())
    }
}

/// A field with what its file says of it.
#[derive(Debug)]
pub struct FieldFile {
    pub field: Coefficients,
    /// The model's own name, where its head has one.
    pub name: Option<String>,
    /// The time that the field is of, where a text tells it.
    pub time: Option<String>,
    /// What the field's date is by, where the file does not state it itself.
    pub dating: Option<&'static str>,
    /// The days of a monthly solution.
    pub span: Option<Span>,
    /// What was taken for granted where the file is silent.
    pub notes: Vec<String>,
}

/// Read a field: a model file by its first byte, a text by the line that ends its head.
pub fn read(path: &Path, choices: &Choices) -> Result<FieldFile, Error> {
    let bytes = read_whole(path)?;
    match bytes.first() {
        None => Err(Error::in_file(path, format!("the file is empty; {}", foreign::EXPECTED))),
        Some(first) if MODEL_FILE.contains(first) => {
            let field = model_file::read(&bytes).map_err(|refusal| Error::in_file(path, refusal))?;
            Ok(FieldFile { field, name: None, time: None, dating: None, span: None, notes: choices.unused_epoch().into_iter().collect() })
        }
        Some(_) => read_text(path, &bytes, choices),
    }
}

fn read_text(path: &Path, bytes: &[u8], choices: &Choices) -> Result<FieldFile, Error> {
    let looks = |kind: &str| Error::in_file(path, format!("looks like {kind}; {}", foreign::EXPECTED));
    if let Some(kind) = foreign::by_signature(bytes) {
        return Err(looks(kind));
    }
    let text = decoded(bytes);
    let reading = if gfc::is_gfc(&text) {
        gfc::read(&text, choices)
    } else if gsm::is_gsm(&text) {
        gsm::read(&text, choices)
    } else if let Some(kind) = foreign::by_text(&text) {
        return Err(looks(kind));
    } else {
        gfc::read(&text, choices)
    };
    reading.map_err(|fault| fault.in_file(path))
}

impl FieldFile {
    /// The time that the field is of: what a text tells, or else its date.
    pub fn when(&self) -> Option<String> {
        self.time.clone().or(self.field.date.map(shown))
    }

    /// Say on standard error what was taken for granted, the time that the field is of, and a date that its file does not state.
    pub fn tell(&self, path: &Path) {
        self.tell_notes(path);
        let time = self.when().map(|time| format!("the field of {time}"));
        let date = self.dating.zip(self.field.date).map(|(by, date)| format!("its date is {}, {by}", shown(date)));
        time.iter().chain(&date).for_each(|text| note_of(path, text));
    }

    /// Say on standard error what was taken for granted.
    pub fn tell_notes(&self, path: &Path) {
        self.notes.iter().for_each(|text| note_of(path, text));
    }

    /// Say what [`tell`](Self::tell) says of the file, and give the field the date that an option names, if one does.
    pub fn tell_and_date(&mut self, path: &Path, wished: Option<Option<i32>>) {
        self.dating = self.dating.filter(|_| wished.is_none());
        self.tell(path);
        self.field.date = wished.unwrap_or(self.field.date);
    }
}

fn note_of(path: &Path, text: &str) {
    note(&format!("{}: {text}", path.display()));
}

/// Write a field: ICGEM text where the name ends with `.gfc`, else a model file.
pub fn save(path: &Path, field: &Coefficients) -> Result<(), Error> {
    if !has_extension(path, "gfc") {
        let bytes = model_file::write(field).map_err(|refusal| Error::in_file(path, refusal))?;
        return write_whole(path, &bytes);
    }
    let name = path.file_stem().unwrap_or_default().to_string_lossy();
    let text = gfc::write(&name, field).map_err(|error| Error::in_file(path, error))?;
    write_whole(path, text.as_bytes())?;
    if let Some(date) = field.date {
        note_of(path, &format!("ICGEM text has no key for a date: {} stands in a comment, which is not read back", shown(date)));
    }
    Ok(())
}

/// Whether a name ends with an extension, in small or capital letters.
pub fn has_extension(path: &Path, extension: &str) -> bool {
    path.extension().is_some_and(|found| found.eq_ignore_ascii_case(extension))
}

/// What a command that writes a field answers of it: its degree, its pairs, and its date where it has one.
pub fn summary(field: &Coefficients) -> String {
    let date = field.date.map_or(String::new(), |date| format!(", date {}", shown(date)));
    format!("degree {}, {} pairs{date}", field.max_degree(), pairs(field))
}

/// The pairs of coefficients of a field.
pub fn pairs(field: &Coefficients) -> usize {
    (field.max_degree() + 1) * (field.max_degree() + 2) / 2
}
