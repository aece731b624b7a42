//! What is taken off a field before a functional of it is worked out: one rule for every command.

use geopotential::Coefficients;

use crate::arguments::{Arguments, Opt};
use crate::body;
use crate::error::Error;
use crate::normal::{GRS80, NormalGravity};
use crate::output::note;
use crate::quantity::Quantity;

pub const NORMAL: Opt = Opt {
    name: "--normal",
    value: "grs80|wgs84|none",
    help: "the normal field to take off; default none for water heights, where C(0,0) is about 0\n(a difference of fields) and for another body, else that of --ellipsoid where it is given, else grs80",
};

pub const ZERO_DEGREE: Opt =
    Opt { name: "--zero-degree", value: "keep|drop", help: "what is left at degree 0, C(0,0) - GM0/GM less a normal field; default keep" };

/// What the options say.
#[derive(Clone, Copy)]
pub struct Wish {
    /// None where the rule decides.
    normal: Option<Option<NormalGravity>>,
    drop_zero: bool,
}

impl Wish {
    pub fn of(arguments: &Arguments) -> Result<Self, Error> {
        let normal = match arguments.text(NORMAL.name)? {
            None => None,
            Some("none") => Some(None),
            Some(text) => Some(Some(NormalGravity::of_option(NORMAL.name, text, "grs80, wgs84 or none")?)),
        };
        Ok(Wish { normal, drop_zero: drop_zero(arguments)? })
    }

    /// A field of which no normal field is taken off, with or without its degree 0.
    pub fn degree_zero_of(&self, field: Coefficients) -> Result<Coefficients, Error> {
        Reduction { normal: None, drop_zero: self.drop_zero }.of(&field)
    }
}

/// What is taken off.
#[derive(Clone, Copy, Debug, PartialEq)]
pub struct Reduction {
    pub normal: Option<NormalGravity>,
    pub drop_zero: bool,
}

impl Reduction {
    /// What is taken off a field: what is wished, or else what the rule says, which is told on standard error.
    pub fn decide(wish: Wish, quantity: Quantity, field: &Coefficients, ellipsoid: Option<NormalGravity>) -> Result<Self, Error> {
        let Some(normal) = wish.normal else {
            return Ok(Reduction { normal: by_rule(quantity, field, ellipsoid)?, drop_zero: wish.drop_zero });
        };
        if normal.is_some() && body::is_difference(field)? {
            note(&format!("C(0,0) is {}, as of a difference of fields, and a whole normal field is taken off it", field.try_c(0, 0)?));
        }
        Ok(Reduction { normal, drop_zero: wish.drop_zero })
    }

    /// The field less what is taken off.
    pub fn of(&self, field: &Coefficients) -> Result<Coefficients, Error> {
        let mut rest = match self.normal {
            Some(normal) => normal.taken_from(field)?,
            None => field.clone(),
        };
        if self.drop_zero {
            rest.try_set(0, 0, 0.0, 0.0)?;
        }
        Ok(rest)
    }

    /// What was taken off, as a map's subtitle and a file's header name it.
    pub fn line(&self) -> String {
        match (self.normal, self.drop_zero) {
            (Some(normal), false) => format!("less the normal field {}, degree 0 kept", normal.name),
            (Some(normal), true) => format!("less the normal field {} and degree 0", normal.name),
            (None, false) => "the field itself".into(),
            (None, true) => "the field itself without degree 0".into(),
        }
    }
}

/// The normal field where no option names one, with a note that says what was decided and why.
fn by_rule(quantity: Quantity, field: &Coefficients, ellipsoid: Option<NormalGravity>) -> Result<Option<NormalGravity>, Error> {
    let none = |why: &str| {
        note(&format!("no normal field is taken off: {why} (--normal says otherwise)"));
        Ok(None)
    };
    if quantity.is_water() {
        tell_whole(field)?;
        return none("that is the rule of water heights");
    }
    if body::is_difference(field)? {
        return none(&format!("C(0,0) is {}, as of a difference of fields", field.try_c(0, 0)?));
    }
    if !body::is_earth(field) {
        return none("GM and radius are not the Earth's");
    }
    let normal = ellipsoid.unwrap_or(GRS80);
    note(&format!("the normal field {} is taken off (--normal says otherwise)", normal.name));
    Ok(Some(normal))
}

/// The water height of a whole field is that of the whole Earth turned to water: a change is wanted.
fn tell_whole(field: &Coefficients) -> Result<(), Error> {
    if !body::is_difference(field)? {
        note(&format!(
            "C(0,0) is {}: the water height of a whole field is no change of water; expected a difference (geoid subtract, average --minus)",
            field.try_c(0, 0)?
        ));
    }
    Ok(())
}

fn drop_zero(arguments: &Arguments) -> Result<bool, Error> {
    match arguments.text(ZERO_DEGREE.name)? {
        None | Some("keep") => Ok(false),
        Some("drop") => Ok(true),
        Some(text) => Err(Error::usage(format!("--zero-degree is '{text}'; expected keep or drop"))),
    }
}
