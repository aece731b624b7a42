//! Load Love numbers from a text file.

use std::path::Path;

use crate::error::Error;
use crate::gfc::{number, whole};
use crate::output::{note, read_whole};
use crate::text::{Fault, decoded};

/// The largest degree that a file may name: a larger one is a mistake, and its gap would be long.
const LARGEST: usize = 100_000;

/// The numbers `k'_n` of a file, indexed by degree, with a note where some are interpolated.
pub fn load(path: &Path) -> Result<Vec<f64>, Error> {
    let bytes = read_whole(path)?;
    let love = parse(&decoded(&bytes)).map_err(|fault| fault.in_file(path))?;
    if let Some(first) = love.first_between {
        let count = love.between;
        note(&format!("{}: {count} degrees are not given (the first is {first}); linear between their neighbours", path.display()));
    }
    Ok(love.numbers)
}

/// The numbers by degree, and how many of them stand between those of the file.
#[derive(Debug, Default)]
struct Love {
    numbers: Vec<f64>,
    between: usize,
    first_between: Option<usize>,
}

/// Lines `n k`, degrees rising from 0; what stands behind a `#` is a comment. A degree that is left out
/// has the number on the straight line between its neighbours.
fn parse(text: &str) -> Result<Love, Fault> {
    let mut love = Love::default();
    for (line, content) in (1..).zip(text.lines()) {
        let words: Vec<&str> = content.split('#').next().unwrap_or("").split_whitespace().collect();
        match words[..] {
            [] => {}
            [degree, value] => love.add(degree, value).map_err(|what| Fault::at(line, what))?,
            _ => return Err(Fault::at(line, format!("{} words; expected two, a degree and its load Love number", words.len()))),
        }
    }
    Ok(love)
}

impl Love {
    fn add(&mut self, degree: &str, value: &str) -> Result<(), String> {
        let (degree, value) = (whole(degree)?, number(value)?);
        let due = self.numbers.len();
        match self.numbers.last() {
            None if degree != 0 => return Err(format!("degree '{degree}'; expected 0 first")),
            _ if degree < due => return Err(format!("degree '{degree}'; expected {due} or more, degrees that rise")),
            _ if degree > LARGEST => return Err(format!("degree '{degree}'; expected at most {LARGEST}")),
            Some(&last) if degree > due => {
                let steps = (degree - due + 1) as f64;
                self.numbers.extend((due..degree).map(|n| last + (value - last) * ((n - due + 1) as f64 / steps)));
                self.between += degree - due;
                self.first_between.get_or_insert(due);
            }
            _ => {}
        }
        self.numbers.push(value);
        Ok(())
    }
}

#[cfg(test)]
mod tests {
    use std::path::Path;

    use super::parse;

    #[test]
    fn numbers_come_by_degree() {
        let love = parse("# k'\n0 0.0\n\n1 2.7D-2 # Wahr et al.\n2 -0.303d0\n").unwrap();
        assert_eq!((love.numbers, love.between, love.first_between), (vec![0.0, 0.027, -0.303], 0, None));
    }

    #[test]
    fn gaps_are_straight_lines() {
        // The end of the table of Wahr, Molenaar & Bryan (1998).
        let love = parse("0 0\n1 0.027\n2 -0.303\n4 -0.132\n5 -0.104\n9 -0.072\n").unwrap();
        assert_eq!((love.numbers.len(), love.between, love.first_between), (10, 4, Some(3)));
        for (n, expected) in [(3, -0.2175), (4, -0.132), (6, -0.096), (7, -0.088), (8, -0.08), (9, -0.072)] {
            assert!((love.numbers[n] - expected).abs() < 1e-15, "{n}: {}", love.numbers[n]);
        }
    }

    #[test]
    fn each_mistake_has_its_line() {
        let cases = [
            ("1 0.1\n", "line 1: degree '1'; expected 0 first"),
            ("0 0.0\n3 0.1\n2 0.2\n", "line 3: degree '2'; expected 4 or more, degrees that rise"),
            ("0 0.0\n0 0.1\n", "line 2: degree '0'; expected 1 or more, degrees that rise"),
            ("0 0.0\n9999999 0.1\n", "line 2: degree '9999999'; expected at most 100000"),
            ("0 zero\n", "line 1: 'zero' is no number; expected one such as -4.84165D-04"),
            ("0.5 1\n", "line 1: '0.5' is no whole number; expected one from 0"),
            ("0 1 2\n", "line 1: 3 words; expected two, a degree and its load Love number"),
        ];
        for (text, expected) in cases {
            assert_eq!(parse(text).unwrap_err().in_file(Path::new("love")).to_string(), format!("love: {expected}"));
        }
    }
}
