//! Writing of Rattle constants: arrays of u64, and of bytes.

/// A number as its bit pattern in hexadecimal, any NaN as 7ff8000000000000.
pub fn number(x: f64) -> String {
    hexadecimal(crate::tally::pattern(x))
}

/// A word in hexadecimal, in groups of four digits.
pub fn hexadecimal(bits: u64) -> String {
    format!("0x{:04x}_{:04x}_{:04x}_{:04x}", bits >> 48, bits >> 32 & 0xffff, bits >> 16 & 0xffff, bits & 0xffff)
}

/// A constant array of numbers written out, in the layout of `rt fmt`: on one line where it is short, else one to a line.
pub fn array(comment: &str, name: &str, numbers: &[String]) -> String {
    array_of("u64", comment, name, numbers)
}

/// The same of bytes, in decimal.
pub fn bytes(comment: &str, name: &str, bytes: &[u8]) -> String {
    array_of("u8", comment, name, &bytes.iter().map(u8::to_string).collect::<Vec<_>>())
}

fn array_of(element: &str, comment: &str, name: &str, numbers: &[String]) -> String {
    let line = numbers.join(", ");
    let constant = |list: &str| format!("pub const {name}: [{element}; {}] = [{list}];", numbers.len());
    let short = line.len() <= 58 && constant(&line).len() <= 100;
    format!("\n// {comment}\n{}\n", if short { constant(&line) } else { constant(&format!("\n    {},\n", numbers.join(",\n    "))) })
}
