//! JSON (RFC 8259), strictly: what the grammar does not have is a mistake, and so is a name that an object has twice.

use std::collections::BTreeMap;

use super::scan::Scan;
use crate::text::Fault;

/// Values within values go no deeper than this; an outline needs about ten.
const DEEPEST: usize = 64;

/// A value of a text.
#[derive(Clone, Debug, PartialEq)]
pub enum Value {
    /// `null`, `true` or `false`.
    Word(&'static str),
    /// Where its digits say more than the largest double it is infinite.
    Number(f64),
    Text(String),
    List(Vec<Value>),
    Object(BTreeMap<String, Value>),
}

/// The one value of a text.
pub fn parse(text: &str) -> Result<Value, Fault> {
    let mut scan = Scan::new(text);
    let value = value(&mut scan, 0)?;
    scan.end("nothing behind the first value")?;
    Ok(value)
}

fn value(scan: &mut Scan, depth: usize) -> Result<Value, Fault> {
    if depth > DEEPEST {
        return Err(scan.fault(format!("values within values, deeper than {DEEPEST}")));
    }
    scan.skip_blank();
    match scan.peek() {
        Some('{') => object(scan, depth).map(Value::Object),
        Some('[') => list(scan, depth).map(Value::List),
        Some('"') => string(scan).map(Value::Text),
        Some('-' | '0'..='9') => number(scan).map(Value::Number),
        Some('a'..='z') => word(scan).map(Value::Word),
        _ => Err(scan.expected("a value of JSON")),
    }
}

fn object(scan: &mut Scan, depth: usize) -> Result<BTreeMap<String, Value>, Fault> {
    let mut members = BTreeMap::new();
    scan.skip();
    if scan.eat('}') {
        return Ok(members);
    }
    loop {
        scan.skip_blank();
        let name = if scan.peek() == Some('"') { string(scan)? } else { return Err(scan.expected("a name in quotation marks")) };
        if !scan.eat(':') {
            return Err(scan.expected("':' behind a name"));
        }
        let member = value(scan, depth + 1)?;
        if members.insert(name.clone(), member).is_some() {
            return Err(scan.fault(format!("an object has the name '{name}' twice")));
        }
        if scan.eat('}') {
            return Ok(members);
        }
        if !scan.eat(',') {
            return Err(scan.expected("',' or '}'"));
        }
    }
}

fn list(scan: &mut Scan, depth: usize) -> Result<Vec<Value>, Fault> {
    let mut items = Vec::new();
    scan.skip();
    if scan.eat(']') {
        return Ok(items);
    }
    loop {
        items.push(value(scan, depth + 1)?);
        if scan.eat(']') {
            return Ok(items);
        }
        if !scan.eat(',') {
            return Err(scan.expected("',' or ']'"));
        }
    }
}

/// A string, from its quotation mark to the other.
fn string(scan: &mut Scan) -> Result<String, Fault> {
    let mut text = String::new();
    scan.skip();
    loop {
        text.push_str(scan.take_while(|next| next != '"' && next != '\\' && next >= ' '));
        match scan.peek() {
            Some('"') => {
                scan.skip();
                return Ok(text);
            }
            Some('\\') => text.push(escaped(scan)?),
            _ => return Err(scan.expected("a string's end, a quotation mark")),
        }
    }
}

/// The character that a backslash and what is behind it stand for.
fn escaped(scan: &mut Scan) -> Result<char, Fault> {
    scan.skip();
    let plain = match scan.peek() {
        Some(same @ ('"' | '\\' | '/')) => same,
        Some('b') => '\u{8}',
        Some('f') => '\u{c}',
        Some('n') => '\n',
        Some('r') => '\r',
        Some('t') => '\t',
        Some('u') => return by_number(scan),
        _ => return Err(scan.expected("one of \"\\/bfnrtu behind a backslash")),
    };
    scan.skip();
    Ok(plain)
}

/// A character by its number; one above 16 bits is two of them (UTF-16).
fn by_number(scan: &mut Scan) -> Result<char, Fault> {
    let mut units = vec![unit(scan)?];
    if (0xd800..0xdc00).contains(&units[0]) && scan.peek() == Some('\\') {
        scan.skip();
        units.push(unit(scan)?);
    }
    match char::decode_utf16(units).collect::<Result<Vec<char>, _>>().as_deref() {
        Ok([one]) => Ok(*one),
        _ => Err(scan.fault("half a pair of \\u numbers in a string")),
    }
}

fn unit(scan: &mut Scan) -> Result<u16, Fault> {
    if scan.peek() != Some('u') {
        return Err(scan.expected("\\u and four hexadecimal digits"));
    }
    scan.skip();
    let mut number = 0;
    for _ in 0..4 {
        let digit = scan.peek().and_then(|next| next.to_digit(16));
        number = 16 * number + digit.ok_or_else(|| scan.expected("four hexadecimal digits behind \\u"))? as u16;
        scan.skip();
    }
    Ok(number)
}

fn number(scan: &mut Scan) -> Result<f64, Fault> {
    let start = *scan;
    let digits = scan.take_while(|next| matches!(next, '0'..='9' | '+' | '-' | '.' | 'e' | 'E'));
    let found = if is_number(digits) { digits.parse().ok() } else { None };
    found.ok_or_else(|| start.expected("a number of JSON, such as -12.5 or 1e3"))
}

/// Whether the grammar has such a number: Rust's own also takes `1.`, `.5` and `01`.
fn is_number(text: &str) -> bool {
    let is_digits = |text: &str| !text.is_empty() && text.bytes().all(|byte| byte.is_ascii_digit());
    let (mantissa, exponent) = text.split_once(['e', 'E']).unwrap_or((text, "0"));
    let (whole, part) = mantissa.split_once('.').unwrap_or((mantissa, "0"));
    let whole = whole.strip_prefix('-').unwrap_or(whole);
    let exponent = exponent.strip_prefix(['+', '-']).unwrap_or(exponent);
    is_digits(whole) && (whole == "0" || !whole.starts_with('0')) && is_digits(part) && is_digits(exponent)
}

fn word(scan: &mut Scan) -> Result<&'static str, Fault> {
    let start = *scan;
    let found = scan.take_while(|next| next.is_ascii_alphanumeric());
    ["null", "true", "false"].into_iter().find(|word| *word == found).ok_or_else(|| start.expected("null, true or false"))
}

#[cfg(test)]
mod tests {
    use super::*;
    use std::path::Path;

    fn refused(text: &str) -> String {
        parse(text).map(|value| format!("{value:?}")).unwrap_err().in_file(Path::new("x")).to_string()
    }

    #[test]
    fn values_of_every_kind() {
        let text = " {\"a\" : [ 1, -2.5e+1,0.5 , []], \"b\":{}, \"c\":[null,true,false]}\r\n";
        let Value::Object(members) = parse(text).unwrap() else { panic!() };
        let numbers = [1.0, -25.0, 0.5].map(Value::Number).to_vec();
        assert_eq!(members["a"], Value::List([numbers, vec![Value::List(vec![])]].concat()));
        assert_eq!(members["b"], Value::Object(BTreeMap::new()));
        assert_eq!(members["c"], Value::List(["null", "true", "false"].map(Value::Word).to_vec()));
        assert_eq!(parse("1e999").unwrap(), Value::Number(f64::INFINITY));
    }

    #[test]
    fn strings_have_their_escapes() {
        assert_eq!(parse(r#""Ob\u0027 \"\\\/\b\f\n\r\t é \ud83c\udf0d""#).unwrap(), Value::Text("Ob' \"\\/\u{8}\u{c}\n\r\t é 🌍".into()));
        assert_eq!(refused(r#""\ud83c""#), "x: line 1: half a pair of \\u numbers in a string");
        assert_eq!(refused(r#""\udf0d\ud83c""#), "x: line 1: half a pair of \\u numbers in a string");
        assert_eq!(refused(r#""\ud83c\n""#), "x: line 1: found 'n\"'; expected \\u and four hexadecimal digits");
        assert_eq!(refused(r#""\u12g4""#), "x: line 1: found 'g4\"'; expected four hexadecimal digits behind \\u");
        assert_eq!(refused(r#""\x""#), "x: line 1: found 'x\"'; expected one of \"\\/bfnrtu behind a backslash");
        assert_eq!(refused("\"a\nb\""), "x: line 1: found ''; expected a string's end, a quotation mark");
        assert_eq!(refused("\"ab"), "x: line 1: the text ends; expected a string's end, a quotation mark");
    }

    #[test]
    fn what_the_grammar_lacks_is_a_mistake() {
        for number in ["01", "1.", "-.5", "+1", "1e", "1e+", "--1", "-", "1.2.3", "0x10", "NaN", "Infinity", "-Infinity"] {
            assert!(parse(number).is_err(), "{number}");
        }
        assert_eq!(refused("[1,\n 01]"), "x: line 2: found '01]'; expected a number of JSON, such as -12.5 or 1e3");
        assert_eq!(refused(""), "x: line 1: the text ends; expected a value of JSON");
        assert_eq!(refused("[1,]"), "x: line 1: found ']'; expected a value of JSON");
        assert_eq!(refused("[1 2]"), "x: line 1: found '2]'; expected ',' or ']'");
        assert_eq!(refused("{\"a\" 1}"), "x: line 1: found '1}'; expected ':' behind a name");
        assert_eq!(refused("{a:1}"), "x: line 1: found 'a:1}'; expected a name in quotation marks");
        assert_eq!(refused("{\"a\":1,}"), "x: line 1: found '}'; expected a name in quotation marks");
        assert_eq!(refused("{\"a\":1 \"b\":2}"), "x: line 1: found '\"b\":2}'; expected ',' or '}'");
        assert_eq!(refused("{\"a\":1,\"\\u0061\":2}"), "x: line 1: an object has the name 'a' twice");
        assert_eq!(refused("nul"), "x: line 1: found 'nul'; expected null, true or false");
        assert_eq!(refused("{}\n{}"), "x: line 2: found '{}'; expected nothing behind the first value");
    }

    #[test]
    fn depth_has_an_end() {
        let nested = |depth: usize| "[".repeat(depth) + &"]".repeat(depth);
        assert!(parse(&nested(DEEPEST + 1)).is_ok());
        assert_eq!(refused(&nested(DEEPEST + 2)), "x: line 1: values within values, deeper than 64");
        assert_eq!(refused(&"[".repeat(1_000_000)), "x: line 1: values within values, deeper than 64");
        assert_eq!(refused(&"{\"a\":".repeat(1_000_000)), "x: line 1: values within values, deeper than 64");
    }
}
