//! Files that hold no field that is read here: which kind they look like.

/// What an error says of the kinds that are read.
pub const EXPECTED: &str = "expected a model file, ICGEM text (.gfc) or a monthly GRACE text (GSM-2, release 06)";

/// Files that are known by their first bytes.
const SIGNATURES: [(&[u8], &str); 13] = [
    (b"\x1f\x8b", "compressed by gzip (.gz): unpack it first"),
    (b"\x1f\x9d", "compressed by compress (.Z): unpack it first"),
    (b"BZh", "compressed by bzip2: unpack it first"),
    (b"\xfd7zXZ", "compressed by xz: unpack it first"),
    (b"PK\x03\x04", "a zip archive: unpack it first"),
    (b"\x89HDF", "NetCDF-4 or HDF5"),
    (b"CDF\x01", "NetCDF-3, a grid and no coefficients"),
    (b"CDF\x02", "NetCDF-3, a grid and no coefficients"),
    (b"\x89PNG", "a PNG picture"),
    (b"%PDF", "a PDF document"),
    (b"%=SNX", "SINEX"),
    (b"\xff\xfe", "UTF-16 text: save it as UTF-8"),
    (b"\xfe\xff", "UTF-16 text: save it as UTF-8"),
];

/// The words that begin a line in monthly files before release 06.
const OLDER: [&str; 5] = ["FIRST", "CMMNT", "EARTH", "SHM", "GRCOF2"];

/// The kind that a file's first bytes tell.
pub fn by_signature(bytes: &[u8]) -> Option<&'static str> {
    SIGNATURES.into_iter().find(|(front, _)| bytes.starts_with(front)).map(|(_, kind)| kind)
}

/// The kind that a text without a head of the known ones looks like.
pub fn by_text(text: &str) -> Option<&'static str> {
    let line = text.lines().find(|line| !line.trim().is_empty())?.trim();
    let lower = text.get(..text.len().min(2000)).unwrap_or(line).to_ascii_lowercase();
    let first = line.split_whitespace().next()?;
    if line.starts_with('<') {
        return Some(if lower.contains("<html") { "a web page (HTML), perhaps a download's error" } else { "XML" });
    }
    if OLDER.contains(&first) {
        return Some("a monthly GRACE text before release 06 (lines FIRST, CMMNT, EARTH, SHM)");
    }
    if line.starts_with("header:") {
        return Some("a monthly GRACE text that is cut in its YAML head");
    }
    if first.eq_ignore_ascii_case("ncols") {
        return Some("an ESRI ASCII grid, values and no coefficients");
    }
    table(line)
}

/// Lines of numbers alone: a table of coefficients without a head.
fn table(line: &str) -> Option<&'static str> {
    let commas = line.contains(',');
    let words: Vec<&str> = line.split(|c: char| c == ',' || c.is_whitespace()).filter(|word| !word.is_empty()).collect();
    let numbers = words.iter().all(|word| crate::gfc::number(word).is_ok());
    match words.len() {
        8.. if numbers && commas => Some("a PDS table of coefficients (SHADR)"),
        4.. if numbers && !commas => Some("a table 'n m C S' without a head (as EGM2008's own), whose GM and radius stand elsewhere"),
        3 if commas && words.contains(&"lat") && words.contains(&"lon") => Some("a grid of values (.csv), no coefficients"),
        _ => None,
    }
}
