//! Applies a list of edits (its form is said at the top of `edits.txt`) to the files of a folder, in place.
//! Usage: apply EDITS FOLDER. Writes nothing and fails where a text is not found exactly as often as listed.

use std::collections::BTreeMap;
use std::path::Path;
use std::process::ExitCode;

/// One edit of the list, and the line of the list that it begins at.
#[derive(Default)]
struct Edit {
    line: usize,
    file: String,
    places: usize,
    why: String,
    old: Vec<String>,
    new: Vec<String>,
}

/// The text of a line that begins with `mark` and a space, or that is the mark alone.
fn text_after(mark: char, line: &str) -> Option<&str> {
    let rest = line.strip_prefix(mark)?;
    if rest.is_empty() { Some(rest) } else { rest.strip_prefix(' ') }
}

/// The edits of a list, in order.
fn parse(text: &str) -> Result<Vec<Edit>, String> {
    let mut edits: Vec<Edit> = Vec::new();
    for (i, line) in text.lines().enumerate() {
        let at = |what: &str| format!("line {}: {what}: {line}", i + 1);
        if line.is_empty() || line.starts_with('#') {
            continue;
        }
        if let Some(file) = line.strip_prefix("file: ") {
            edits.push(Edit { line: i + 1, file: file.to_string(), ..Edit::default() });
            continue;
        }
        let edit = edits.last_mut().ok_or_else(|| at("text before the first edit"))?;
        if let Some(places) = line.strip_prefix("places: ") {
            edit.places = places.parse().map_err(|_| at("not a number"))?;
        } else if let Some(why) = line.strip_prefix("why: ") {
            edit.why = why.to_string();
        } else if let Some(old) = text_after('-', line) {
            edit.old.push(old.to_string());
        } else if let Some(new) = text_after('+', line) {
            edit.new.push(new.to_string());
        } else {
            return Err(at("not a line of an edit"));
        }
    }
    match edits.iter().find(|e| e.places == 0 || e.why.is_empty() || e.old.is_empty()) {
        Some(e) => Err(format!("line {}: an edit needs places, why and an old text", e.line)),
        None => Ok(edits),
    }
}

fn apply(list: &Path, folder: &Path) -> Result<usize, String> {
    let read = |path: &Path| std::fs::read_to_string(path).map_err(|e| format!("{}: {e}", path.display()));
    let edits = parse(&read(list)?)?;
    let mut files: BTreeMap<&str, String> = BTreeMap::new();
    for edit in &edits {
        if !files.contains_key(edit.file.as_str()) {
            files.insert(&edit.file, read(&folder.join(&edit.file))?);
        }
        let text = files.get_mut(edit.file.as_str()).unwrap();
        let (old, new) = (edit.old.join("\n"), edit.new.join("\n"));
        let found = text.matches(&old).count();
        if found != edit.places {
            return Err(format!("line {}: {} has {found} places, not {}, of:\n{old}", edit.line, edit.file, edit.places));
        }
        *text = text.replace(&old, &new);
    }
    for (file, text) in &files {
        std::fs::write(folder.join(file), text).map_err(|e| format!("{file}: {e}"))?;
    }
    Ok(edits.len())
}

fn main() -> ExitCode {
    let arguments: Vec<String> = std::env::args().skip(1).collect();
    let [list, folder] = arguments.as_slice() else {
        eprintln!("usage: apply EDITS FOLDER");
        return ExitCode::from(2);
    };
    match apply(Path::new(list), Path::new(folder)) {
        Ok(count) => {
            println!("{count} edits applied");
            ExitCode::SUCCESS
        }
        Err(message) => {
            eprintln!("{list}: {message}");
            ExitCode::FAILURE
        }
    }
}
