//! Pieces of a grid, joined, are the whole grid's bytes.

mod support;

use std::fs;

use support::{Folder, geoid};

#[test]
fn joined_pieces_have_the_bytes_of_the_whole() {
    let folder = Folder::new();
    let [model, pieces] = ["m.model", "pieces"].map(|name| folder.file(name));
    fs::create_dir(folder.path().join("pieces")).unwrap();
    geoid(&["sample", &model, "--degree", "36"]).unwrap();
    for options in [&["--ellipsoid", "grs80"][..], &["--functional", "gravity-anomaly"]] {
        let grid = |out: &str, more: &[&str]| {
            let words = [&["grid", &model, "--out", out, "--region", "-30/30/-20/40", "--step", "2"], options, more].concat();
            geoid(&words).unwrap()
        };
        // 31 rows, in pieces of 7; the last one's end lies behind the grid's.
        for from in (1..=31).step_by(7) {
            let text = grid(&format!("{pieces}/{from}.rows"), &["--rows", &format!("{from}/{}", from + 6), "--threads", "1"]);
            assert!(text.ends_with(&format!("rows {from} to {} of 31\n", (from + 6).min(31))), "{text}");
        }
        for extension in ["csv", "asc", "png"] {
            let [whole, joined] = ["whole", "joined"].map(|name| folder.file(&format!("{name}.{extension}")));
            grid(&whole, &["--threads", "3"]);
            grid(&joined, &["--pieces", &pieces]);
            assert_eq!(fs::read(whole).unwrap(), fs::read(joined).unwrap(), "{extension}");
        }
        let [whole, joined] = ["whole.nc", "joined.nc"].map(|name| folder.file(name));
        grid(&whole, &["--threads", "3"]);
        grid(&joined, &["--pieces", &pieces]);
        // All but the history, which is the command, is the same.
        assert_eq!(without_history(fs::read(&whole).unwrap()), without_history(fs::read(&joined).unwrap()));
        let beside = |name: &str| without_history(fs::read(folder.file(name)).unwrap());
        assert_eq!(beside("whole.csv.aux.xml"), beside("joined.csv.aux.xml"));
        assert_eq!(beside("whole.prj"), beside("joined.prj"));
    }
}

/// A file's bytes in two parts, without the history between them: in NetCDF that ends where the list of variables begins, in XML
/// with its element. The places of NetCDF's numbers depend on the history's length, so its head is not in the second part.
fn without_history(bytes: Vec<u8>) -> (Vec<u8>, Vec<u8>) {
    let find = |word: &[u8]| bytes.windows(word.len()).position(|window| window == word);
    let from = find(b"history").unwrap_or(bytes.len());
    let to = match find(b"</MDI>\n  </Metadata>") {
        Some(place) => place,
        None if bytes.starts_with(b"CDF") => bytes.len() - 8 * 31 * 31,
        None => bytes.len(),
    };
    (bytes[..from].to_vec(), bytes[to..].to_vec())
}

#[test]
fn pieces_that_do_not_fit_are_refused() {
    let folder = Folder::new();
    let [model, other, dated, pieces, out] = ["m.model", "o.model", "d.model", "pieces", "out.csv"].map(|name| folder.file(name));
    fs::create_dir(&pieces).unwrap();
    geoid(&["sample", &model, "--degree", "4"]).unwrap();
    geoid(&["sample", &other, "--degree", "4", "--seed", "2"]).unwrap();
    geoid(&["convert", &model, &dated, "--date", "2024-03-15"]).unwrap();
    let piece =
        |name: &str, rows: &str| geoid(&["grid", &model, "--step", "30", "--out", &format!("{pieces}/{name}.rows"), "--rows", rows]);
    let join = |model: &str, options: &[&str]| {
        geoid(&[&["grid", model, "--step", "30", "--out", &out, "--pieces", &pieces], options].concat())
            .map_err(|error| error.replace(&pieces, ""))
    };
    assert_eq!(join(&model, &[]).unwrap_err(), ": 7 of the grid's 7 rows are in no piece, the first is row 1");
    piece("a", "1/3").unwrap();
    piece("c", "6/7").unwrap();
    assert_eq!(join(&model, &[]).unwrap_err(), ": 2 of the grid's 7 rows are in no piece, the first is row 4");
    piece("b", "3/5").unwrap();
    assert_eq!(join(&model, &[]).unwrap_err(), "/b.rows: has row 3, which /a.rows has too");
    piece("b", "4/5").unwrap();
    join(&model, &[]).unwrap();
    for (model, options) in
        [(&other, &[][..]), (&dated, &[]), (&model, &["--zero-degree", "drop", "--normal", "none"]), (&model, &["--radius", "6.5e6"])]
    {
        assert!(join(model, options).unwrap_err().contains("/a.rows: is a piece of another grid"));
    }
    let whole = fs::read(format!("{pieces}/b.rows")).unwrap();
    for (bytes, expected) in
        [(&whole[..39], "ends early"), (&whole[..whole.len() - 8], "has not the length"), (&[0; 40], "is no piece of a grid")]
    {
        fs::write(format!("{pieces}/b.rows"), bytes).unwrap();
        assert!(join(&model, &[]).unwrap_err().contains(expected));
    }
    assert!(piece("d", "8/9").unwrap_err().contains("expected FROM/TO with 1 <= FROM <= TO, rows of the grid's 7"));
    let together = "a piece of a grid takes --rows FROM/TO and --out PIECE.rows together, and no --pieces";
    assert_eq!(geoid(&["grid", &model, "--out", &out, "--rows", "1/2"]).unwrap_err(), together);
    assert_eq!(geoid(&["grid", &model, "--out", "x.rows"]).unwrap_err(), together);
}
