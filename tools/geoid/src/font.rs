//! A small bitmap font, drawn as a picture in `font.txt`: the printable ASCII characters and some of
//! Latin-1, sixteen to a band, each 5 wide and 8 high (the last row for descenders). Latin-1's letters with
//! marks are a letter and a mark; their marks stand partly above the line.

use std::sync::LazyLock;

const PICTURE: &str = include_str!("font.txt");
/// Glyphs in a band of the picture.
const BAND: usize = 16;
const WIDTH: usize = 5;
pub const HEIGHT: usize = 8;
/// Columns between two glyphs, and those of a space.
const GAP: usize = 1;
const SPACE: usize = 3;
/// The characters of the picture behind the ASCII ones.
const OTHERS: [char; 17] = ['°', '²', 'ß', 'Æ', 'æ', 'Ø', 'ø', 'Ð', 'ð', 'Þ', 'þ', 'µ', '±', '×', '³', '«', '»'];
/// Rows of a mark; the last of them is empty but for the ring's.
const MARK_ROWS: usize = 3;
/// The row where small letters begin.
const SMALL_TOP: usize = 2;

/// A mark: the characters that have it, the letters below it, and its picture. In decomposed text it is a
/// character of its own behind the letter.
struct Mark {
    composed: &'static str,
    letters: &'static str,
    combining: char,
    picture: [&'static str; MARK_ROWS],
}

/// The one mark that stands below: its picture is the line's last row.
const CEDILLA: char = '\u{327}';
const RING: char = '\u{30a}';

const MARKS: [Mark; 7] = [
    Mark { composed: "ÀÈÌÒÙàèìòù", letters: "AEIOUaeiou", combining: '\u{300}', picture: [".#...", "..#..", "....."] },
    Mark { composed: "ÁÉÍÓÚÝáéíóúý", letters: "AEIOUYaeiouy", combining: '\u{301}', picture: ["...#.", "..#..", "....."] },
    Mark { composed: "ÂÊÎÔÛâêîôû", letters: "AEIOUaeiou", combining: '\u{302}', picture: ["..#..", ".#.#.", "....."] },
    Mark { composed: "ÃÑÕãñõ", letters: "ANOano", combining: '\u{303}', picture: [".#.#.", "#.#..", "....."] },
    Mark { composed: "ÄËÏÖÜäëïöüÿ", letters: "AEIOUaeiouy", combining: '\u{308}', picture: [".....", ".#.#.", "....."] },
    Mark { composed: "Åå", letters: "Aa", combining: RING, picture: ["..#..", ".#.#.", "..#.."] },
    Mark { composed: "Çç", letters: "Cc", combining: CEDILLA, picture: [".....", ".....", "..#.."] },
];

static CELLS: LazyLock<Vec<Bitmap>> = LazyLock::new(cells);

/// Dots, row after row; the first `above` rows stand above the line's top.
#[derive(Clone, Debug, PartialEq)]
pub struct Bitmap {
    pub width: usize,
    pub height: usize,
    pub above: usize,
    dots: Vec<bool>,
}

impl Bitmap {
    fn empty(width: usize, above: usize) -> Self {
        let height = HEIGHT + above;
        Bitmap { width, height, above, dots: vec![false; width * height] }
    }

    /// A dot; there are none outside.
    pub fn dot(&self, x: isize, y: isize) -> bool {
        let inside = (0..self.width as isize).contains(&x) && (0..self.height as isize).contains(&y);
        inside && self.dots[y as usize * self.width + x as usize]
    }

    /// Copy a bitmap in, its left edge at `x`, both lines' tops at one height.
    fn paste(&mut self, other: &Bitmap, x: usize) {
        for y in 0..other.height {
            let start = (y + self.above - other.above) * self.width + x;
            self.dots[start..start + other.width].copy_from_slice(&other.dots[y * other.width..(y + 1) * other.width]);
        }
    }

    /// The columns from the first to the last that holds dots; a glyph without any is a space.
    fn trimmed(&self) -> Bitmap {
        let inked = |&x: &usize| (0..self.height).any(|y| self.dots[y * self.width + x]);
        let (first, last) = ((0..self.width).find(inked), (0..self.width).rfind(inked));
        let (Some(first), Some(last)) = (first, last) else { return Bitmap::empty(SPACE, self.above) };
        let dots = self.dots.chunks(self.width).flat_map(|row| row[first..=last].to_vec()).collect();
        Bitmap { width: last - first + 1, dots, ..*self }
    }

    /// Twice the size, with its corners rounded: each quarter of a dot takes the value of its two
    /// outer neighbours where they agree and the opposite ones do not (the rule known as Scale2x).
    fn doubled(&self) -> Bitmap {
        let (width, height) = (2 * self.width, 2 * self.height);
        let mut out = Bitmap { width, height, above: 2 * self.above, dots: vec![false; width * height] };
        for y in 0..out.height as isize {
            for x in 0..out.width as isize {
                let (column, row) = (x / 2, y / 2);
                let (dx, dy) = (2 * (x % 2) - 1, 2 * (y % 2) - 1);
                let (beside, across) = (self.dot(column + dx, row), self.dot(column - dx, row));
                let (above, below) = (self.dot(column, row + dy), self.dot(column, row - dy));
                let rounded = beside == above && beside != below && above != across;
                out.dots[y as usize * out.width + x as usize] = if rounded { beside } else { self.dot(column, row) };
            }
        }
        out
    }
}

/// A line of text, doubled some times. A character that the font lacks is shown as `?`.
pub fn line(text: &str, doublings: usize) -> Bitmap {
    let glyphs: Vec<Bitmap> = composed(text).into_iter().map(glyph).collect();
    let width = glyphs.iter().map(|glyph| glyph.width + GAP).sum::<usize>().saturating_sub(GAP);
    let mut out = Bitmap::empty(width, glyphs.iter().map(|glyph| glyph.above).max().unwrap_or(0));
    let mut x = 0;
    for glyph in glyphs {
        out.paste(&glyph, x);
        x += glyph.width + GAP;
    }
    (0..doublings).fold(out, |bitmap, _| bitmap.doubled())
}

/// The characters of a text, a letter with a mark behind it as one.
fn composed(text: &str) -> Vec<char> {
    let mut characters: Vec<char> = Vec::new();
    for character in text.chars().map(plain) {
        let mark = MARKS.iter().find(|mark| mark.combining == character);
        let whole = mark.zip(characters.last()).and_then(|(mark, &letter)| {
            let place = mark.letters.chars().position(|known| known == letter)?;
            mark.composed.chars().nth(place)
        });
        if whole.is_some() {
            characters.pop();
        }
        characters.push(whole.unwrap_or(character));
    }
    characters
}

/// Printers' signs by those of a keyboard.
fn plain(character: char) -> char {
    match character {
        '\u{2018}' | '\u{2019}' => '\'',
        '\u{201c}' | '\u{201d}' => '"',
        '\u{2010}'..='\u{2014}' | '\u{2212}' => '-',
        '\u{a0}' | '\u{202f}' => ' ',
        other => other,
    }
}

fn characters() -> impl Iterator<Item = char> {
    (' '..='~').chain(OTHERS)
}

/// Digits keep all their columns, so that numbers line up.
fn glyph(character: char) -> Bitmap {
    let cell = marked(character).or_else(|| cell(character)).or_else(|| cell('?')).unwrap_or(Bitmap::empty(SPACE, 0));
    if character.is_ascii_digit() { cell } else { cell.trimmed() }
}

fn cell(character: char) -> Option<Bitmap> {
    characters().position(|known| known == character).map(|place| CELLS[place].clone())
}

/// A letter with its mark: over a small letter the mark takes the place of an `i`'s dot and one row above
/// the line, over a capital it stands above the line.
fn marked(character: char) -> Option<Bitmap> {
    let (mark, place) = MARKS.iter().find_map(|mark| Some((mark, mark.composed.chars().position(|known| known == character)?)))?;
    let letter = mark.letters.chars().nth(place)?;
    let mut base = cell(letter)?;
    // A ring has no empty row of its own below it.
    let gap = usize::from(mark.combining == RING);
    let above = match letter {
        _ if mark.combining == CEDILLA => 0,
        _ if letter.is_lowercase() => MARK_ROWS - SMALL_TOP + gap,
        _ => MARK_ROWS + gap,
    };
    if letter == 'i' {
        base.dots[..SMALL_TOP * WIDTH].fill(false);
    }
    let mut out = Bitmap::empty(WIDTH, above);
    out.paste(&base, 0);
    let top = if mark.combining == CEDILLA { HEIGHT - MARK_ROWS } else { 0 };
    for (dot, ink) in out.dots[top * WIDTH..].iter_mut().zip(mark.picture.concat().bytes()) {
        *dot |= ink == b'#';
    }
    Some(out)
}

/// Cut the cells out of the picture.
fn cells() -> Vec<Bitmap> {
    let lines: Vec<&[u8]> = PICTURE.lines().map(str::as_bytes).collect();
    (0..characters().count())
        .map(|place| {
            let (top, left) = (place / BAND * (HEIGHT + 1), place % BAND * (WIDTH + 1));
            let rows = lines[top..top + HEIGHT].iter();
            let dots = rows.flat_map(|row| row[left..left + WIDTH].iter().map(|&byte| byte == b'#')).collect();
            Bitmap { width: WIDTH, height: HEIGHT, above: 0, dots }
        })
        .collect()
}

#[cfg(test)]
mod tests {
    use super::*;

    #[test]
    fn the_picture_holds_every_glyph() {
        assert_eq!(CELLS.len(), 112);
        assert_eq!(PICTURE.lines().count(), 7 * (HEIGHT + 1) - 1);
        assert!(characters().skip(1).all(|c| glyph(c).dots.contains(&true)));
    }

    #[test]
    fn lines_are_as_wide_as_their_glyphs() {
        assert_eq!((line("00", 0).width, line("00", 0).height), (11, 8));
        assert_eq!((line("00", 2).width, line("00", 2).height), (44, 32));
        assert_eq!(line("", 1).width, 0);
        assert_eq!(line("\u{4e00}", 0), line("?", 0));
    }

    #[test]
    fn letters_with_marks_are_none_of_the_others() {
        let every: Vec<char> = MARKS.iter().flat_map(|mark| mark.composed.chars()).collect();
        assert_eq!(every.len(), 53);
        let mut seen: Vec<Bitmap> = characters().map(glyph).collect();
        for character in every {
            let bitmap = glyph(character);
            assert!(!seen.contains(&bitmap), "{character}");
            assert!(bitmap.above <= MARK_ROWS + 1 && bitmap.height == HEIGHT + bitmap.above);
            seen.push(bitmap);
        }
        // Every letter of Latin-1 has a picture of its own.
        assert!(('\u{c0}'..='\u{ff}').filter(|c| c.is_alphabetic()).all(|c| glyph(c) != glyph('?')));
    }

    #[test]
    fn the_letters_below_marks_stay_in_place() {
        let (plain, marked) = (line("Aei", 1), line("Äéî", 1));
        assert_eq!((plain.above, marked.above, marked.height), (0, 2 * MARK_ROWS, plain.height + 2 * MARK_ROWS));
        let below = |bitmap: &Bitmap| bitmap.dots[(bitmap.above + 3 * 2) * bitmap.width..].to_vec();
        assert_eq!(below(&plain), below(&marked));
        // Decomposed text, as some systems keep names of files.
        assert_eq!(line("A\u{308}e\u{301}i\u{302}", 1), marked);
        assert_eq!(line("\u{301}", 0), line("?", 0));
        assert_eq!(line("l\u{2019}\u{ce}le", 0), line("l'\u{ce}le", 0));
    }

    #[test]
    fn doubling_keeps_straight_strokes() {
        let bar = line("|", 1);
        assert_eq!(bar.width, 2);
        assert!((0..14).all(|y| bar.dot(0, y) && bar.dot(1, y)));
    }
}
