//! What the C entries for the second derivatives hand on, and what they tell of their lists.

use super::values::{MARK, field, numbers, told};
use crate::constants::array;
use crate::refusal::{MAX_DEGREE, SIZE, SPACE, pairs};
use crate::second_partials::ten;

/// The radii, latitudes and longitudes of two points.
const POINTS: [(f64, (f64, f64), [(f64, f64); 2]); 2] =
    [(8.0, (0.6, 0.8), [(1.0, 0.0), (0.28, 0.96)]), (9.5, (-0.28, 0.96), [(1.0, 0.0), (-0.8, 0.6)])];

/// The numbers that an entry writes, and the mark behind them.
fn written(name: &str, comment: &str, answer: Vec<f64>) -> String {
    array(comment, name, &numbers(&[answer, vec![MARK]].concat()))
}

fn values() -> String {
    let at = POINTS.map(|(r, lat, lon)| field().second_partials(r, lat, &lon));
    let tensor = at[0].tensor_neu(POINTS[0].0, POINTS[0].1).concat();
    written("SECOND_PARTIALS", "ten numbers of the field at a point, and the mark behind them", ten(&at[0]).to_vec())
        + &written("SECOND_PARTIALS_ALONG", "those of two points", at.iter().flat_map(ten).collect())
        + &written("TENSOR_NEU", "the tensor of the first point", tensor)
}

/// What is told where the list has room for so many lengths, or where a size is refused.
fn lengths(of: &str, name: &str, refused: bool, lengths: &[usize], places: usize) -> String {
    let refusal = if refused { SIZE } else { [0, SPACE][(places < lengths.len()) as usize] };
    array(&format!("what is told of {of}, with {places} places"), name, &told(refusal, lengths, places))
}

fn of_point(name: &str, nmax: usize, places: usize) -> String {
    let size = pairs(nmax) as usize;
    let all = [size, size, 2 * nmax + 2, 5 * size, 10];
    lengths(&format!("a point of degree {nmax}"), &format!("SECOND_LENGTHS{name}"), nmax > MAX_DEGREE, &all, places)
}

fn of_points(name: &str, nmax: usize, points: usize, places: usize) -> String {
    let size = pairs(nmax) as usize;
    let all = [size, size, points, 2 * points, points * (2 * nmax + 2), 5 * size, 10 * points];
    let refused = nmax > MAX_DEGREE || points > 65_535;
    lengths(&format!("{points} points of degree {nmax}"), &format!("ALONG_LENGTHS{name}"), refused, &all, places)
}

/// The degree or the number of points at its limit and beyond it, and lists with a place behind the lengths or one too few.
pub(super) fn text() -> String {
    let point = of_point("", 3, 6) + &of_point("_LARGE", 2700, 6) + &of_point("_BEYOND", 2701, 6) + &of_point("_SHORT", 3, 4);
    let large = of_points("_LARGE", 2700, 65_535, 8) + &of_points("_BEYOND", 2701, 2, 8) + &of_points("_MANY", 3, 65_536, 8);
    let points = of_points("", 3, 2, 8) + &large + &of_points("_SHORT", 3, 2, 6);
    let tensor = |name, places| lengths("a tensor", name, false, &[9], places);
    values() + &point + &points + &tensor("TENSOR_LENGTHS", 2) + &tensor("TENSOR_LENGTHS_SHORT", 0)
}
