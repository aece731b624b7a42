//! The tensor of gravity gradients at a point of a list: the second derivatives of the gravitational potential V along
//! north, east and up, in the same directions as the gravity beside it.

use geopotential::SecondPartials;

use crate::output::note;
use crate::point_list::Place;

/// How many Eötvös one s⁻² has.
const EOTVOS: f64 = 1e9;
/// A trace above this share of the largest entry is told: so many digits are lost at a pole, or next to one.
const LARGE_TRACE: f64 = 1e-6;

/// The names of its columns: six entries, the others being the same by symmetry, and the trace.
pub const COLUMNS: [&str; 7] = [
    "gradient Vnn (E)",
    "gradient Vne (E)",
    "gradient Vnu (E)",
    "gradient Vee (E)",
    "gradient Veu (E)",
    "gradient Vuu (E)",
    "trace Vnn+Vee+Vuu (E)",
];

/// The numbers of the columns, Eötvös.
pub fn numbers(place: &Place, at: &SecondPartials) -> [f64; 7] {
    let tensor = turned(place, at.tensor_neu(place.radius, place.latitude));
    let [[nn, ne, nu], [_, ee, eu], [_, _, uu]] = tensor.map(|row| row.map(|entry| entry * EOTVOS));
    [nn, ne, nu, ee, eu, uu, nn + ee + uu]
}

/// Say it where traces are more than rounding leaves of them elsewhere.
pub fn tell(tensors: &[[f64; 7]]) {
    let count = tensors.iter().filter(|tensor| is_doubtful(tensor)).count();
    if count > 0 {
        note(&format!(
            "{count} of {} points have a trace above a millionth of the largest entry: Vne and Vee have lost digits there, as at a pole",
            tensors.len()
        ));
    }
}

fn is_doubtful([entries @ .., trace]: &[f64; 7]) -> bool {
    let largest = entries.iter().fold(0.0, |largest: f64, entry| largest.max(entry.abs()));
    !trace.is_finite() || trace.abs() > LARGE_TRACE * largest
}

/// A symmetric tensor by the directions of a list: `R Γ Rᵀ`, where `R` turns a vector.
fn turned(place: &Place, tensor: [[f64; 3]; 3]) -> [[f64; 3]; 3] {
    let half = transposed(tensor.map(|row| place.turned(row)));
    half.map(|row| place.turned(row))
}

fn transposed(rows: [[f64; 3]; 3]) -> [[f64; 3]; 3] {
    [0, 1, 2].map(|column| rows.map(|row| row[column]))
}

#[cfg(test)]
mod tests {
    use super::*;

    const TENSOR: [[f64; 3]; 3] = [[-1.5, 0.25, -0.5], [0.25, -1.25, 0.125], [-0.5, 0.125, 2.75]];

    fn place(tilt: f64) -> Place {
        Place { radius: 6.4e6, latitude: 0.7, longitude: 1.0, tilt }
    }

    #[test]
    fn traces_that_are_more_than_rounding_are_doubtful() {
        assert!(!is_doubtful(&[-1500.0, 0.1, 0.1, -1500.0, 0.1, 3000.0, 1e-9]));
        assert!(is_doubtful(&[-1500.0, 0.1, 0.1, -1494.0, 0.1, 3000.0, 6.0]));
        assert!(is_doubtful(&[-1500.0, f64::INFINITY, 0.1, f64::NAN, f64::NAN, 3000.0, f64::NAN]));
        assert!(!is_doubtful(&[0.0; 7]), "a field of zeros");
    }

    #[test]
    fn without_a_tilt_every_bit_stays() {
        assert_eq!(turned(&place(0.0), TENSOR), TENSOR);
    }

    #[test]
    fn a_turn_keeps_the_trace_and_the_symmetry_and_can_be_undone() {
        let near = |x: f64, y: f64| (x - y).abs() < 1e-15;
        for tilt in [0.0033, -0.0033, 0.7, -2.0] {
            let turn = turned(&place(tilt), TENSOR);
            assert!(near(turn[0][0] + turn[1][1] + turn[2][2], 0.0), "{turn:?}");
            let back = turned(&place(-tilt), turn);
            for (i, j) in [(0, 0), (0, 1), (0, 2), (1, 1), (1, 2), (2, 2)] {
                assert!(near(turn[i][j], turn[j][i]) && near(back[i][j], TENSOR[i][j]), "{turn:?} {back:?}");
            }
        }
    }

    #[test]
    fn a_quarter_turn_takes_up_to_where_north_was() {
        // North' = -up, up' = north.
        let turn = turned(&place(core::f64::consts::FRAC_PI_2), TENSOR);
        let due = [[2.75, -0.125, 0.5], [-0.125, -1.25, 0.25], [0.5, 0.25, -1.5]];
        for (found, due) in turn.as_flattened().iter().zip(due.as_flattened()) {
            assert!((found - due).abs() < 1e-15, "{turn:?}");
        }
    }
}
