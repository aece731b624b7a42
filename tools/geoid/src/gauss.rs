//! Jekeli's Gaussian weights by degree (Jekeli 1981; Wahr et al. 1998, Eqs. 32–34, times 2π so that degree 0 has 1).
//!
//! The weights obey `W(n−1) = W(n+1) + (2n+1)/b · W(n)` with `b = ln 2/(1 − cos(r/a))`. Run upwards from the first
//! two, as Wahr's Eq. 34 is written, this loses its digits: for 300 km the weight of degree 120 is right to a
//! millionth, that of degree 152 has no right digit. Run downwards, as ratios `W(n)/W(n−1)`, it is stable: that is what
//! is used here, at every degree.

use std::f64::consts::LN_2;

/// The radius of the Earth that turns a filter's kilometres into an angle, m, as the GRACE toolboxes have it.
pub const MEAN_RADIUS: f64 = 6_371_000.0;

/// The weights of degrees 0 to `max_degree` for a radius on the ground at which the filter has fallen to a half.
pub fn weights(radius: f64, max_degree: usize) -> Vec<f64> {
    let half = (radius / MEAN_RADIUS / 2.0).sin();
    let b = LN_2 / (2.0 * half * half); // 1 − cos x = 2 sin²(x/2)
    let mut ratios = vec![1.0; max_degree + 1];
    let mut ratio = 0.0;
    for n in (1..=start(b, max_degree)).rev() {
        ratio = 1.0 / ((2 * n + 1) as f64 / b + ratio);
        if let Some(place) = ratios.get_mut(n) {
            *place = ratio;
        }
    }
    let product = |weight: &mut f64, ratio: f64| {
        *weight *= ratio;
        Some(*weight)
    };
    ratios.into_iter().scan(1.0, product).collect()
}

/// Where the downward run begins. What it begins with is forgotten by `(W(start)/W(max_degree))²`, about
/// `exp((max_degree² − start²)/b)`.
fn start(b: f64, max_degree: usize) -> usize {
    ((max_degree * max_degree) as f64 + 50.0 * b).sqrt().ceil() as usize + 10
}

#[cfg(test)]
mod tests {
    use super::*;

    #[test]
    fn weights_are_those_of_sixty_digits() {
        // By arithmetic of 60 digits, from ratios of the modified Bessel functions I of n + 1/2.
        let known = [
            (100e3, [(1, 0.999_822_286_501_424_4), (60, 0.722_352_905_355_894_9), (200, 0.028_100_137_813_222_69)]),
            (300e3, [(1, 0.998_400_841_194_452_7), (96, 5.891_056_786_039_036e-4), (200, 1.399_122_620_801_422e-14)]),
            (500e3, [(2, 0.986_737_211_868_488_8), (60, 3.047_459_180_362_388e-4), (200, 1.891_099_271_613_279e-37)]),
            (1000e3, [(10, 0.374_820_080_685_088_5), (96, 1.391_224_300_882_077e-31), (200, 1.538_810_128_867_595e-107)]),
        ];
        for (radius, entries) in known {
            let weights = weights(radius, 200);
            assert_eq!((weights.len(), weights[0]), (201, 1.0));
            for (n, expected) in entries {
                assert!((weights[n] / expected - 1.0).abs() < 1e-12, "{radius} m, degree {n}: {}", weights[n]);
            }
        }
    }

    /// Wahr's Eq. 34 as it is written.
    fn upward(radius: f64, max_degree: usize) -> Vec<f64> {
        let b = LN_2 / (1.0 - (radius / MEAN_RADIUS).cos());
        let mut weights = vec![1.0, (1.0 + (-2.0 * b).exp()) / (1.0 - (-2.0 * b).exp()) - 1.0 / b];
        for n in 1..max_degree {
            weights.push(weights[n - 1] - (2 * n + 1) as f64 / b * weights[n]);
        }
        weights
    }

    #[test]
    fn the_upward_recursion_loses_its_digits() {
        for (radius, millionth, none) in [(300e3, 120, 152), (500e3, 73, 92)] {
            let (stable, lost) = (weights(radius, 200), upward(radius, 200));
            let first = |bound: f64| (0..=200).find(|&n| (lost[n] / stable[n] - 1.0).abs() > bound).unwrap();
            assert!(first(1e-6).abs_diff(millionth) <= 3 && first(1.0).abs_diff(none) <= 3, "{} {}", first(1e-6), first(1.0));
        }
    }

    #[test]
    fn weights_fall_to_the_largest_degree() {
        for radius in [1e3, 50e3, 300e3, 5000e3] {
            let weights = weights(radius, 2700);
            assert!(
                weights.windows(2).all(|pair| pair[1] < pair[0] || pair[1] == 0.0)
                    && weights.iter().all(|weight| (0.0..=1.0).contains(weight))
            );
        }
    }

    #[test]
    fn a_lower_degree_is_the_front_of_a_higher_one() {
        let (low, high) = (weights(300e3, 60), weights(300e3, 2700));
        assert!(low.iter().zip(&high).all(|(a, b)| (a / b - 1.0).abs() < 1e-14));
    }
}
