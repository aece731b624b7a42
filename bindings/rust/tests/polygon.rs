//! Outlines that are drawn: their intervals at a colatitude, and their breaks.

use core::f64::consts::FRAC_PI_2;

use geopotential::Refusal;
use geopotential::slepian::{Nodes, basin_kernel, polygon, try_polygon};

/// A colatitude, by the published expression, so that one of a vertex is met exactly.
fn colatitude(lat: f64) -> f64 {
    FRAC_PI_2 - lat
}

/// Bit patterns, in which every NaN is one NaN.
fn bits(numbers: impl IntoIterator<Item = f64>) -> Vec<u64> {
    numbers.into_iter().map(|x| if x.is_nan() { f64::NAN.to_bits() } else { x.to_bits() }).collect()
}

fn ends(intervals: Vec<(f64, f64)>) -> Vec<u64> {
    bits(intervals.into_iter().flat_map(|(west, east)| [west, east]))
}

/// A comb of `teeth` with tips at latitude 1 and feet at latitude 0, closed by a vertex south-east of them: 2 `teeth` + 1 vertices.
fn comb(teeth: usize) -> Vec<(f64, f64)> {
    let mut outline: Vec<(f64, f64)> = (0..2 * teeth).map(|k| (k as f64, (k % 2) as f64)).collect();
    outline.push((2.0 * teeth as f64, -1.0));
    outline
}

#[test]
fn a_concave_outline_is_there_more_than_once() {
    let (intervals, breaks) = polygon(&comb(3));
    assert_eq!(breaks, [1.0, 0.0, -1.0].map(colatitude));
    let near = |at: Vec<(f64, f64)>, due: &[(f64, f64)]| {
        assert_eq!(at.len(), due.len());
        assert!(at.iter().zip(due).all(|(at, due)| (at.0 - due.0).abs() < 1e-14 && (at.1 - due.1).abs() < 1e-14), "{at:?}");
    };
    near(intervals(colatitude(0.5)), &[(0.5, 1.5), (2.5, 3.5), (4.5, 5.25)]);
    near(intervals(colatitude(-0.5)), &[(3.0, 5.75)]);
    assert!(intervals(colatitude(1.25)).is_empty() && intervals(colatitude(-1.25)).is_empty());
}

#[test]
fn the_way_round_does_not_matter() {
    let outline = [(0.25, 0.5), (2.0, -0.5), (1.5, 0.25), (3.0, 0.75), (1.0, 1.0)];
    let turned: Vec<(f64, f64)> = outline.iter().rev().copied().collect();
    let ((one, breaks), (other, same)) = (polygon(&outline), polygon(&turned));
    assert_eq!(breaks, same);
    for k in -8..=20 {
        let theta = colatitude(0.05 * k as f64 + 0.01);
        let (one, other) = (one(theta), other(theta));
        assert_eq!(one.len(), other.len());
        assert!(one.iter().zip(&other).all(|(a, b)| (a.0 - b.0).abs() < 1e-14 && (a.1 - b.1).abs() < 1e-14));
    }
}

#[test]
fn a_cut_is_worked_out_as_published() {
    // An upright east side, so that the west end alone is worked out, product before quotient.
    let (mut same, (l0, lat0), (l1, lat1)) = (0, (0.1, -0.7), (0.3, 0.6));
    let (intervals, _) = polygon(&[(l0, lat0), (2.0, lat0), (2.0, lat1), (l1, lat1)]);
    for k in 0..1000 {
        let (theta, [c0, c1]) = (1.0 + 0.001 * k as f64, [lat0, lat1].map(colatitude));
        // The edge goes from the last vertex to the first.
        let due = l1 + (l0 - l1) * (theta - c1) / (c0 - c1);
        assert_eq!(intervals(theta), [(due, 2.0)]);
        same += usize::from(due == l1 + (l0 - l1) * ((theta - c1) / (c0 - c1)));
    }
    assert!(same < 1000, "the quotient before the product has other bits");
}

#[test]
fn a_vertex_on_the_line_adds_nothing() {
    let (intervals, _) = polygon(&[(0.0, 0.0), (2.0, 0.5), (0.0, 1.0), (-2.0, 0.5)]);
    assert!(intervals(colatitude(0.5)).is_empty(), "each edge ends on the line");
    assert_eq!(intervals(colatitude(0.5).next_up()).len(), 1);
    assert_eq!(intervals(colatitude(0.5).next_down()).len(), 1);
    // An edge along the line, too.
    let (intervals, _) = polygon(&[(0.0, 0.0), (2.0, 0.0), (2.0, 1.0), (0.0, 1.0)]);
    assert!(intervals(colatitude(0.0)).is_empty() && intervals(colatitude(1.0)).is_empty());
}

#[test]
fn of_an_odd_number_of_cuts_the_most_eastern_is_dropped() {
    // At latitude 0.25 the edges to (3, 0.25) end on the line; three are cut, at −0.25, 0.5 and 1.5.
    let (intervals, _) = polygon(&[(0.0, 0.0), (1.0, 0.5), (2.0, 0.0), (3.0, 0.25), (2.5, 1.0), (-1.0, 1.0)]);
    let [(west, east)] = intervals(colatitude(0.25))[..] else { panic!("one interval is due") };
    assert!((west + 0.25).abs() < 1e-15 && (east - 0.5).abs() < 1e-15);
    // One cut alone.
    let (intervals, _) = polygon(&[(0.0, 0.0), (2.0, 0.25), (0.0, 0.5)]);
    assert!(intervals(colatitude(0.25)).is_empty());
    assert_eq!(intervals(colatitude(0.125)).len(), 1);
}

#[test]
fn every_nan_stands_last() {
    for nan in [f64::NAN, -f64::NAN, f64::from_bits(0xfff0_0000_0000_0001)] {
        let (intervals, breaks) = polygon(&[(nan, 0.0), (1.0, 0.0), (1.0, 1.0), (0.0, 1.0)]);
        assert_eq!(breaks, [1.0, 0.0].map(colatitude));
        assert_eq!(ends(intervals(colatitude(0.5))), bits([1.0, f64::NAN]));
        // A vertex without a latitude cuts nothing and is a break of its own, though its latitude is another's.
        let (intervals, breaks) = polygon(&[(0.0, nan), (1.0, 0.0), (1.0, 1.0), (0.0, nan), (0.5, 0.5), (0.5, 0.0)]);
        assert_eq!(bits(breaks), bits([colatitude(1.0), colatitude(0.5), colatitude(0.0), f64::NAN, f64::NAN]));
        assert_eq!(ends(intervals(colatitude(0.25))), bits([0.5, 1.0]));
        assert!(intervals(nan).is_empty());
    }
    // The published ranking has this one the other way round.
    let (intervals, _) = polygon(&[(f64::NEG_INFINITY, 1.0), (-0.2131151305925587, -0.5)]);
    assert_eq!(ends(intervals(0.6391941977148541)), bits([f64::NEG_INFINITY, f64::NAN]));
}

#[test]
fn the_product_of_the_differences_is_rounded() {
    // The pole has colatitude 0. At 1e-320 the product of the distances is −0, and the edges from the pole do not count.
    let base = FRAC_PI_2 - 1e-5;
    let (intervals, breaks) = polygon(&[(0.0, FRAC_PI_2), (1.0, base), (-1.0, base)]);
    assert_eq!(breaks[0].to_bits(), 0);
    assert!(intervals(1e-320).is_empty());
    assert_eq!(intervals(1e-300).len(), 1);
}

#[test]
fn small_outlines() {
    let (intervals, breaks) = polygon(&[]);
    assert!(intervals(0.5).is_empty() && intervals(f64::NAN).is_empty() && breaks.is_empty());
    let (intervals, breaks) = polygon(&[(1.0, 0.5)]);
    assert!(intervals(0.5).is_empty());
    assert_eq!(breaks, [colatitude(0.5)]);
    // There and back: an interval without width.
    let (intervals, breaks) = polygon(&[(1.0, 0.5), (1.0, 0.0)]);
    assert_eq!(breaks, [0.5, 0.0].map(colatitude));
    assert_eq!(intervals(colatitude(0.25)), [(1.0, 1.0)]);
    let (_, breaks) = polygon(&[(1.0, 0.5), (2.0, 0.5), (3.0, 0.5)]);
    assert_eq!(breaks, [colatitude(0.5)]);
}

#[test]
fn outlines_of_every_length() {
    for teeth in (1..=40).chain([2047]) {
        let (outline, line) = (comb(teeth), colatitude(0.5));
        let (intervals, breaks) = polygon(&outline);
        let at = intervals(line);
        assert_eq!((at.len(), breaks.len()), (teeth, 3), "{teeth}");
        assert!(at.iter().all(|(west, east)| west <= east) && at.is_sorted_by(|a, b| a.1 <= b.0));
        // One vertex fewer: the last edge goes from the last tip to the first foot.
        let (intervals, breaks) = polygon(&outline[..2 * teeth]);
        assert_eq!((intervals(line).len(), breaks.len()), (teeth, 2), "{teeth}");
    }
}

#[test]
fn up_to_4096_vertices() {
    // Each of the 4,096 edges is cut, the last from (4095, 1) to (0, 0) too.
    let zigzag: Vec<(f64, f64)> = (0..4097).map(|k| (k as f64, (k % 2) as f64)).collect();
    let (intervals, breaks) = polygon(&zigzag[..4096]);
    let at = intervals(colatitude(0.25));
    assert_eq!((at.len(), breaks), (2048, vec![colatitude(1.0), colatitude(0.0)]));
    let cuts: Vec<f64> = at.iter().flat_map(|&(west, east)| [west, east]).collect();
    assert!(cuts.is_sorted() && (cuts[0] - 0.25).abs() < 1e-12 && (cuts[4095] - 4094.25).abs() < 1e-12);
    assert_eq!(try_polygon(&zigzag).err(), Some(Refusal::Size));
    // As many breaks as vertices, rising whatever their order was.
    let scattered: Vec<(f64, f64)> = (0..4096).map(|k| (0.0, (k * 1597 % 4096) as f64 / 4096.0)).collect();
    let (_, breaks) = polygon(&scattered);
    assert!(breaks.len() == 4096 && breaks.is_sorted_by(|a, b| a < b));
    assert_eq!(breaks[4095], colatitude(0.0));
}

#[test]
fn intervals_outlive_their_vertices_and_their_thread() {
    let drawn = std::thread::spawn(|| polygon(&comb(5))).join().unwrap();
    let (intervals, breaks) = drawn;
    let here = intervals(colatitude(0.5));
    assert_eq!(here.len(), 5);
    let there = std::thread::scope(|scope| scope.spawn(|| intervals(colatitude(0.5))).join().unwrap());
    assert_eq!(here, there);
    let moved = std::thread::spawn(move || (intervals(colatitude(0.5)), breaks)).join().unwrap();
    assert_eq!(moved.0, here);
}

#[test]
fn intervals_may_be_asked_for_by_other_intervals() {
    // A ring of two outlines: what the larger covers without what the smaller does.
    let square = |half: f64| [(-half, -half), (half, -half), (half, half), (-half, half)];
    let ((outer, mut breaks), (inner, more)) = (polygon(&square(0.5)), polygon(&square(0.25)));
    breaks.extend(more);
    breaks.sort_by(f64::total_cmp);
    let ring = |theta: f64| match (outer(theta).first(), inner(theta).first()) {
        (Some(&(west, east)), Some(&(from, to))) => vec![(west, from), (to, east)],
        (outer, _) => outer.copied().into_iter().collect(),
    };
    let area = |kernel: geopotential::Coefficients| kernel.c(0, 0);
    let due = area(basin_kernel(2, &outer, &breaks, 20)) - area(basin_kernel(2, &inner, &breaks, 20));
    assert!((area(Nodes::new(2, &ring, &breaks, 20).basin_kernel()) - due).abs() < 1e-16);
    assert!((due - (0.5f64.sin() - 0.5 * 0.25f64.sin()) / (2.0 * core::f64::consts::PI)).abs() < 1e-15);
}
