//! The users' reason for 02, E1: an outline turned many times creeps towards the lower left where
//! each step rounds by floor. The product's, which rounds to the nearest, stays in the mean; single
//! points still wander, and by less than it crept.

use compare::{numbers, observed};
use reference::edges::{EY_GREATEST, ONE};
use reference::exponential::Input;
use reference::outline::{angles, furthest_drift, kernel, mean_drift, to_and_fro, turned_by};
use reference::point::{floor_quotient, nearest_quotient, point, word, Point};

const POINTS: usize = 360;

fn product(p: Point, angle: i64) -> Point {
    let input = Input { n: 40, ex: 0, ey: angle, sx: word(p.x), sy: word(p.y) };
    let [refusal, x, y, ..] = numbers(observed(|out| compare::exp(input, out)));
    assert_eq!(refusal, 0, "{input:?}");
    point(x.into(), y.into())
}

/// The mean drift of each part a turn to and fro, in units, and that of the single part which
/// drifts furthest.
fn drift(size: f64, angles: &[i64], turn: impl Fn(Point, i64) -> Point) -> ([f64; 2], f64) {
    let outlines = to_and_fro(kernel(POINTS, size), angles.iter().copied(), turn);
    let (first, last) = (&outlines[0], &outlines[angles.len()]);
    let turns = angles.len() as f64;
    (mean_drift(first, last).map(|part| part / turns), furthest_drift(first, last) / turns)
}

#[test]
fn a_turned_outline_stays() {
    for size in [20.0, 2000.0, 1e6] {
        let same = [ONE / 10, ONE / 3, ONE / 2, EY_GREATEST].map(|angle| vec![angle; 100]);
        for angles in same.into_iter().chain([angles().collect()]) {
            let floor = drift(size, &angles, |p, angle| turned_by(floor_quotient, p, angle));
            let nearest = drift(size, &angles, product);
            println!("{size} units, by {}, ..: {floor:.2?} by floor, {nearest:.2?} now", angles[0]);
            assert!(floor.0.iter().all(|&part| part < -10.0));
            assert!(nearest.0.iter().all(|&part| part.abs() < 1.0));
            assert!(nearest.1 < 10.0);
            let second = drift(size, &angles, |p, angle| turned_by(nearest_quotient, p, angle));
            assert_eq!(nearest, second);
        }
    }
}
