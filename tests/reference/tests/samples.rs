//! That the random inputs reach the edges they are meant for.

use reference::edges::{H, Q, R};
use reference::exponential::{self, exp, in_rectangle, nearest_multiple, Reduction, CUT};
use reference::logarithm::{self, log, reduce};
use reference::point::{point, Point};
use reference::samples::{exp_input, log_input, Random};
use reference::width::WIDTH_48 as W;
use std::collections::HashSet;

const SAMPLES: usize = 200_000;

/// Each threshold of EXP is met exactly, and missed by one unit, at each step.
#[test]
fn exp_thresholds() {
    let mut met = HashSet::new();
    let mut random = Random::new(8);
    for _ in 0..SAMPLES {
        let input = exp_input(&mut random, W);
        if exp(exponential::Input { n: 1, ..input }, W).is_err() {
            continue;
        }
        let Reduction { mut exponent, start, .. } = input.reduction(W);
        for step in exponential::steps(exponent, start, CUT, W) {
            let sixteenth = W.one() >> (step.n + 4);
            for (part, (low, high)) in [exponent.x, exponent.y].into_iter().zip(CUT) {
                for threshold in [low, high] {
                    let distance = part - threshold * sixteenth;
                    if distance == 0 || distance == -1 {
                        met.insert((step.n, threshold, distance));
                    }
                }
            }
            exponent = step.exponent;
        }
    }
    assert_eq!(met.len(), 40 * 4 * 2);
}

/// The multiple whose threshold a part meets, and whether exactly or a unit below.
fn threshold(part: i128, unit: i128) -> Option<(i128, bool)> {
    let [below, here, above] = [-1, 0, 1].map(|more| nearest_multiple(part + more, unit));
    if below < here {
        Some((here, true))
    } else {
        (here < above).then_some((above, false))
    }
}

/// Each threshold of p is met exactly and missed by one unit, and each of k after odd and even p;
/// every p modulo 8 meets the largest starts. What is left of an exponent is at most half of Q and
/// H.
#[test]
fn exp_reductions() {
    let (mut eighths, mut doublings) = (HashSet::new(), HashSet::new());
    let (mut largest, mut left) = (HashSet::new(), point(0, 0));
    let mut random = Random::new(10);
    for _ in 0..SAMPLES {
        let input = exp_input(&mut random, W);
        let exponent = input.exponent();
        if exp(input, W).is_err() || in_rectangle(exponent, W) {
            continue;
        }
        let [q, h, r] = [Q, H, R].map(i128::from);
        let p = nearest_multiple(exponent.y, q);
        let odd = p.rem_euclid(2);
        eighths.extend(threshold(exponent.y, q));
        doublings.extend(threshold(exponent.x - odd * r, h).map(|met| (odd, met)));
        if input.start().larger_part() == W.max_part() {
            largest.insert(p.rem_euclid(8));
        }
        let Point { x, y } = input.reduction(W).exponent;
        left = point(left.x.max(x.abs()), left.y.max(y.abs()));
    }
    assert_eq!(eighths.len(), 20 * 2);
    assert_eq!(doublings.len(), (24 + 23) * 2);
    assert_eq!(largest.len(), 8);
    assert_eq!(left, point(97551793252583, 110534964875444));
}

/// Each threshold of LOG likewise, and every cell, quadrant and binary exponent.
#[test]
fn log_thresholds_and_reductions() {
    let (mut met, mut cells, mut scales) = (HashSet::new(), HashSet::new(), HashSet::new());
    let mut random = Random::new(9);
    for _ in 0..SAMPLES {
        let input = log_input(&mut random, W);
        if log(logarithm::Input { n: 3, ..input }, W).is_err() {
            continue;
        }
        let reduction = reduce(input.point(), W);
        cells.insert((reduction.cell.x, reduction.cell.y));
        scales.insert((reduction.binary_exponent, reduction.quadrant));
        let mut u = reduction.point - point(W.one(), 0);
        for step in logarithm::steps(reduction, W) {
            let half = W.one() >> (step.n + 1);
            for (place, part) in [u.x, u.y].into_iter().enumerate() {
                let inside = half - part.abs();
                if inside == 0 || inside == 1 {
                    met.insert((step.n, place, part.signum(), inside));
                }
            }
            u = step.point - point(W.one(), 0);
        }
    }
    assert_eq!(met.len(), 38 * 2 * 2 * 2);
    assert_eq!(scales.len(), 59 * 5);
    // A cell wholly outside the cone of the turn is never met.
    let in_cone = |x: i128, y: i128| y - 1 < x + 1 && -y - 1 < x + 1;
    let all = (17..=31).step_by(2).flat_map(|x| (-31..=31).step_by(2).map(move |y| (x, y)));
    assert_eq!(cells, all.filter(|&(x, y)| in_cone(x, y)).collect());
}
