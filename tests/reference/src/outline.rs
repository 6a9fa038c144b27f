//! A kernel's outline, and how far it drifts when it is turned to and fro: the reason for the
//! rounding of 02, E1.

use crate::exponential::{rectangle, steps, CUT};
use crate::point::{point, Point, Quotient};
use crate::width::WIDTH_48;
use std::f64::consts::TAU;

/// A made-up kernel: a superellipse, slimmer towards its tip, with the crease as a dent below.
/// Parts are at most `one`; the last point is the first again.
pub fn kernel(points: usize, one: f64) -> Vec<Point> {
    let units = |part: f64| (part * one).round() as i128;
    (0..=points)
        .map(|i| {
            let (sin, cos) = (i as f64 / points as f64 * TAU).sin_cos();
            let size = |part: f64, half_axis: f64| (part / half_axis).abs().powf(2.3);
            let radius = (size(cos, 0.95) + size(sin, 0.42)).powf(-1.0 / 2.3);
            let (x, y) = (radius * cos, radius * sin);
            let crease = if y < 0.0 { 0.13 * (-(x / 0.13).powi(2)).exp() } else { 0.0 };
            point(units(x), units(y * (1.0 - 0.25 * x) + crease))
        })
        .collect()
}

/// A point times exp(i·angle), angle in units, by 40 steps with a quotient of their own.
pub fn turned_by(quotient: Quotient, p: Point, angle: i64) -> Point {
    let steps = steps(point(0, angle.into()), p, CUT, WIDTH_48).by(quotient);
    steps.last().expect("there are steps").start
}

/// A hundred angles from a hundredth of the largest in the rectangle up to it, in mixed order.
pub fn angles() -> impl Iterator<Item = i64> {
    let [_, (_, largest)] = rectangle(WIDTH_48);
    (1..=100).map(move |i| largest as i64 / 100 * (37 * i % 101))
}

/// The outline turned by each of the angles and back again; `turn` turns a point. First as it is,
/// then after each turn back: exact turns would leave it where it was.
pub fn to_and_fro(
    outline: Vec<Point>,
    angles: impl Iterator<Item = i64>,
    turn: impl Fn(Point, i64) -> Point,
) -> Vec<Vec<Point>> {
    let mut outlines = vec![outline];
    for angle in angles {
        let last = &outlines[outlines.len() - 1];
        outlines.push(last.iter().map(|&p| turn(turn(p, angle), -angle)).collect());
    }
    outlines
}

/// How far the points of an outline have moved, in units: the mean of each part.
pub fn mean_drift(from: &[Point], to: &[Point]) -> [f64; 2] {
    let moved = from.iter().zip(to).fold(point(0, 0), |sum, (&a, &b)| sum + (b - a));
    [moved.x, moved.y].map(|part| part as f64 / from.len() as f64)
}

/// The part of a single point that has moved furthest.
pub fn furthest_drift(from: &[Point], to: &[Point]) -> f64 {
    from.iter().zip(to).map(|(&a, &b)| (b - a).larger_part()).max().unwrap_or(0) as f64
}
