//! A barley kernel's outline turned by EXP, and the logarithms of its points: there a turn is
//! a shift.

use crate::svg::{Axis, Page, Panel};
use reference::answer::Figures;
use reference::exponential::{rectangle, Input as Exp};
use reference::logarithm::Input as Log;
use reference::outline::kernel;
use reference::point::{word, Point};
use reference::width::WIDTH_48;
use std::f64::consts::{FRAC_PI_2, LN_2};

const POINTS: usize = 360;
/// The last turn is the largest that EXP takes as it is, 47/64.
const TURNS: i64 = 4;
const N: i64 = 40;

/// The outline times exp(i·angle), angle in units.
fn turned(outline: &[Point], angle: i64) -> Vec<Figures> {
    let exp = |p: &Point| Exp { n: N, ex: 0, ey: angle, sx: word(p.x), sy: word(p.y) };
    outline.iter().map(|p| compare::exp_figures(exp(p)).expect("a start that EXP takes")).collect()
}

fn ones(units: i64) -> f64 {
    units as f64 / WIDTH_48.one() as f64
}

/// The angle in degrees and the logarithm of the length, from LOG in doubles with its k and q.
fn logarithm(point: &Figures) -> (f64, f64) {
    let input = Log { n: N, x: point.x, y: point.y };
    let log = compare::log_figures(input).expect("a point that LOG takes");
    let [x, y] = compare::log_doubles(input).1.map(f64::from_bits);
    let angle = y + log.quadrant as f64 * FRAC_PI_2;
    (angle.to_degrees(), x + log.binary_exponent as f64 * LN_2)
}

pub fn picture() -> String {
    let mut page = Page::new(900.0, 460.0);
    let part = |label: &str| Axis {
        low: -1.05,
        high: 1.05,
        marks: vec![-1.0, -0.5, 0.0, 0.5, 1.0],
        label: label.to_string(),
    };
    let plane = Panel {
        left: 78.0,
        top: 45.0,
        width: 320.0,
        height: 320.0,
        x: part("x (one is 2^48 units)"),
        y: part("y (one is 2^48 units)"),
    };
    plane.draw(&mut page, "An outline turned by EXP");
    let logarithms = Panel {
        left: 490.0,
        top: 45.0,
        width: 385.0,
        height: 320.0,
        x: Axis {
            low: -180.0,
            high: 180.0,
            marks: vec![-180.0, -90.0, 0.0, 90.0, 180.0],
            label: "angle (degrees)".to_string(),
        },
        y: Axis {
            low: -1.4,
            high: 0.2,
            marks: vec![-1.2, -0.8, -0.4, 0.0],
            label: "natural logarithm of the length".to_string(),
        },
    };
    logarithms.draw(&mut page, "Its points by LOG: a turn is a shift");
    let outline = kernel(POINTS, WIDTH_48.one() as f64);
    let [_, (_, largest)] = rectangle(WIDTH_48);
    let mut legend = Vec::new();
    for turn in 0..TURNS {
        let angle = turn * largest as i64 / (TURNS - 1);
        let class = format!("line c{turn}");
        let points = turned(&outline, angle);
        let parts: Vec<_> = points.iter().map(|p| (ones(p.x), ones(p.y))).collect();
        plane.line(&mut page, &class, &parts, 99.0);
        // A point that turns past 180 degrees comes back at -180.
        let logs: Vec<_> = points.iter().map(logarithm).collect();
        logarithms.line(&mut page, &class, &logs, 180.0);
        legend.push((class, format!("turned by {:.2}°", ones(angle).to_degrees())));
    }
    page.legend(435.0, &legend);
    page.finish("A kernel's outline turned by EXP, and the logarithms of its points by LOG")
}
