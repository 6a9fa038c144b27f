//! An outline turned to and fro, as it was when steps rounded by floor and as it is.

use crate::svg::{Axis, Page, Panel};
use reference::exponential::Input;
use reference::outline::{angles, kernel, mean_drift, to_and_fro, turned_by};
use reference::point::{floor_quotient, word, Point};

/// So small that units are seen.
const SIZE: f64 = 2000.0;
const POINTS: usize = 360;
const TURNS: usize = 100;

/// By the product.
fn turned(p: Point, angle: i64) -> Point {
    let input = Input { n: 40, ex: 0, ey: angle, sx: word(p.x), sy: word(p.y) };
    compare::exp_figures(input).expect("a start that EXP takes").parts()
}

fn outlines(turn: impl Fn(Point, i64) -> Point) -> Vec<Vec<Point>> {
    to_and_fro(kernel(POINTS, SIZE), angles(), turn)
}

fn units(low: f64, high: f64, marks: [f64; 4], label: &str) -> Axis {
    Axis { low, high, marks: marks.to_vec(), label: label.to_string() }
}

pub fn picture() -> String {
    let mut page = Page::new(900.0, 460.0);
    let plane = Panel {
        left: 88.0,
        top: 45.0,
        width: 360.0,
        height: 320.0,
        x: units(-5400.0, 2400.0, [-4000.0, -2000.0, 0.0, 2000.0], "x (units)"),
        y: units(-4400.0, 2533.0, [-4000.0, -2000.0, 0.0, 2000.0], "y (units)"),
    };
    plane.draw(&mut page, &format!("An outline after {TURNS} turns to and fro"));
    let drift = Panel {
        left: 540.0,
        top: 45.0,
        width: 335.0,
        height: 320.0,
        x: Axis {
            low: 0.0,
            high: TURNS as f64,
            marks: vec![0.0, 25.0, 50.0, 75.0, 100.0],
            label: "turns to and fro".to_string(),
        },
        y: units(-3500.0, 500.0, [-3000.0, -2000.0, -1000.0, 0.0], "mean drift of a part (units)"),
    };
    drift.draw(&mut page, "How far it has moved: x solid, y dotted");
    let before = outlines(|p, angle| turned_by(floor_quotient, p, angle));
    let now = outlines(turned);
    let drawn = |outline: &[Point]| -> Vec<(f64, f64)> {
        outline.iter().map(|p| (p.x as f64, p.y as f64)).collect()
    };
    plane.line(&mut page, "line c0", &drawn(&before[0]), f64::INFINITY);
    for (name, outlines) in [("c3", &before), ("c1", &now)] {
        let line = format!("line {name}");
        plane.line(&mut page, &line, &drawn(&outlines[TURNS]), f64::INFINITY);
        let part = |i: usize, every: usize| -> Vec<(f64, f64)> {
            let drifts = outlines.iter().enumerate().step_by(every);
            drifts
                .map(|(turns, outline)| (turns as f64, mean_drift(&outlines[0], outline)[i]))
                .collect()
        };
        drift.line(&mut page, &line, &part(0, 1), f64::INFINITY);
        drift.dots(&mut page, &format!("dots {name}"), &part(1, 2));
    }
    let legend = [
        ("line c0", "at first"),
        ("line c3", "steps rounded by floor, as before"),
        ("line c1", "steps rounded to the nearest unit, as now"),
    ];
    page.legend(435.0, &legend.map(|(class, text)| (class.to_string(), text.to_string())));
    page.finish(
        "An outline turned to and fro: it creeps to the lower left by floor and stays by nearest",
    )
}
