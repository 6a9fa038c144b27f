//! Observed errors against the bound that is proved, for every N.

use crate::svg::{Axis, Page, Panel};
use reference::closeness::{exp_closeness, log_closeness, Claim};
use reference::exponential::Input as Exp;
use reference::logarithm::Input as Log;
use reference::samples::{exp_input, log_input, Random};
use reference::width::WIDTH_48 as W;

/// Answers for each N, and how many of them are drawn.
const ANSWERS: usize = 6_000;
const DRAWN: usize = 40;

/// Errors of answers to N steps as fractions of the bound, computed exactly.
type Fractions = fn(&mut Random, i64) -> Option<f64>;

fn exp_fraction(random: &mut Random, n: i64) -> Option<f64> {
    let input = Exp { n, ..exp_input(random, W) };
    Some(exp_closeness(input, compare::exp_figures(input)?, Claim::Column, W).fraction())
}

fn log_fraction(random: &mut Random, n: i64) -> Option<f64> {
    let input = Log { n, ..log_input(random, W) };
    Some(log_closeness(input, compare::log_figures(input)?, Claim::Column, W).fraction())
}

fn panel(page: &mut Page, left: f64, title: &str, given: &str, first: i64, fraction: Fractions) {
    let panel = Panel {
        left,
        top: 45.0,
        width: 355.0,
        height: 270.0,
        x: Axis {
            low: 0.0,
            high: 41.0,
            marks: vec![first as f64, 10.0, 20.0, 30.0, 40.0],
            label: format!("N (M is the larger part of the {given})"),
        },
        y: Axis {
            low: 0.0,
            high: 1.1,
            marks: vec![0.0, 0.25, 0.5, 0.75, 1.0],
            label: "error as a fraction of the bound".to_string(),
        },
    };
    panel.draw(page, title);
    let mut random = Random::new(51);
    let (mut drawn, mut medians, mut worsts) = (vec![], vec![], vec![]);
    for n in first..=40 {
        let mut values: Vec<f64> =
            std::iter::repeat_with(|| fraction(&mut random, n)).flatten().take(ANSWERS).collect();
        // Side by side, so that equal ones are seen.
        let beside = |i: usize| n as f64 + 0.6 * (i as f64 / DRAWN as f64 - 0.5);
        drawn.extend(values.iter().take(DRAWN).enumerate().map(|(i, &value)| (beside(i), value)));
        values.sort_by(f64::total_cmp);
        medians.push((n as f64, values[ANSWERS / 2]));
        worsts.push((n as f64, values[ANSWERS - 1]));
    }
    panel.dots(page, "dots c1", &drawn);
    panel.line(page, "line c3", &worsts, 1.5);
    panel.line(page, "line c0", &medians, 1.5);
    panel.line(page, "bound", &[(0.0, 1.0), (41.0, 1.0)], 99.0);
}

pub fn picture() -> String {
    let mut page = Page::new(900.0, 415.0);
    let exp = "EXP: the bound is 8M/2^N + 2N units, times 2^k";
    panel(&mut page, 78.0, exp, "multiplied start", 1, exp_fraction);
    panel(&mut page, 528.0, "LOG: the bound is 3M/2^N units", "point", 3, log_fraction);
    let legend = [
        ("bound", "the bound, proved for every input".to_string()),
        ("line c3", format!("the worst of {ANSWERS} answers")),
        ("line c0", "their median".to_string()),
        ("dots c1", format!("{DRAWN} of them")),
    ];
    page.legend(385.0, &legend.map(|(class, text)| (class.to_string(), text)));
    page.finish("Observed errors of EXP and LOG as fractions of the proved bound, for each N")
}
