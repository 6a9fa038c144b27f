//! The edges and limits of 01 and of 02, E5 and E7 on the product, in their numbers; every record also
//! against the second implementation.

use compare::{expected, numbers, observed};
use reference::answer::Record;
use reference::edges::{
    exp_eighths, exp_of_zero, exp_records, exp_refusals, exp_remainders, exp_scales,
    far_exp_records, figure_digits, log_bounds, log_one_digits, log_one_remainders, log_reductions,
    log_refusals, EXP, LOG, ONE,
};
use reference::exponential::{self, exp, Input as Exp, CUT};
use reference::figure::EXPONENT;
use reference::logarithm::{self, log, reduce, Input as Log};
use reference::point::{point, Digit, Point};
use reference::tables::{cell_xs, cell_ys, tables};
use reference::width::WIDTH_48 as W;

fn exp_record(input: Exp) -> Record {
    let seen = observed(|out| compare::exp(input, out));
    assert_eq!(seen, expected(exp(input, W)), "{input:?}");
    numbers(seen)
}

fn log_record(input: Log) -> Record {
    let seen = observed(|out| compare::log(input, out));
    assert_eq!(seen, expected(log(input, W)), "{input:?}");
    numbers(seen)
}

/// The answer and the remainder.
fn points(record: Record) -> [Point; 2] {
    let [refusal, x, y, _, _, _, rx, ry] = record;
    assert_eq!(refusal, 0);
    [point(x.into(), y.into()), point(rx.into(), ry.into())]
}

#[test]
fn limits_of_exp() {
    for (input, refusal) in exp_refusals() {
        let record = exp_record(input);
        assert_eq!(record[0], refusal, "{input:?}");
        assert!(refusal == 0 || record[1..] == [0; 7], "{input:?}");
    }
}

#[test]
fn limits_of_log() {
    for (input, refusal) in log_refusals() {
        let record = log_record(input);
        assert_eq!(record[0], refusal, "{input:?}");
        assert!(refusal == 0 || record[1..] == [0; 7], "{input:?}");
    }
}

#[test]
fn records_of_exp() {
    for (input, wanted) in exp_records().into_iter().chain(far_exp_records()) {
        assert_eq!(exp_record(input), wanted, "{input:?}");
    }
}

#[test]
fn exp_of_start_zero() {
    for input in exp_of_zero() {
        let (zero, other) = (exp_record(input), exp_record(Exp { sx: ONE, ..input }));
        assert_eq!(zero[..6], [0, 0, 0, 0, 0, 2 * input.n], "{input:?}");
        assert_eq!(zero[6..], other[6..], "{input:?}");
    }
}

#[test]
fn remainders() {
    for (input, remainder) in exp_remainders() {
        assert_eq!(exp_record(input)[6..], remainder, "{input:?}");
    }
    for (input, remainder) in log_one_remainders() {
        assert_eq!(log_record(input)[6..], remainder, "{input:?}");
    }
}

#[test]
fn scales_of_exp() {
    for (input, k) in exp_scales() {
        assert_eq!(exp_record(input)[3], k, "{input:?}");
    }
}

/// p is made with the constant Q, and the column tells whether it is odd.
#[test]
fn eighths_by_the_constant() {
    for (input, p) in exp_eighths() {
        assert_eq!(exp_record(input)[5], if p % 2 == 0 { 2128 } else { 4176 }, "{input:?}");
    }
}

#[test]
fn bounds_of_log() {
    for (input, bound) in log_bounds() {
        assert_eq!(log_record(input)[5], bound, "{input:?}");
    }
}

#[test]
fn reductions() {
    for (input, wanted) in log_reductions() {
        assert_eq!(log_record(input)[3..5], wanted, "{input:?}");
    }
}

/// The corners of every cell, give or take a unit, at scales with and without a floor.
#[test]
fn cells() {
    for k in [0, 1, 9] {
        for (cx, cy) in cell_xs().flat_map(|cx| cell_ys().map(move |cy| (cx, cy))) {
            for (across, up) in [(0, 0), (0, 1), (1, 0), (1, 1)] {
                let corner = |c: i128, beyond: i128| ((c - 1 + 2 * beyond) << (43 + k)) as i64;
                for (x, y) in [(0, 0), (-1, 0), (0, -1), (1, 1)] {
                    let (x, y) = (corner(cx, across) + x, corner(cy, up) + y);
                    log_record(Log { x, y, ..LOG });
                    log_record(Log { x: -y, y: x, ..LOG });
                }
            }
        }
    }
}

/// The one digit for which `holds`.
fn only_digit(holds: impl Fn(Digit) -> bool) -> Digit {
    let all = [-1, 0, 1].into_iter().flat_map(|x| [-1, 0, 1].map(|y| point(x, y)));
    let digits: Vec<_> = all.filter(|&digit| holds(digit)).collect();
    assert_eq!(digits.len(), 1);
    digits[0]
}

/// No call hands digits back, but the answers for N - 1 and N tell the one of step N, and the
/// remainders the same one.
#[test]
fn digits_of_the_figure() {
    let start = point(ONE.into(), 0);
    let at = |n: u32| Exp { n: n.into(), ex: EXPONENT.x as i64, ey: EXPONENT.y as i64, ..EXP };
    let mut last = [start, EXPONENT];
    let mut digits = Vec::new();
    for n in 1..=40 {
        let next = points(exp_record(at(n)));
        let digit = only_digit(|digit| last[0].step(digit, n) == next[0]);
        assert_eq!(next[1], last[1] - tables(W).step(n, digit), "step {n}");
        digits.push(digit);
        last = next;
    }
    assert_eq!(digits[..8], figure_digits());
    let steps = exponential::steps(EXPONENT, start, CUT, W);
    assert_eq!(digits, steps.map(|step| step.digit).collect::<Vec<_>>());
}

#[test]
fn digits_of_log_of_one() {
    let reduction = reduce(LOG.point(), W);
    let cell = reduction.cell;
    let one = point(ONE.into(), 0);
    let reciprocal_log = tables(W).reciprocal_log(cell.x, cell.y);
    let mut last = [point(0, 0) - reciprocal_log, reduction.point - one];
    let mut digits = Vec::new();
    for n in 3..=40 {
        let next = points(log_record(Log { n: n.into(), ..LOG }));
        let digit = only_digit(|digit| last[0] - tables(W).step(n, digit) == next[0]);
        assert_eq!(next[1] + one, (last[1] + one).step(digit, n), "step {n}");
        digits.push(digit);
        last = next;
    }
    assert_eq!(digits[..3], log_one_digits());
    let steps = logarithm::steps(reduction, W);
    assert_eq!(digits, steps.map(|step| step.digit).collect::<Vec<_>>());
}

/// The middle of the cell X = 17, Y = 1 times (120 - 7i)/64 is so near one that LOG's first step
/// has the digit 0: what it answers is minus the logarithm of that number.
#[test]
fn reciprocal_of_a_cell() {
    let [answer, _] = points(log_record(Log { n: 3, x: 17 * ONE / 32, y: ONE / 32 }));
    let (a, b) = (120f64 / 64.0, -7f64 / 64.0);
    let near = |units: i128, value: f64| (units as f64 - value * ONE as f64).abs() < 1.0;
    assert!(near(answer.x, -a.hypot(b).ln()) && near(answer.y, -b.atan2(a)), "{answer:?}");
}
