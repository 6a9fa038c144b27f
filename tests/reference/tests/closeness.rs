//! Demand 3 and the convergence that 01 and 02, E5 and E7 state, on random and edge inputs at every
//! width.

use reference::answer::{Answer, Figures};
use reference::closeness::Claim::{self, Column, WithRemainder};
use reference::closeness::{exp_closeness, log_closeness, FAR, NEAR};
use reference::exponential::{self, exp, figures, in_rectangle, rectangle, CUT};
use reference::fixed::{Complex, Fixed};
use reference::logarithm::{self, log, reduce};
use reference::point::point;
use reference::samples::{exp_input, log_input, Random};
use reference::width::WIDTHS;

const SAMPLES: usize = 60_000;

fn check_exp(claim: Claim) {
    for width in WIDTHS {
        let mut random = Random::new(1);
        // Inside the rectangle and outside.
        let mut worst = [0.0; 2];
        for _ in 0..SAMPLES {
            let input = exp_input(&mut random, width);
            if let Ok(figures) = exp(input, width) {
                let closeness = exp_closeness(input, figures, claim, width);
                assert!(closeness.holds(), "{input:?}");
                let worst = &mut worst[usize::from(!in_rectangle(input.exponent(), width))];
                *worst = f64::max(*worst, closeness.fraction());
            }
        }
        let bits = width.fraction_bits;
        println!("EXP, {claim:?}, width {bits}: at most {worst:.3?} of what is allowed");
    }
}

#[test]
fn exp_is_close() {
    check_exp(Column);
}

#[test]
fn exp_is_close_with_its_remainder() {
    check_exp(WithRemainder);
}

/// Sums of more terms stay within what `closeness` adds for them, at the corners that are furthest
/// from nought.
#[test]
fn longer_sums() {
    for width in WIDTHS {
        let [(_, x), (_, y)] = rectangle(width);
        let eight = width.max_exponent();
        for (series, x, y) in [(NEAR, x, y), (FAR, eight, eight)] {
            for (x, y) in [(x, y), (x, -y), (-x, y), (-x, -y)] {
                let z = Complex::ratio(x, y, width.fraction_bits);
                for terms in [1, 2, 20, 100].map(|more| series.terms + more) {
                    let beyond = (z.exponential(terms) - series.sum(z)).norm();
                    assert!(beyond < Fixed::ratio(1, 2 * series.tail_bits), "{terms} terms");
                }
            }
        }
    }
}

/// Inside the rectangle the reduction would give nearly the same: 2^k times its answer and the
/// answer differ by at most both columns, the one times 2^k.
#[test]
fn seam() {
    for width in WIDTHS {
        let mut random = Random::new(16);
        let mut met = 0;
        for _ in 0..SAMPLES {
            let input = exp_input(&mut random, width);
            if exp(input, width).is_err() || !in_rectangle(input.exponent(), width) {
                continue;
            }
            let n = input.n as u32;
            let reduced = exponential::reduce(input.exponent(), input.start(), width);
            let [plain, reduced] = [input.unreduced(), reduced].map(|r| figures(n, r, width));
            // Both times 2^down, so that all is whole.
            let down = (-reduced.binary_exponent).max(0);
            let up = down + reduced.binary_exponent;
            let whole = |f: Figures, power: i64| {
                [f.x, f.y, f.error_bound].map(|number| i128::from(number) << power)
            };
            let ([x, y, bound], [u, v, other]) = (whole(plain, down), whole(reduced, up));
            assert!((x - u).abs().max((y - v).abs()) <= bound + other, "{input:?}");
            met += 1;
        }
        assert!(met > SAMPLES / 2);
    }
}

fn check_log(claim: Claim) {
    for width in WIDTHS {
        let mut random = Random::new(2);
        let mut worst = 0.0;
        for _ in 0..SAMPLES {
            let input = log_input(&mut random, width);
            if let Ok(figures) = log(input, width) {
                let closeness = log_closeness(input, figures, claim, width);
                assert!(closeness.holds(), "{input:?}");
                worst = f64::max(worst, closeness.fraction());
            }
        }
        let bits = width.fraction_bits;
        println!("LOG, {claim:?}, width {bits}: at most {worst:.3} of what is allowed");
    }
}

#[test]
fn log_is_close() {
    check_log(Column);
}

#[test]
fn log_is_close_with_its_remainder() {
    check_log(WithRemainder);
}

/// A wrong answer must not pass: what is allowed is narrow.
#[test]
fn far_answers_are_not_close() {
    for width in WIDTHS {
        let mut random = Random::new(3);
        for _ in 0..1000 {
            let input = exp_input(&mut random, width);
            if let Ok(mut figures) = exp(input, width) {
                figures.y += 2 * figures.error_bound;
                assert!(!exp_closeness(input, figures, Column, width).holds(), "{input:?}");
            }
            let input = log_input(&mut random, width);
            if let Ok(mut figures) = log(input, width) {
                figures.quadrant += 2;
                assert!(!log_closeness(input, figures, Column, width).holds(), "{input:?}");
            }
        }
    }
}

/// Nor a wrong remainder, where the start is large: a part of it that is off by some hundred units
/// shows, whatever N is.
#[test]
fn other_remainders_are_not_close() {
    for width in WIDTHS {
        let mut random = Random::new(21);
        for _ in 0..1000 {
            let input = exp_input(&mut random, width);
            if let Ok(mut figures) = exp(input, width) {
                figures.remainder_x -= 8 * (14 * input.n + 54);
                let closeness = exp_closeness(input, figures, WithRemainder, width);
                let large = input.start().larger_part() >= width.one();
                assert!(!large || !closeness.holds(), "{input:?}");
            }
            let input = log_input(&mut random, width);
            if let Ok(mut figures) = log(input, width) {
                figures.remainder_y += 3 * (10 * input.n + 3);
                let closeness = log_closeness(input, figures, WithRemainder, width);
                assert!(!closeness.holds(), "{input:?}");
            }
        }
    }
}

/// 02, E7: "every remainder part is below 1/2^N in size".
#[test]
fn remainders_are_small() {
    for width in WIDTHS {
        let mut random = Random::new(22);
        let mut worst = [0.0; 2];
        let mut check = |place: usize, n: i64, answer: Answer| {
            if let Ok(figures) = answer {
                let size = figures.remainder().larger_part() << n;
                assert!(size < width.one(), "N = {n}: {figures:?}");
                worst[place] = f64::max(worst[place], size as f64 / width.one() as f64);
            }
        };
        for _ in 0..SAMPLES {
            let input = exp_input(&mut random, width);
            check(0, input.n, exp(input, width));
            let input = log_input(&mut random, width);
            check(1, input.n, log(input, width));
        }
        println!("width {}: EXP and LOG leave at most {worst:.3?} of it", width.fraction_bits);
    }
}

/// "After n steps, each exponent part is below 1/2^n in size."
#[test]
fn exponents_shrink() {
    for width in WIDTHS {
        let mut random = Random::new(4);
        for _ in 0..SAMPLES {
            let input = exp_input(&mut random, width);
            if exp(exponential::Input { n: 1, ..input }, width).is_err() {
                continue;
            }
            let reduction = input.reduction(width);
            assert!(in_rectangle(reduction.exponent, width), "{input:?}");
            for step in exponential::steps(reduction.exponent, reduction.start, CUT, width) {
                assert!(step.exponent.larger_part() < width.one() >> step.n, "{input:?}");
            }
        }
    }
}

/// The seated point is within 7/64 of one; each part of 2^n·u is at most 3/2 before step n
/// from 4 on and after the last.
#[test]
fn points_near_one() {
    for width in WIDTHS {
        let one = point(width.one(), 0);
        let mut random = Random::new(5);
        for _ in 0..SAMPLES {
            let input = log_input(&mut random, width);
            if log(logarithm::Input { n: 3, ..input }, width).is_err() {
                continue;
            }
            let reduction = reduce(input.point(), width);
            assert!((reduction.point - one).larger_part() <= 7 * width.one() / 64, "{input:?}");
            for step in logarithm::steps(reduction, width) {
                let u = (step.point - one).larger_part();
                assert!(u << (step.n + 2) <= 3 * width.one(), "{input:?}");
            }
        }
    }
}
