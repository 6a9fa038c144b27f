//! The register of 02, E9: EXP by the doubled form of 000 (II.C). Before step n the register is 2^n
//! times the exponent. The digits are read off the register cut after a few bits, as 000's E-mode
//! has them, where `exponential` holds the whole exponent to the thresholds of 01.

use crate::answer::{Answer, Figures};
use crate::exponential::{refusal, Input, Reduction};
use crate::point::{floor_quotient, point, Digit, Point};
use crate::tables::tables;
use crate::width::Width;

/// Fraction bits that are looked at, of x and of y.
pub const CUT_BITS: [u32; 2] = [3, 4];

/// The register cut by floor: x in eighths, y in sixteenths.
pub fn cut(register: Point, width: Width) -> Point {
    let [x, y] = CUT_BITS.map(|bits| width.fraction_bits - bits);
    point(floor_quotient(register.x, x), floor_quotient(register.y, y))
}

/// 000, E-mode: at most -5/8 or at least 3/8 for x, at most -13/16 or at least 13/16 for y.
pub fn digit(cut: Point) -> Digit {
    let part = |part: i128, low: i128, high: i128| {
        if part <= low {
            -1
        } else if part >= high {
            1
        } else {
            0
        }
    };
    point(part(cut.x, -5, 3), part(cut.y, -13, 13))
}

/// 2^(n+1) times the stored entry, which is not rounded again.
pub fn scaled_entry(n: u32, digit: Digit, width: Width) -> Point {
    tables(width).step(n, digit).shifted_up(n + 1)
}

/// Step n: the register before it, what is looked at, the digit, the scaled entry, and the
/// register and the start after it.
#[derive(Clone, Copy, PartialEq, Eq, Debug)]
pub struct Step {
    pub n: u32,
    pub before: Point,
    pub cut: Point,
    pub digit: Digit,
    pub entry: Point,
    pub register: Point,
    pub start: Point,
}

/// The steps from n = 1 on; the caller takes N of them.
pub fn steps(exponent: Point, mut start: Point, width: Width) -> impl Iterator<Item = Step> {
    let mut register = exponent.shifted_up(1);
    (1..=width.max_steps() as u32).map(move |n| {
        let before = register;
        let cut = cut(before, width);
        let digit = digit(cut);
        let entry = scaled_entry(n, digit, width);
        register = before.shifted_up(1) - entry;
        start = start.step(digit, n);
        Step { n, before, cut, digit, entry, register, start }
    })
}

/// What is left of the exponent after n steps: the register is 2^(n+1) times it.
pub fn remainder(register: Point, n: u32) -> Point {
    let left = point(floor_quotient(register.x, n + 1), floor_quotient(register.y, n + 1));
    assert_eq!(left.shifted_up(n + 1), register, "nothing is lost");
    left
}

pub fn exp(input: Input, width: Width) -> Answer {
    if let Some(refusal) = refusal(input, width) {
        return Err(refusal);
    }
    Ok(figures(input.n as u32, input.reduction(width), width))
}

/// N steps from there.
fn figures(n: u32, reduction: Reduction, width: Width) -> Figures {
    let run = steps(reduction.exponent, reduction.start, width);
    let end = run.take(n as usize).last().expect("N is at least 1");
    reduction.figures(n, end.start, remainder(end.register, n))
}
