//! Demand 3 of 01, and what 02, E5 makes of it: how near an answer is to the exact exponential; and
//! how near it is with its remainder (02, E7).

use crate::answer::Figures;
use crate::fixed::{Complex, Fixed};
use crate::point::{point, Point};
use crate::width::Width;
use crate::{exponential, logarithm};

/// The larger error of the two parts, for every T from 24 on (80 for EXP outside the rectangle),
/// and what is allowed; in units.
#[derive(Clone, Copy, Debug)]
pub struct Closeness {
    pub error: Fixed,
    pub allowed: Fixed,
}

impl Closeness {
    pub fn holds(self) -> bool {
        self.error <= self.allowed
    }

    /// The error as a fraction of what is allowed.
    pub fn fraction(self) -> f64 {
        self.error.to_f64() / self.allowed.to_f64()
    }
}

/// What is held to the exact exponential.
#[derive(Clone, Copy, PartialEq, Eq, Debug)]
pub enum Claim {
    /// The answer, within its column.
    Column,
    /// The answer and what the steps have left, within what the rounding of tables and steps can
    /// amount to: but for that, the remainder says how far off the answer is.
    WithRemainder,
}

use Claim::{Column, WithRemainder};

/// A sum that stands for every longer one: for |z| up to a radius the terms behind it add to less
/// than 1/2^tail_bits, what the sum itself is off included, which is less than 2^-290.
pub struct Series {
    pub terms: u64,
    /// The square of the radius, in 25ths.
    norm: i128,
    pub tail_bits: u32,
}

/// For |z| <= 6/5 the terms from the 24th on add to less than 2^-72.6.
pub const NEAR: Series = Series { terms: 24, norm: 36, tail_bits: 72 };

/// For |z|² <= 128 those from the 80th on to less than 2^-114.6.
pub const FAR: Series = Series { terms: 80, norm: 25 * 128, tail_bits: 114 };

impl Series {
    pub fn sum(&self, z: Complex) -> Complex {
        assert!(z.norm() * Fixed::ratio(25, 0) <= Fixed::ratio(self.norm, 0), "outside the radius");
        z.exponential(self.terms)
    }

    /// `larger` is M. Both factors that meet the sum have a length of at most 2M. The terms behind
    /// the sum leave a third of 2^-tail_bits for a remainder: for the factor 1 + remainder, which is
    /// below 5/4, and for the sum of exp(remainder), whose tail is below 2^-90.
    fn closeness(&self, difference: Complex, larger: i128, allowed: Fixed) -> Closeness {
        let error = difference.larger_part() + Fixed::ratio(2 * larger, self.tail_bits);
        Closeness { error, allowed }
    }
}

/// The series that an answer of EXP is held to.
pub fn exp_series(exponent: Point, width: Width) -> Series {
    if exponential::in_rectangle(exponent, width) {
        NEAR
    } else {
        FAR
    }
}

/// 2^k times the answer, less start·exp(exponent), against 8M/2^N + 2N times 2^k; M is the larger
/// part of the start that the steps run on, which is at least as long as the given one. With the
/// remainder, 2^k·answer·exp(remainder) against (12N + 51)·M/2^F + 2N + 3 times 2^k.
pub fn exp_closeness(
    input: exponential::Input,
    figures: Figures,
    claim: Claim,
    width: Width,
) -> Closeness {
    let (n, f) = (i128::from(input.n), width.fraction_bits);
    let series = exp_series(input.exponent(), width);
    let larger = input.reduction(width).start.larger_part();
    let exact = whole(input.start()) * series.sum(scaled(input.exponent(), width));
    let power = power_of_two(figures.binary_exponent);
    let answer = whole(figures.parts());
    let (answer, allowed) = match claim {
        Column => (answer, Fixed::ratio(8 * larger, n as u32) + Fixed::ratio(2 * n, 0)),
        WithRemainder => (
            answer * series.sum(scaled(figures.remainder(), width)),
            Fixed::ratio((12 * n + 51) * larger, f) + Fixed::ratio(2 * n + 3, 0),
        ),
    };
    let answer = Complex { re: answer.re * power, im: answer.im * power };
    series.closeness(answer - exact, larger, allowed * power)
}

/// 2^(F+k)·i^q·exp(answer) less the point, against 3M/2^N; with the remainder,
/// 2^(F+k)·i^q·exp(answer)·(1 + remainder) against (10N + 3)·M/2^F.
pub fn log_closeness(
    input: logarithm::Input,
    figures: Figures,
    claim: Claim,
    width: Width,
) -> Closeness {
    let (n, f) = (i128::from(input.n), width.fraction_bits);
    let larger = input.point().larger_part();
    let factor = point(1 << (i64::from(f) + figures.binary_exponent), 0).turned(figures.quadrant);
    let exact = whole(factor) * NEAR.sum(scaled(figures.parts(), width));
    let (exact, allowed) = match claim {
        Column => (exact, Fixed::ratio(3 * larger, n as u32)),
        WithRemainder => (
            exact * (Complex::ONE + scaled(figures.remainder(), width)),
            Fixed::ratio((10 * n + 3) * larger, f),
        ),
    };
    NEAR.closeness(exact - whole(input.point()), larger, allowed)
}

/// 2^k for a k of EXP.
fn power_of_two(k: i64) -> Fixed {
    if k < 0 {
        Fixed::ratio(1, -k as u32)
    } else {
        Fixed::ratio(1 << k, 0)
    }
}

fn whole(p: Point) -> Complex {
    Complex::ratio(p.x, p.y, 0)
}

fn scaled(p: Point, width: Width) -> Complex {
    Complex::ratio(p.x, p.y, width.fraction_bits)
}
