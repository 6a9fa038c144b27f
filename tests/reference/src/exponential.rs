//! EXP of 01, with the exponents up to eight of 02, E5 and the remainder of 02, E7.

use crate::answer::{Answer, Figures, Refusal};
use crate::point::{ceiling_quotient, nearest_quotient, point, word, Digit, Point, Quotient};
use crate::tables::{tables, Tables};
use crate::width::Width;

#[derive(Clone, Copy, PartialEq, Eq, Debug)]
pub struct Input {
    pub n: i64,
    pub ex: i64,
    pub ey: i64,
    pub sx: i64,
    pub sy: i64,
}

impl Input {
    pub fn exponent(self) -> Point {
        point(self.ex.into(), self.ey.into())
    }

    pub fn start(self) -> Point {
        point(self.sx.into(), self.sy.into())
    }

    /// What the steps run on inside the rectangle.
    pub fn unreduced(self) -> Reduction {
        Reduction { exponent: self.exponent(), start: self.start(), binary_exponent: 0 }
    }

    /// What they run on.
    pub fn reduction(self, width: Width) -> Reduction {
        if in_rectangle(self.exponent(), width) {
            self.unreduced()
        } else {
            reduce(self.exponent(), self.start(), width)
        }
    }
}

/// The least and the greatest ex, then ey: -53/64, 55/64, ∓47/64.
pub fn rectangle(width: Width) -> [(i128, i128); 2] {
    let sixty_fourth = width.one() / 64;
    [(-53, 55), (-47, 47)].map(|(low, high)| (low * sixty_fourth, high * sixty_fourth))
}

pub fn in_rectangle(exponent: Point, width: Width) -> bool {
    let [xs, ys] = rectangle(width);
    (xs.0..=xs.1).contains(&exponent.x) && (ys.0..=ys.1).contains(&exponent.y)
}

/// The given start times the exponential of the given exponent is 2^k times the same of these,
/// nearly.
#[derive(Clone, Copy, PartialEq, Eq, Debug)]
pub struct Reduction {
    pub exponent: Point,
    pub start: Point,
    /// k of 02, E5.
    pub binary_exponent: i64,
}

impl Reduction {
    /// The figures of N steps from here that end with this start and leave this of the exponent;
    /// M is the larger part of the start that they run on.
    pub fn figures(self, n: u32, end: Point, remainder: Point) -> Figures {
        let bound = ceiling_quotient(8 * self.start.larger_part(), n) + 2 * i128::from(n);
        Figures {
            x: word(end.x),
            y: word(end.y),
            binary_exponent: self.binary_exponent,
            quadrant: 0,
            error_bound: word(bound),
            remainder_x: word(remainder.x),
            remainder_y: word(remainder.y),
        }
    }
}

/// What the start is multiplied by, by p modulo 8.
pub const FACTORS: [(i128, i128); 8] =
    [(1, 0), (1, 1), (0, 1), (-1, 1), (-1, 0), (-1, -1), (0, -1), (1, -1)];

/// floor(part/unit + 1/2).
pub fn nearest_multiple(part: i128, unit: i128) -> i128 {
    (2 * part + unit).div_euclid(2 * unit)
}

/// The reduction of 02, E5: eighths of a turn, p of them, leave the exponent for the start, then
/// doublings for k.
pub fn reduce(exponent: Point, start: Point, width: Width) -> Reduction {
    let Tables { log_of_one_plus_i, log_of_two, .. } = tables(width);
    let eighths = nearest_multiple(exponent.y, log_of_one_plus_i.y);
    let (x, y) = FACTORS[eighths.rem_euclid(8) as usize];
    let lost = if eighths.rem_euclid(2) == 1 { log_of_one_plus_i.x } else { 0 };
    let turned = exponent - point(lost, eighths * log_of_one_plus_i.y);
    let doublings = nearest_multiple(turned.x, log_of_two.x);
    Reduction {
        exponent: turned - point(doublings * log_of_two.x, 0),
        start: start.times(point(x, y)),
        binary_exponent: word(doublings),
    }
}

/// Where digits change, in sixteenths of 1/2^n: a part below the first number has the
/// digit -1, from the second on 1. First x, then y.
pub type Thresholds = [(i128, i128); 2];

/// Those of 01, the cut digits of 000.
pub const CUT: Thresholds = [(-8, 6), (-12, 13)];

/// Those of 000 before its cut: -1/2 and 1/4, ∓3/4. Figure 1 of 001 was made with them.
pub const UNCUT: Thresholds = [(-8, 4), (-12, 12)];

pub fn digit(exponent: Point, n: u32, thresholds: Thresholds, width: Width) -> Digit {
    let sixteenth = 1i128 << (width.fraction_bits - 4 - n);
    let part = |e: i128, (low, high): (i128, i128)| {
        if e < low * sixteenth {
            -1
        } else if e >= high * sixteenth {
            1
        } else {
            0
        }
    };
    point(part(exponent.x, thresholds[0]), part(exponent.y, thresholds[1]))
}

/// Step n with its digit, and the state after it.
#[derive(Clone, Copy, PartialEq, Eq, Debug)]
pub struct Step {
    pub n: u32,
    pub digit: Digit,
    pub exponent: Point,
    pub start: Point,
}

/// The steps from n = 1 on; the caller takes N of them.
pub struct Steps {
    width: Width,
    tables: &'static Tables,
    thresholds: Thresholds,
    quotient: Quotient,
    last: Step,
}

pub fn steps(exponent: Point, start: Point, thresholds: Thresholds, width: Width) -> Steps {
    let last = Step { n: 0, digit: point(0, 0), exponent, start };
    Steps { width, tables: tables(width), thresholds, quotient: nearest_quotient, last }
}

impl Steps {
    /// The same steps with another quotient.
    pub fn by(self, quotient: Quotient) -> Steps {
        Steps { quotient, ..self }
    }
}

impl Iterator for Steps {
    type Item = Step;

    fn next(&mut self) -> Option<Step> {
        let n = self.last.n + 1;
        if i64::from(n) > self.width.max_steps() {
            return None;
        }
        let digit = digit(self.last.exponent, n, self.thresholds, self.width);
        self.last = Step {
            n,
            digit,
            exponent: self.last.exponent - self.tables.step(n, digit),
            start: self.last.start.step_by(self.quotient, digit, n),
        };
        Some(self.last)
    }
}

/// 01, Turned away, with the limit of 02, E5: the first condition that holds.
pub fn refusal(input: Input, width: Width) -> Option<Refusal> {
    if !(1..=width.max_steps()).contains(&input.n) {
        Some(Refusal::Steps)
    } else if input.exponent().larger_part() > width.max_exponent() {
        Some(Refusal::Exponent)
    } else if input.start().larger_part() > width.max_part() {
        Some(Refusal::Part)
    } else {
        None
    }
}

pub fn exp(input: Input, width: Width) -> Answer {
    if let Some(refusal) = refusal(input, width) {
        return Err(refusal);
    }
    Ok(figures(input.n as u32, input.reduction(width), width))
}

/// N steps from there.
pub fn figures(n: u32, reduction: Reduction, width: Width) -> Figures {
    let run = steps(reduction.exponent, reduction.start, CUT, width);
    let end = run.take(n as usize).last().expect("N is at least 1");
    reduction.figures(n, end.start, end.exponent)
}
