//! LOG of 01, with the remainder of 02, E7.

use crate::answer::{Answer, Figures, Refusal};
use crate::point::{ceiling_quotient, floor_quotient, point, word, Digit, Point};
use crate::tables::{reciprocal, tables, Tables};
use crate::width::Width;

#[derive(Clone, Copy, PartialEq, Eq, Debug)]
pub struct Input {
    pub n: i64,
    pub x: i64,
    pub y: i64,
}

impl Input {
    pub fn point(self) -> Point {
        point(self.x.into(), self.y.into())
    }
}

/// N, and the index of the first step, begin here.
pub const FIRST_STEP: u32 = 3;

/// A point brought near one.
#[derive(Clone, Copy, PartialEq, Eq, Debug)]
pub struct Reduction {
    /// q of 01, as 02, E2 writes it
    pub quadrant: i64,
    /// k of 01
    pub binary_exponent: i32,
    /// The cell of the scaled point, by X and Y.
    pub cell: Point,
    /// The point times the cell's reciprocal.
    pub point: Point,
}

pub fn reduce(given: Point, width: Width) -> Reduction {
    let f = width.fraction_bits;
    // Turn: point = i^q·w, so w is the point turned back by q. Its angle is to lie above minus half a
    // turn and at most at half a turn (02, E2): only a point below the axis is reached backwards.
    let in_cone = |w: Point| -w.x < w.y && w.y <= w.x;
    let way = if given.y < 0 { -1 } else { 1 };
    let quadrant = [0, way, 2 * way]
        .into_iter()
        .find(|&q| in_cone(given.turned(-q)))
        .expect("a point that is not zero");
    let turned = given.turned(-quadrant);
    // Scale: 2^(F-1+k) <= wx < 2^(F+k), so wx has F + k bits.
    let binary_exponent = (i128::BITS - turned.x.leading_zeros()) as i32 - f as i32;
    let scale = |part: i128| {
        if binary_exponent <= 0 {
            part << -binary_exponent
        } else {
            floor_quotient(part, binary_exponent as u32)
        }
    };
    let scaled = point(scale(turned.x), scale(turned.y));
    // Seat: a cell has side 1/16 and owns its lower edges.
    let cell =
        point(2 * floor_quotient(scaled.x, f - 4) + 1, 2 * floor_quotient(scaled.y, f - 4) + 1);
    let product = scaled.times(reciprocal(cell.x, cell.y));
    let near_one = point(floor_quotient(product.x, 6), floor_quotient(product.y, 6));
    Reduction { quadrant, binary_exponent, cell, point: near_one }
}

/// From u, the point less one.
pub fn digit(u: Point, n: u32, width: Width) -> Digit {
    let half = 1i128 << (width.fraction_bits - 1 - n);
    let part = |u: i128| {
        if u <= -half {
            1
        } else if u >= half {
            -1
        } else {
            0
        }
    };
    point(part(u.x), part(u.y))
}

/// Step n with its digit, and the state after it.
#[derive(Clone, Copy, PartialEq, Eq, Debug)]
pub struct Step {
    pub n: u32,
    pub digit: Digit,
    pub point: Point,
    /// The answer so far.
    pub answer: Point,
}

/// The steps from n = 3 on; the caller takes N - 2 of them.
pub struct Steps {
    width: Width,
    tables: &'static Tables,
    last: Step,
}

pub fn steps(reduction: Reduction, width: Width) -> Steps {
    let tables = tables(width);
    let log = tables.reciprocal_log(reduction.cell.x, reduction.cell.y);
    let last = Step {
        n: FIRST_STEP - 1,
        digit: point(0, 0),
        point: reduction.point,
        answer: point(0, 0) - log,
    };
    Steps { width, tables, last }
}

impl Iterator for Steps {
    type Item = Step;

    fn next(&mut self) -> Option<Step> {
        let n = self.last.n + 1;
        if i64::from(n) > self.width.max_steps() {
            return None;
        }
        let digit = digit(self.last.point - point(self.width.one(), 0), n, self.width);
        self.last = Step {
            n,
            digit,
            point: self.last.point.step(digit, n),
            answer: self.last.answer - self.tables.step(n, digit),
        };
        Some(self.last)
    }
}

/// 01, Turned away: the first condition that holds.
fn refusal(input: Input, width: Width) -> Option<Refusal> {
    if !(i64::from(FIRST_STEP)..=width.max_steps()).contains(&input.n) {
        Some(Refusal::Steps)
    } else if input.point().larger_part() > width.max_part() {
        Some(Refusal::Part)
    } else if input.point() == point(0, 0) {
        Some(Refusal::ZeroPoint)
    } else {
        None
    }
}

pub fn log(input: Input, width: Width) -> Answer {
    if let Some(refusal) = refusal(input, width) {
        return Err(refusal);
    }
    let n = input.n as u32;
    let reduction = reduce(input.point(), width);
    let end = steps(reduction, width)
        .take((n + 1 - FIRST_STEP) as usize)
        .last()
        .expect("N is at least 3");
    let remainder = end.point - point(width.one(), 0);
    Ok(Figures {
        x: word(end.answer.x),
        y: word(end.answer.y),
        binary_exponent: reduction.binary_exponent.into(),
        quadrant: reduction.quadrant,
        error_bound: word(ceiling_quotient(3 * input.point().larger_part(), n)),
        remainder_x: word(remainder.x),
        remainder_y: word(remainder.y),
    })
}
