//! Points in units, and the step.

use std::ops::{Add, Sub};

#[derive(Clone, Copy, PartialEq, Eq, Debug)]
pub struct Point {
    pub x: i128,
    pub y: i128,
}

/// A point with parts -1, 0 or 1.
pub type Digit = Point;

pub fn point(x: i128, y: i128) -> Point {
    Point { x, y }
}

/// How a number over 2^n becomes whole.
pub type Quotient = fn(i128, u32) -> i128;

/// floor(a / 2^n): `>>` keeps the sign, so it goes towards minus infinity.
pub fn floor_quotient(a: i128, n: u32) -> i128 {
    a >> n
}

/// floor(a / 2^n + 1/2): the nearest, and of two the upper one.
pub fn nearest_quotient(a: i128, n: u32) -> i128 {
    floor_quotient(2 * a + (1 << n), n + 1)
}

/// ceil(a / 2^n).
pub fn ceiling_quotient(a: i128, n: u32) -> i128 {
    -floor_quotient(-a, n)
}

/// An answer's number, which 01's bounds keep within 64 bits.
pub fn word(value: i128) -> i64 {
    value.try_into().expect("a number of 64 bits")
}

impl Point {
    /// The product as complex whole numbers.
    pub fn times(self, other: Point) -> Point {
        point(self.x * other.x - self.y * other.y, self.x * other.y + self.y * other.x)
    }

    /// i^quarters times the point.
    pub fn turned(self, quarters: i64) -> Point {
        (0..quarters.rem_euclid(4)).fold(self, |p, _| point(-p.y, p.x))
    }

    /// 01, The step, with the quotients of 02, E1: both are taken from the old pair.
    pub fn step(self, digit: Digit, n: u32) -> Point {
        self.step_by(nearest_quotient, digit, n)
    }

    /// The same with another quotient.
    pub fn step_by(self, quotient: Quotient, digit: Digit, n: u32) -> Point {
        let product = digit.times(self);
        self + point(quotient(product.x, n), quotient(product.y, n))
    }

    /// Both parts times 2^bits.
    pub fn shifted_up(self, bits: u32) -> Point {
        self.times(point(1 << bits, 0))
    }

    /// M of the error bounds: the larger part in size.
    pub fn larger_part(self) -> i128 {
        self.x.abs().max(self.y.abs())
    }
}

impl Add for Point {
    type Output = Point;
    fn add(self, other: Point) -> Point {
        point(self.x + other.x, self.y + other.y)
    }
}

impl Sub for Point {
    type Output = Point;
    fn sub(self, other: Point) -> Point {
        point(self.x - other.x, self.y - other.y)
    }
}
