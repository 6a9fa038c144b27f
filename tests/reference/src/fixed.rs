//! Signed fixed-point numbers with 320 fraction bits, complex pairs of them, and the
//! truncated exponential. An operation is off by at most one unit in the last place.

use std::cmp::Ordering;
use std::ops::{Add, Mul, Neg, Sub};

const LIMBS: usize = 7;
const FRACTION_LIMBS: usize = 5;
const FRACTION_BITS: u32 = 64 * FRACTION_LIMBS as u32;

/// Two's complement, the lowest limb first; the two highest are the whole part.
#[derive(Clone, Copy, PartialEq, Eq, Debug)]
pub struct Fixed([u64; LIMBS]);

impl Fixed {
    pub const ZERO: Fixed = Fixed([0; LIMBS]);
    pub const ONE: Fixed = Fixed([0, 0, 0, 0, 0, 1, 0]);

    /// whole / 2^bits, exactly.
    pub fn ratio(whole: i128, bits: u32) -> Fixed {
        assert!(bits <= FRACTION_BITS);
        let mut limbs = [(whole >> 127) as u64; LIMBS];
        limbs[0] = whole as u64;
        limbs[1] = (whole >> 64) as u64;
        Fixed(limbs).shifted_up(FRACTION_BITS - bits)
    }

    /// Times 2^bits; the caller knows that nothing is lost at the top.
    pub fn shifted_up(self, bits: u32) -> Fixed {
        let (skip, shift) = ((bits / 64) as usize, bits % 64);
        let limb = |i: usize| i.checked_sub(skip).map_or(0, |j| u128::from(self.0[j]));
        Fixed(std::array::from_fn(|i| {
            let below = if i > 0 { limb(i - 1) } else { 0 };
            (((limb(i) << 64 | below) << shift) >> 64) as u64
        }))
    }

    pub fn is_negative(self) -> bool {
        self.0[LIMBS - 1] >> 63 == 1
    }

    pub fn abs(self) -> Fixed {
        if self.is_negative() {
            -self
        } else {
            self
        }
    }

    fn signed(self, negative: bool) -> Fixed {
        if negative {
            -self
        } else {
            self
        }
    }

    pub fn divided_by(self, divisor: u64) -> Fixed {
        let mut out = self.abs().0;
        let mut rest = 0u128;
        for limb in out.iter_mut().rev() {
            let value = rest << 64 | u128::from(*limb);
            *limb = (value / u128::from(divisor)) as u64;
            rest = value % u128::from(divisor);
        }
        Fixed(out).signed(self.is_negative())
    }

    /// The whole number below or equal.
    pub fn floor(self) -> i128 {
        (u128::from(self.0[FRACTION_LIMBS + 1]) << 64 | u128::from(self.0[FRACTION_LIMBS])) as i128
    }

    /// The nearest whole number of 1/2^bits. A value within 2^-100 of a tie is refused,
    /// so that the rounding is right although the last places are not.
    pub fn nearest(self, bits: u32) -> i128 {
        let moved = self.shifted_up(bits) + Fixed::ratio(1, 1);
        let top =
            u128::from(moved.0[FRACTION_LIMBS - 1]) << 64 | u128::from(moved.0[FRACTION_LIMBS - 2]);
        let top = top >> 28;
        assert!(top != 0 && top != (1 << 100) - 1, "too near a tie to round");
        moved.floor()
    }

    /// Roughly, for reports.
    pub fn to_f64(self) -> f64 {
        self.floor() as f64 + self.0[FRACTION_LIMBS - 1] as f64 / 2f64.powi(64)
    }

    /// A double below 16 in size, cut after 110 fraction bits.
    pub fn from_f64(value: f64) -> Fixed {
        Fixed::ratio((value * 2f64.powi(110)) as i128, 110)
    }
}

impl Add for Fixed {
    type Output = Fixed;
    fn add(self, other: Fixed) -> Fixed {
        let mut carry = 0u128;
        Fixed(std::array::from_fn(|i| {
            let sum = u128::from(self.0[i]) + u128::from(other.0[i]) + carry;
            carry = sum >> 64;
            sum as u64
        }))
    }
}

impl Neg for Fixed {
    type Output = Fixed;
    fn neg(self) -> Fixed {
        let mut flipped = self.0.map(|limb| !limb);
        for limb in flipped.iter_mut() {
            let (sum, over) = limb.overflowing_add(1);
            *limb = sum;
            if !over {
                break;
            }
        }
        Fixed(flipped)
    }
}

impl Sub for Fixed {
    type Output = Fixed;
    fn sub(self, other: Fixed) -> Fixed {
        self + -other
    }
}

impl Mul for Fixed {
    type Output = Fixed;
    fn mul(self, other: Fixed) -> Fixed {
        let (a, b) = (self.abs().0, other.abs().0);
        let mut product = [0u64; 2 * LIMBS];
        for i in 0..LIMBS {
            let mut carry = 0u128;
            for j in 0..LIMBS {
                let sum = u128::from(a[i]) * u128::from(b[j]) + u128::from(product[i + j]) + carry;
                product[i + j] = sum as u64;
                carry = sum >> 64;
            }
            product[i + LIMBS] = carry as u64;
        }
        let (kept, over) = product[FRACTION_LIMBS..].split_at(LIMBS);
        assert!(over.iter().all(|&limb| limb == 0) && kept[LIMBS - 1] >> 63 == 0, "overflow");
        let mut out = [0; LIMBS];
        out.copy_from_slice(kept);
        Fixed(out).signed(self.is_negative() != other.is_negative())
    }
}

impl Ord for Fixed {
    fn cmp(&self, other: &Fixed) -> Ordering {
        let sign = other.is_negative().cmp(&self.is_negative());
        sign.then_with(|| self.0.iter().rev().cmp(other.0.iter().rev()))
    }
}

impl PartialOrd for Fixed {
    fn partial_cmp(&self, other: &Fixed) -> Option<Ordering> {
        Some(self.cmp(other))
    }
}

#[derive(Clone, Copy, PartialEq, Eq, Debug)]
pub struct Complex {
    pub re: Fixed,
    pub im: Fixed,
}

impl Complex {
    pub const ZERO: Complex = Complex { re: Fixed::ZERO, im: Fixed::ZERO };
    pub const ONE: Complex = Complex { re: Fixed::ONE, im: Fixed::ZERO };

    /// (x + iy) / 2^bits, exactly.
    pub fn ratio(x: i128, y: i128, bits: u32) -> Complex {
        Complex { re: Fixed::ratio(x, bits), im: Fixed::ratio(y, bits) }
    }

    /// The square of the length.
    pub fn norm(self) -> Fixed {
        self.re * self.re + self.im * self.im
    }

    /// The larger part in size.
    pub fn larger_part(self) -> Fixed {
        self.re.abs().max(self.im.abs())
    }

    /// 01, What demand 3 compares: the sum of z^j/j! for j from 0 to terms - 1.
    pub fn exponential(self, terms: u64) -> Complex {
        let mut sum = Complex::ZERO;
        let mut term = Complex::ONE;
        for j in 1..=terms {
            sum = sum + term;
            let next = term * self;
            term = Complex { re: next.re.divided_by(j), im: next.im.divided_by(j) };
        }
        sum
    }
}

impl Add for Complex {
    type Output = Complex;
    fn add(self, other: Complex) -> Complex {
        Complex { re: self.re + other.re, im: self.im + other.im }
    }
}

impl Neg for Complex {
    type Output = Complex;
    fn neg(self) -> Complex {
        Complex { re: -self.re, im: -self.im }
    }
}

impl Sub for Complex {
    type Output = Complex;
    fn sub(self, other: Complex) -> Complex {
        self + -other
    }
}

impl Mul for Complex {
    type Output = Complex;
    fn mul(self, other: Complex) -> Complex {
        Complex {
            re: self.re * other.re - self.im * other.im,
            im: self.re * other.im + self.im * other.re,
        }
    }
}
