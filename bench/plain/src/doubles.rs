//! LOG in doubles, and doubles read back.

use crate::engines::{log, Refusal};

#[repr(C)]
#[derive(Clone, Copy, PartialEq, Debug)]
pub struct Doubles {
    pub x: f64,
    pub y: f64,
}

#[repr(C)]
#[derive(Clone, Copy, PartialEq, Debug)]
pub struct DoublesAnswer {
    pub refusal: i64,
    pub parts: Doubles,
}

#[repr(C)]
#[derive(Clone, Copy, PartialEq, Eq, Debug)]
pub struct UnitsAnswer {
    pub refusal: i64,
    pub x: i64,
    pub y: i64,
}

const ONE: f64 = (1u64 << 48) as f64;

// Not inlined, as the product's calls cannot be.

#[inline(never)]
pub fn log_doubles(n: i64, x: i64, y: i64) -> DoublesAnswer {
    match log(n, x, y) {
        Ok(f) => DoublesAnswer {
            refusal: 0,
            parts: Doubles { x: f.x as f64 / ONE, y: f.y as f64 / ONE },
        },
        Err(refusal) => {
            DoublesAnswer { refusal: refusal as i64, parts: Doubles { x: 0.0, y: 0.0 } }
        }
    }
}

fn units(x: f64) -> Option<i64> {
    let product = x * ONE;
    let whole = product.trunc() == product && product.abs() < 2.0 * ONE;
    (whole && (x != 0.0 || x.is_sign_positive())).then_some(product as i64)
}

#[inline(never)]
pub fn read_doubles(doubles: Doubles) -> UnitsAnswer {
    match (units(doubles.x), units(doubles.y)) {
        (Some(x), Some(y)) => UnitsAnswer { refusal: 0, x, y },
        _ => UnitsAnswer { refusal: Refusal::Double as i64, x: 0, y: 0 },
    }
}
