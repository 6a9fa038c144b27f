//! Doubles for the plotting desk (02, E8), by their bits: no floating point stands in here.

use crate::answer::{record, Answer, Refusal};
use crate::width::Width;

/// The digits of a double behind its leading one, and how many they are.
const DIGITS: u32 = 52;
const DIGITS_MASK: u64 = (1 << DIGITS) - 1;
/// What the exponent's field of one holds, and that of an infinity or what is not a number.
const BIAS: u32 = 1023;
const NOT_FINITE: u32 = 2047;

/// The bits of a number of units, at most 2^53 in size, over 2^F. Nought is plus zero.
pub fn bits_of(units: i64, width: Width) -> u64 {
    let size = units.unsigned_abs();
    assert!(size <= 1 << (DIGITS + 1));
    let Some(places) = size.checked_ilog2() else {
        return 0;
    };
    let exponent = BIAS + places - width.fraction_bits;
    // 2^53 itself has its leading digit one place further.
    let digits = (u128::from(size) << DIGITS >> places) as u64 & DIGITS_MASK;
    u64::from(units < 0) << 63 | u64::from(exponent) << DIGITS | digits
}

/// The number of units that a double is, where it is a whole one below 2^(F+1) in size; minus zero
/// is none.
pub fn units_of(bits: u64, width: Width) -> Option<i64> {
    let exponent = (bits >> DIGITS) as u32 & 0x7ff;
    match exponent {
        // Plus zero alone: what is left is minus zero or far below a unit.
        0 => return (bits == 0).then_some(0),
        NOT_FINITE => return None,
        _ => {}
    }
    let significand = i128::from(bits & DIGITS_MASK | 1 << DIGITS);
    // In units the double is the significand times 2^shift.
    let shift = exponent as i32 - (BIAS + DIGITS) as i32 + width.fraction_bits as i32;
    let size = match shift {
        0..=63 => significand << shift,
        -52..=-1 if significand.trailing_zeros() as i32 >= -shift => significand >> -shift,
        _ => return None,
    };
    let signed = if bits >> 63 == 1 { -size } else { size };
    (size < 2 * width.one()).then_some(signed as i64)
}

/// What LOG's call for doubles hands back: the refusal number or 0, and the bits of two doubles.
pub fn doubles_answer(answer: Answer, width: Width) -> (i64, [u64; 2]) {
    let [refusal, x, y, ..] = record(answer);
    (refusal, [x, y].map(|part| bits_of(part, width)))
}

/// What reading hands back: the refusal number or 0, and two numbers of units.
pub fn units_answer(bits: [u64; 2], width: Width) -> [i64; 3] {
    match bits.map(|bits| units_of(bits, width)) {
        [Some(x), Some(y)] => [0, x, y],
        _ => [Refusal::Double as i64, 0, 0],
    }
}
