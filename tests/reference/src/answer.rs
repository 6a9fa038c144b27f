//! What a call hands out: figures or a refusal, and the record of the C calls.

use crate::point::{point, Point};

#[derive(Clone, Copy, PartialEq, Eq, Debug)]
pub enum Refusal {
    Steps = 1,
    Exponent = 2,
    Part = 3,
    ZeroPoint = 4,
    Line = 5,
    Buffer = 6,
    Serial = 7,
    Clash = 8,
    Double = 9,
}

#[derive(Clone, Copy, PartialEq, Eq, Debug)]
pub struct Figures {
    pub x: i64,
    pub y: i64,
    /// k of 01, and of 02, E5 for EXP.
    pub binary_exponent: i64,
    /// q of 01, 0 for EXP.
    pub quadrant: i64,
    /// The "column" of 01.
    pub error_bound: i64,
    /// 02, E7: what the steps leave of EXP's exponent, or LOG's point less one.
    pub remainder_x: i64,
    pub remainder_y: i64,
}

impl Figures {
    pub fn parts(self) -> Point {
        point(self.x.into(), self.y.into())
    }

    pub fn remainder(self) -> Point {
        point(self.remainder_x.into(), self.remainder_y.into())
    }
}

pub type Answer = Result<Figures, Refusal>;

/// Refusal number or 0, the parts, k, q, error bound, the parts of the remainder; all figures 0 when
/// refused.
pub type Record = [i64; 8];

/// The bytes of a record: signed numbers of eight.
pub const RECORD_BYTES: usize = 64;

pub fn record(answer: Answer) -> Record {
    match answer {
        Ok(Figures { x, y, binary_exponent, quadrant, error_bound, remainder_x, remainder_y }) => {
            [0, x, y, binary_exponent, quadrant, error_bound, remainder_x, remainder_y]
        }
        Err(refusal) => [refusal as i64, 0, 0, 0, 0, 0, 0, 0],
    }
}

/// 01, Points and units: what a C call writes and hands back.
pub fn write_record(answer: Answer, out: &mut [u8]) -> i64 {
    if out.len() < RECORD_BYTES {
        return Refusal::Buffer as i64;
    }
    let numbers = record(answer);
    for (bytes, number) in out.chunks_exact_mut(8).zip(numbers) {
        bytes.copy_from_slice(&number.to_le_bytes());
    }
    numbers[0]
}
