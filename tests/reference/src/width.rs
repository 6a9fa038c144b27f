//! The width: how many fraction bits a number has. 01 fixes 48.

#[derive(Clone, Copy, PartialEq, Eq, Debug)]
pub struct Width {
    pub fraction_bits: u32,
}

pub const WIDTH_32: Width = Width { fraction_bits: 32 };
pub const WIDTH_40: Width = Width { fraction_bits: 40 };
pub const WIDTH_48: Width = Width { fraction_bits: 48 };
pub const WIDTHS: [Width; 3] = [WIDTH_32, WIDTH_40, WIDTH_48];

impl Width {
    /// One, in units.
    pub fn one(self) -> i128 {
        1 << self.fraction_bits
    }

    /// The largest N.
    pub fn max_steps(self) -> i64 {
        i64::from(self.fraction_bits) - 8
    }

    /// The largest size of an exponent part, eight (02, E5): 2^51 at width 48.
    pub fn max_exponent(self) -> i128 {
        8 * self.one()
    }

    /// The largest size of a start part or a point part: 2^58 at width 48.
    pub fn max_part(self) -> i128 {
        1 << (self.fraction_bits + 10)
    }
}
