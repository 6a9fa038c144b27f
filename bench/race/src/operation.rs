//! EXP and LOG as the race sees them: their inputs, their versions, their exact error.

use crate::contenders::{other_exponentials, other_logarithms, Answer, Contender};
use reference::exponential::{rectangle, Input as Exp};
use reference::fixed::{Complex, Fixed};
use reference::logarithm::Input as Log;
use reference::point::{point, Point};
use reference::samples::{self, Random};
use reference::width::WIDTH_48;

/// Inputs that are raced: how they are called, and one of them for N.
pub struct Course<Input> {
    pub name: &'static str,
    pub draw: fn(&mut Random, i64) -> Input,
}

pub const EXP: Course<Exp> = Course { name: "EXP", draw: Exp::everyday };
pub const FAR_EXP: Course<Exp> =
    Course { name: "EXP with exponents up to eight", draw: up_to_eight };
pub const LOG: Course<Log> = Course { name: "LOG", draw: Log::everyday };

pub trait Operation: Copy + std::fmt::Debug {
    /// The C call.
    const PRODUCT: &'static str;
    /// Bits of the answer's numbers after the point: EXP answers in units, LOG in ones.
    const FRACTION_BITS: u32;

    /// An input of everyday size: parts up to one, so that an error in units means the same
    /// for every contender.
    fn everyday(random: &mut Random, n: i64) -> Self;
    /// Any input, most of them at edges, refused ones too.
    fn any(random: &mut Random) -> Self;
    fn product(self, out: &mut [u8]) -> i64;
    fn plain(self, out: &mut [u8]) -> i64;
    /// The plain version in C, where there is one.
    fn plain_c(self, out: &mut [u8]) -> i64;
    fn others() -> Vec<Contender<Self>>;
    /// What a record says, from the parts on.
    fn answer(numbers: [i64; 5]) -> Answer;
    /// The larger part of what demand 3 of 01 compares, in units.
    fn error(self, answer: &Answer) -> Fixed;
}

fn up_to_one(random: &mut Random) -> i64 {
    random.between(-WIDTH_48.one(), WIDTH_48.one()) as i64
}

pub fn plain_c() -> plain::c::Version {
    plain::c::VERSION.expect("the plain version in C")
}

fn whole(p: Point) -> Complex {
    Complex::ratio(p.x, p.y, 0)
}

/// Everyday starts with exponents that EXP reduces, all but one in a hundred.
fn up_to_eight(random: &mut Random, n: i64) -> Exp {
    let eight = WIDTH_48.max_exponent();
    let [ex, ey] = [(); 2].map(|_| random.between(-eight, eight) as i64);
    Exp { n, ex, ey, sx: up_to_one(random), sy: up_to_one(random) }
}

impl Operation for Exp {
    const PRODUCT: &'static str = "bkm_exp";
    const FRACTION_BITS: u32 = 0;

    fn everyday(random: &mut Random, n: i64) -> Exp {
        let [ex, ey] = rectangle(WIDTH_48).map(|(low, high)| random.between(low, high) as i64);
        Exp { n, ex, ey, sx: up_to_one(random), sy: up_to_one(random) }
    }

    fn any(random: &mut Random) -> Exp {
        samples::exp_input(random, WIDTH_48)
    }

    fn product(self, out: &mut [u8]) -> i64 {
        compare::exp(self, out)
    }

    fn plain(self, out: &mut [u8]) -> i64 {
        plain::engines::exp_record(self.n, self.ex, self.ey, self.sx, self.sy, out)
    }

    fn plain_c(self, out: &mut [u8]) -> i64 {
        (plain_c().exp_record)(self.n, self.ex, self.ey, self.sx, self.sy, out)
    }

    fn others() -> Vec<Contender<Exp>> {
        other_exponentials()
    }

    fn answer([x, y, k, _, bound]: [i64; 5]) -> Answer {
        // k is at least -12.
        let whole = |part: i64| i128::from(part) << (12 + k);
        Answer {
            value: Complex::ratio(whole(x), whole(y), 12),
            k: 0,
            q: 0,
            bound: Some(bound as f64 * 2f64.powi(k as i32)),
        }
    }

    fn error(self, answer: &Answer) -> Fixed {
        let exponent = Complex::ratio(self.ex.into(), self.ey.into(), 48);
        // 100 terms: for exponents up to eight 11.4^100/100! is below 2^-170.
        (answer.value - whole(self.start()) * exponent.exponential(100)).larger_part()
    }
}

impl Operation for Log {
    const PRODUCT: &'static str = "bkm_log";
    const FRACTION_BITS: u32 = 48;

    fn everyday(random: &mut Random, n: i64) -> Log {
        Log { n, x: up_to_one(random), y: up_to_one(random) }
    }

    fn any(random: &mut Random) -> Log {
        samples::log_input(random, WIDTH_48)
    }

    fn product(self, out: &mut [u8]) -> i64 {
        compare::log(self, out)
    }

    fn plain(self, out: &mut [u8]) -> i64 {
        plain::engines::log_record(self.n, self.x, self.y, out)
    }

    fn plain_c(self, out: &mut [u8]) -> i64 {
        (plain_c().log_record)(self.n, self.x, self.y, out)
    }

    fn others() -> Vec<Contender<Log>> {
        other_logarithms()
    }

    fn answer([x, y, k, q, bound]: [i64; 5]) -> Answer {
        let value = Complex::ratio(x.into(), y.into(), Log::FRACTION_BITS);
        Answer { value, k, q, bound: Some(bound as f64) }
    }

    /// How far the exponential of the answer is from the point.
    fn error(self, answer: &Answer) -> Fixed {
        let factor = point(1 << (48 + answer.k), 0).turned(answer.q);
        // 160 terms: a logarithm of an everyday point is at most 34 in size, and 34^160/160!
        // is below 2^-130.
        (whole(factor) * answer.value.exponential(160) - whole(self.point())).larger_part()
    }
}
