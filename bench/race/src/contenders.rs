//! Who runs: the product, the plain versions, and the libraries of other.c.

use crate::operation::Operation;
use reference::answer::RECORD_BYTES;
use reference::exponential::Input as Exp;
use reference::fixed::Complex;
use reference::logarithm::Input as Log;
use std::hint::black_box;

/// What an answer stands for: EXP's value in units, its k included; LOG's logarithm, with k and q.
pub struct Answer {
    pub value: Complex,
    pub k: i64,
    pub q: i64,
    /// The bound that came with the answer, in units.
    pub bound: Option<f64>,
}

pub struct Contender<Input> {
    pub name: String,
    /// N, for those that have steps.
    pub steps: Option<i64>,
    /// How far its bound is to be trusted.
    pub bound: &'static str,
    /// Calls once for each input, with nothing between the calls.
    pub batch: fn(&[Input]),
    pub answer: fn(Input) -> Answer,
}

/// N of the runs.
pub const STEPS: [i64; 2] = [20, 40];

/// The product first.
pub fn contenders<Input: Operation>() -> Vec<Contender<Input>> {
    let mut all = Vec::new();
    for n in STEPS {
        all.push(Contender {
            name: format!("{}, N = {n}", Input::PRODUCT),
            steps: Some(n),
            bound: "proved for every input",
            batch: |inputs| fill_records(inputs, Input::product),
            answer: |input| from_record(input, Input::product),
        });
        all.push(Contender {
            name: format!("plain Rust, N = {n}"),
            steps: Some(n),
            bound: "the same figure, unproved",
            batch: |inputs| fill_records(inputs, Input::plain),
            answer: |input| from_record(input, Input::plain),
        });
        if plain::c::VERSION.is_some() {
            all.push(Contender {
                name: format!("plain C, N = {n}"),
                steps: Some(n),
                bound: "the same figure, unproved",
                batch: |inputs| fill_records(inputs, Input::plain_c),
                answer: |input| from_record(input, Input::plain_c),
            });
        }
    }
    all.extend(Input::others());
    all
}

#[inline(always)]
pub fn fill_records<Input: Copy>(inputs: &[Input], call: impl Fn(Input, &mut [u8]) -> i64) {
    let mut out = [0; RECORD_BYTES];
    for &input in inputs {
        call(input, &mut out);
        black_box(&mut out);
    }
}

fn from_record<Input: Operation>(input: Input, call: fn(Input, &mut [u8]) -> i64) -> Answer {
    let mut out = [0; RECORD_BYTES];
    assert_eq!(call(input, &mut out), 0, "refused");
    let number = |i: usize| i64::from_le_bytes(out[8 * i..8 * i + 8].try_into().unwrap());
    Input::answer([1, 2, 3, 4, 5].map(number))
}

extern "C" {
    fn double_exp(ex: i64, ey: i64, sx: i64, sy: i64);
    fn double_log(x: i64, y: i64);
    fn double_answer(bits: i32, parts: *mut i128) -> f64;
    fn long_exp(ex: i64, ey: i64, sx: i64, sy: i64);
    fn long_log(x: i64, y: i64);
    fn long_answer(bits: i32, parts: *mut i128) -> f64;
}

#[cfg(mpc)]
extern "C" {
    fn mpc64_exp(ex: i64, ey: i64, sx: i64, sy: i64);
    fn mpc64_log(x: i64, y: i64);
    fn mpc64_answer(bits: i32, parts: *mut i128) -> f64;
}

#[cfg(arb)]
extern "C" {
    fn arb64_exp(ex: i64, ey: i64, sx: i64, sy: i64);
    fn arb64_log(x: i64, y: i64);
    fn arb64_answer(bits: i32, parts: *mut i128) -> f64;
}

/// The last answer of a library, with 62 bits more than the product's.
fn handed_out<Input: Operation>(answer: unsafe extern "C" fn(i32, *mut i128) -> f64) -> Answer {
    let bits = Input::FRACTION_BITS + 62;
    let mut parts = [0i128; 2];
    // SAFETY: the function writes two numbers.
    let bound = unsafe { answer(bits as i32, parts.as_mut_ptr()) };
    Answer {
        value: Complex::ratio(parts[0], parts[1], bits),
        k: 0,
        q: 0,
        bound: (!bound.is_nan()).then_some(bound * 2f64.powi(Input::FRACTION_BITS as i32)),
    }
}

/// A contender of other.c. SAFETY of its calls: they take any numbers, on one thread.
macro_rules! other {
    ($input:ident ($($field:ident),*), $name:expr, $bound:expr, $call:ident, $answer:ident) => {
        Contender {
            name: $name.to_string(),
            steps: None,
            bound: $bound,
            batch: |inputs| inputs.iter().for_each(|i| unsafe { $call($(i.$field),*) }),
            answer: |i: $input| {
                unsafe { $call($(i.$field),*) };
                handed_out::<$input>($answer)
            },
        }
    };
}

const NONE: &str = "none";
#[cfg(mpc)]
const ROUNDED: &str = "stated: each operation rounded to nearest";
#[cfg(arb)]
const BALL: &str = "with each answer";

pub fn other_exponentials() -> Vec<Contender<Exp>> {
    vec![
        other!(Exp(ex, ey, sx, sy), "cexp, double", NONE, double_exp, double_answer),
        other!(Exp(ex, ey, sx, sy), "cexpl, long double", NONE, long_exp, long_answer),
        #[cfg(mpc)]
        other!(Exp(ex, ey, sx, sy), "GNU MPC, 64 bits", ROUNDED, mpc64_exp, mpc64_answer),
        #[cfg(arb)]
        other!(Exp(ex, ey, sx, sy), "Arb, 64 bits", BALL, arb64_exp, arb64_answer),
    ]
}

pub fn other_logarithms() -> Vec<Contender<Log>> {
    vec![
        other!(Log(x, y), "clog, double", NONE, double_log, double_answer),
        other!(Log(x, y), "clogl, long double", NONE, long_log, long_answer),
        #[cfg(mpc)]
        other!(Log(x, y), "GNU MPC, 64 bits", ROUNDED, mpc64_log, mpc64_answer),
        #[cfg(arb)]
        other!(Log(x, y), "Arb, 64 bits", BALL, arb64_log, arb64_answer),
    ]
}

/// What is missing here, and the package that would bring it.
pub fn missing() -> Vec<&'static str> {
    let mut missing = Vec::new();
    if plain::c::VERSION.is_none() {
        missing.push("plain C (the clang that comes with rt, or the one that BKM_CLANG names)");
    }
    if !cfg!(mpc) {
        missing.push("GNU MPC (libmpc-dev)");
    }
    if !cfg!(arb) {
        missing.push("Arb (libflint-arb-dev, from FLINT 3 on libflint-dev)");
    }
    missing
}
