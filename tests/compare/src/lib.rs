//! The product's C calls, wrapped, and its program.

pub mod program;

use reference::answer::{write_record, Answer, Figures, Record, RECORD_BYTES};
use reference::{exponential, logarithm};

// A lent buffer is passed as its address and its length.
extern "C" {
    fn bkm_exp(n: i64, ex: i64, ey: i64, sx: i64, sy: i64, out: *mut u8, len: usize) -> i64;
    fn bkm_exp_register(
        n: i64,
        ex: i64,
        ey: i64,
        sx: i64,
        sy: i64,
        out: *mut u8,
        len: usize,
    ) -> i64;
    fn bkm_log(n: i64, x: i64, y: i64, out: *mut u8, len: usize) -> i64;
    fn bkm_line(line: *const u8, line_len: usize, out: *mut u8, len: usize) -> usize;
    fn bkm_merge(
        a: *const u8,
        a_len: usize,
        b: *const u8,
        b_len: usize,
        out: *mut u8,
        len: usize,
    ) -> i64;
    fn bkm_merge_stopped_at(a: *const u8, a_len: usize, b: *const u8, b_len: usize) -> Stop;
    fn bkm_step_entry(n: usize, dx: i64, dy: i64, part: usize) -> i64;
    fn bkm_log_doubles(n: i64, x: i64, y: i64) -> DoublesAnswer;
    fn bkm_read_doubles(doubles: Doubles) -> UnitsAnswer;
}

// The structs of include/bkm.h, which go by value.

#[repr(C)]
struct Doubles {
    x: f64,
    y: f64,
}

#[repr(C)]
struct DoublesAnswer {
    refusal: i64,
    parts: Doubles,
}

#[repr(C)]
struct UnitsAnswer {
    refusal: i64,
    x: i64,
    y: i64,
}

#[repr(C)]
struct Stop {
    refusal: i64,
    first: usize,
    second: usize,
}

// Inlined, so that a test which makes one call links without the other.

#[inline]
pub fn exp(input: exponential::Input, out: &mut [u8]) -> i64 {
    let exponential::Input { n, ex, ey, sx, sy } = input;
    // SAFETY: the pointer and the length are those of one exclusive slice.
    unsafe { bkm_exp(n, ex, ey, sx, sy, out.as_mut_ptr(), out.len()) }
}

#[inline]
pub fn exp_register(input: exponential::Input, out: &mut [u8]) -> i64 {
    let exponential::Input { n, ex, ey, sx, sy } = input;
    // SAFETY: as above.
    unsafe { bkm_exp_register(n, ex, ey, sx, sy, out.as_mut_ptr(), out.len()) }
}

#[inline]
pub fn log(input: logarithm::Input, out: &mut [u8]) -> i64 {
    let logarithm::Input { n, x, y } = input;
    // SAFETY: as above.
    unsafe { bkm_log(n, x, y, out.as_mut_ptr(), out.len()) }
}

#[inline]
pub fn line(line: &[u8], out: &mut [u8]) -> usize {
    // SAFETY: as above, and the line is only read.
    unsafe { bkm_line(line.as_ptr(), line.len(), out.as_mut_ptr(), out.len()) }
}

#[inline]
pub fn merge(first: &[u8], second: &[u8], out: &mut [u8]) -> i64 {
    let (a, b) = (first.as_ptr(), second.as_ptr());
    // SAFETY: as above, and the sheets are only read.
    unsafe { bkm_merge(a, first.len(), b, second.len(), out.as_mut_ptr(), out.len()) }
}

/// The refusal number or 0, and the line of each sheet that it is due to.
#[inline]
pub fn merge_stopped_at(first: &[u8], second: &[u8]) -> (i64, [usize; 2]) {
    let (a, b) = (first.as_ptr(), second.as_ptr());
    // SAFETY: the sheets are only read.
    let stop = unsafe { bkm_merge_stopped_at(a, first.len(), b, second.len()) };
    (stop.refusal, [stop.first, stop.second])
}

#[inline]
pub fn step_entry(n: usize, dx: i64, dy: i64) -> (i64, i64) {
    // SAFETY: the call takes numbers alone.
    unsafe { (bkm_step_entry(n, dx, dy, 0), bkm_step_entry(n, dx, dy, 1)) }
}

/// The refusal number or 0, and the bits of both doubles.
#[inline]
pub fn log_doubles(input: logarithm::Input) -> (i64, [u64; 2]) {
    let logarithm::Input { n, x, y } = input;
    // SAFETY: the call takes numbers alone.
    let DoublesAnswer { refusal, parts: Doubles { x, y } } = unsafe { bkm_log_doubles(n, x, y) };
    (refusal, [x, y].map(f64::to_bits))
}

/// The refusal number or 0, and both numbers of units; of two doubles by their bits.
#[inline]
pub fn read_doubles(bits: [u64; 2]) -> [i64; 3] {
    let [x, y] = bits.map(f64::from_bits);
    // SAFETY: as above.
    let UnitsAnswer { refusal, x, y } = unsafe { bkm_read_doubles(Doubles { x, y }) };
    [refusal, x, y]
}

/// What a call hands back and writes into 64 bytes.
pub type Outcome = (i64, [u8; RECORD_BYTES]);

pub fn expected(answer: Answer) -> Outcome {
    let mut out = [0; RECORD_BYTES];
    (write_record(answer, &mut out), out)
}

pub fn observed(call: impl FnOnce(&mut [u8]) -> i64) -> Outcome {
    let mut out = [0xa5; RECORD_BYTES];
    (call(&mut out), out)
}

/// The numbers of a record, the first of which is also handed back.
pub fn numbers((handed, record): Outcome) -> Record {
    let numbers = std::array::from_fn(|i| {
        i64::from_le_bytes(record[8 * i..8 * i + 8].try_into().expect("eight bytes"))
    });
    assert_eq!(handed, numbers[0]);
    numbers
}

/// The figures of a record; none when refused.
fn figures(call: impl FnOnce(&mut [u8]) -> i64) -> Option<Figures> {
    let [refusal, x, y, binary_exponent, quadrant, error_bound, remainder_x, remainder_y] =
        numbers(observed(call));
    (refusal == 0).then_some(Figures {
        x,
        y,
        binary_exponent,
        quadrant,
        error_bound,
        remainder_x,
        remainder_y,
    })
}

#[inline]
pub fn exp_figures(input: exponential::Input) -> Option<Figures> {
    figures(|out| exp(input, out))
}

#[inline]
pub fn exp_register_figures(input: exponential::Input) -> Option<Figures> {
    figures(|out| exp_register(input, out))
}

#[inline]
pub fn log_figures(input: logarithm::Input) -> Option<Figures> {
    figures(|out| log(input, out))
}

/// Lends buffers of every length up to 200, at every alignment, between bytes that must
/// stay as they are.
pub fn check_buffers(answer: Answer, call: impl Fn(&mut [u8]) -> i64) {
    const MARGIN: usize = 64;
    for length in 0..=200 {
        for offset in 0..8 {
            let canary = |i: usize| (i * 37 + length * 11 + offset) as u8;
            let mut seen: Vec<u8> = (0..length + 2 * MARGIN).map(canary).collect();
            let mut wanted = seen.clone();
            let lent = MARGIN - offset..MARGIN - offset + length;
            let handed = call(&mut seen[lent.clone()]);
            assert_eq!(handed, write_record(answer, &mut wanted[lent]), "{length} bytes");
            assert_eq!(handed == 6, length < 64, "{length} bytes");
            assert_eq!(seen, wanted, "{length} bytes");
        }
    }
}
