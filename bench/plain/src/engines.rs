//! EXP, by the exponent and by the register, and LOG, and the record of 64 bytes that the C calls
//! fill.

use crate::tables::{EIGHTH_TURN, HALF_LN_2, LN_2, RECIPROCAL_LOGS, STEPS};

#[derive(Clone, Copy, PartialEq, Eq, Debug)]
pub enum Refusal {
    Steps = 1,
    Exponent = 2,
    Part = 3,
    ZeroPoint = 4,
    Line = 5,
    Buffer = 6,
    Serial = 7,
    Clash = 8,
    Double = 9,
}

#[derive(Clone, Copy, PartialEq, Eq, Debug)]
pub struct Figures {
    pub x: i64,
    pub y: i64,
    pub k: i64,
    pub q: i64,
    pub bound: i64,
    pub remainder_x: i64,
    pub remainder_y: i64,
}

const ONE: i64 = 1 << 48;
const MAX_EXPONENT: i64 = 8 * ONE;
const MAX_PART: i64 = 1 << 58;

/// Rounded to the nearest: `half` is half of 2^n. Each engine makes it in the form that is the
/// fastest there.
fn step(x: i64, y: i64, dx: i64, dy: i64, n: i64, half: i64) -> (i64, i64) {
    (x + ((dx * x - dy * y + half) >> n), y + ((dx * y + dy * x + half) >> n))
}

type Entries = [[(i64, i64); 3]; 3];

/// The steps from `first` to `last`, each with its entries.
fn steps(first: i64, last: i64) -> impl Iterator<Item = (i64, &'static Entries)> {
    (first..).zip(&STEPS[first as usize - 1..last as usize])
}

fn entry(entries: &Entries, dx: i64, dy: i64) -> (i64, i64) {
    entries[(dx + 1) as usize][(dy + 1) as usize]
}

fn part_is_refused(part: i64) -> bool {
    !(-MAX_PART..=MAX_PART).contains(&part)
}

/// factor·M/2^n rounded up.
fn share(factor: i64, x: i64, y: i64, n: i64) -> i64 {
    let larger = x.abs().max(y.abs());
    (factor * larger + (1 << n) - 1) >> n
}

fn exponent_part_is_refused(part: i64) -> bool {
    !(-MAX_EXPONENT..=MAX_EXPONENT).contains(&part)
}

fn in_rectangle(ex: i64, ey: i64) -> bool {
    (-53 * ONE / 64..=55 * ONE / 64).contains(&ex) && (-47 * ONE / 64..=47 * ONE / 64).contains(&ey)
}

/// floor(part/unit + 1/2)
fn nearest_multiple(part: i64, unit: i64) -> i64 {
    (2 * part + unit).div_euclid(2 * unit)
}

/// What EXP's steps are given, with k and the bound of what they answer.
struct Reduced {
    ex: i64,
    ey: i64,
    x: i64,
    y: i64,
    k: i64,
    bound: i64,
}

// Inlined in both engines, as EXP is slower with a call.
#[inline(always)]
fn reduced(n: i64, ex: i64, ey: i64, sx: i64, sy: i64) -> Result<Reduced, Refusal> {
    if !(1..=40).contains(&n) {
        return Err(Refusal::Steps);
    }
    if exponent_part_is_refused(ex) || exponent_part_is_refused(ey) {
        return Err(Refusal::Exponent);
    }
    if part_is_refused(sx) || part_is_refused(sy) {
        return Err(Refusal::Part);
    }
    let (mut ex, mut ey, mut x, mut y, mut k) = (ex, ey, sx, sy, 0);
    if !in_rectangle(ex, ey) {
        let p = nearest_multiple(ey, EIGHTH_TURN);
        ey -= p * EIGHTH_TURN;
        ex -= (p & 1) * HALF_LN_2;
        // The start times (1 + i)^p, but for the powers of two.
        (x, y) = if p & 1 == 0 { (x, y) } else { (x - y, x + y) };
        (x, y) = if p & 2 == 0 { (x, y) } else { (-y, x) };
        (x, y) = if p & 4 == 0 { (x, y) } else { (-x, -y) };
        k = nearest_multiple(ex, LN_2);
        ex -= k * LN_2;
    }
    Ok(Reduced { ex, ey, x, y, k, bound: share(8, x, y, n) + 2 * n })
}

pub fn exp(n: i64, ex: i64, ey: i64, sx: i64, sy: i64) -> Result<Figures, Refusal> {
    let Reduced { mut ex, mut ey, mut x, mut y, k, bound } = reduced(n, ex, ey, sx, sy)?;
    let digit = |e: i64, low: i64, high: i64| i64::from(e >= high) - i64::from(e < low);
    for (i, entries) in steps(1, n) {
        let dx = digit(ex, (-ONE / 2) >> i, (ONE / 8 * 3) >> i);
        let dy = digit(ey, (-ONE / 4 * 3) >> i, (ONE / 16 * 13) >> i);
        let (re, im) = entry(entries, dx, dy);
        (x, y) = step(x, y, dx, dy, i, 1 << (i - 1));
        ex -= re;
        ey -= im;
    }
    Ok(Figures { x, y, k, q: 0, bound, remainder_x: ex, remainder_y: ey })
}

/// EXP by the register, which is 2^i times the exponent before step i.
pub fn exp_register(n: i64, ex: i64, ey: i64, sx: i64, sy: i64) -> Result<Figures, Refusal> {
    let Reduced { ex, ey, mut x, mut y, k, bound } = reduced(n, ex, ey, sx, sy)?;
    let (mut rx, mut ry) = (2 * ex, 2 * ey);
    let digit = |cut: i64, low: i64, high: i64| i64::from(cut >= high) - i64::from(cut <= low);
    for (i, entries) in steps(1, n) {
        // Looked at are x in eighths and y in sixteenths.
        let (dx, dy) = (digit(rx >> 45, -5, 3), digit(ry >> 44, -13, 13));
        let (re, im) = entry(entries, dx, dy);
        (x, y) = step(x, y, dx, dy, i, 1 << (i - 1));
        rx = 2 * rx - (re << (i + 1));
        ry = 2 * ry - (im << (i + 1));
    }
    let (remainder_x, remainder_y) = (rx >> (n + 1), ry >> (n + 1));
    Ok(Figures { x, y, k, q: 0, bound, remainder_x, remainder_y })
}

/// 64 times the reciprocal of (x + iy)/32, each part as floor(value + 1/2). One division serves
/// both: 2^27/S is cut, but no part is so near a half that it would tell.
fn reciprocal(x: i32, y: i32) -> (i64, i64) {
    let one_over_s = ((1 << 27) / (x * x + y * y) as u32) as i32;
    let part = |value: i32| i64::from((value + (1 << 15)) >> 16);
    (part(one_over_s * x), part(-one_over_s * y))
}

pub fn log(n: i64, px: i64, py: i64) -> Result<Figures, Refusal> {
    if !(3..=40).contains(&n) {
        return Err(Refusal::Steps);
    }
    if part_is_refused(px) || part_is_refused(py) {
        return Err(Refusal::Part);
    }
    if (px, py) == (0, 0) {
        return Err(Refusal::ZeroPoint);
    }
    // The point is i^q·(wx + i·wy) with -wx < wy <= wx; half a turn is written -2 where wy is above zero.
    let (q, wx, wy) = if -px < py && py <= px {
        (0, px, py)
    } else if -py < -px && -px <= py {
        (1, py, -px)
    } else if px < -py && -py <= -px {
        (if py < 0 { -2 } else { 2 }, -px, -py)
    } else {
        (-1, -py, px)
    };
    let k = 16 - i64::from(wx.leading_zeros());
    let scale = |part: i64| if k <= 0 { part << -k } else { part >> k };
    let (wx, wy) = (scale(wx), scale(wy));
    // Cells have side 1/16; X = 17 is the first, from 8/16 on, and Y = -31 from -16/16 on.
    let (column, row) = ((wx >> 44) as i32, (wy >> 44) as i32);
    let (a, b) = reciprocal(2 * column + 1, 2 * row + 1);
    let (mut x, mut y) = ((a * wx - b * wy) >> 6, (a * wy + b * wx) >> 6);
    let (re, im) = RECIPROCAL_LOGS[column as usize - 8][(row + 16) as usize];
    let (mut answer_x, mut answer_y) = (-re, -im);
    for (i, entries) in steps(3, n) {
        let half = (ONE / 2) >> i;
        let digit = |u: i64| i64::from(u <= -half) - i64::from(u >= half);
        let (dx, dy) = (digit(x - ONE), digit(y));
        let (re, im) = entry(entries, dx, dy);
        (x, y) = step(x, y, dx, dy, i, (1 << 62) >> (63 - i));
        answer_x -= re;
        answer_y -= im;
    }
    let bound = share(3, px, py, n);
    Ok(Figures { x: answer_x, y: answer_y, k, q, bound, remainder_x: x - ONE, remainder_y: y })
}

/// What the C calls write and hand back.
fn write_record(answer: Result<Figures, Refusal>, out: &mut [u8]) -> i64 {
    if out.len() < 64 {
        return Refusal::Buffer as i64;
    }
    let numbers = match answer {
        Ok(f) => [0, f.x, f.y, f.k, f.q, f.bound, f.remainder_x, f.remainder_y],
        Err(refusal) => [refusal as i64, 0, 0, 0, 0, 0, 0, 0],
    };
    for (bytes, number) in out.chunks_exact_mut(8).zip(numbers) {
        bytes.copy_from_slice(&number.to_le_bytes());
    }
    numbers[0]
}

// Not inlined, as the product's calls cannot be.

#[inline(never)]
pub fn exp_record(n: i64, ex: i64, ey: i64, sx: i64, sy: i64, out: &mut [u8]) -> i64 {
    write_record(exp(n, ex, ey, sx, sy), out)
}

#[inline(never)]
pub fn exp_register_record(n: i64, ex: i64, ey: i64, sx: i64, sy: i64, out: &mut [u8]) -> i64 {
    write_record(exp_register(n, ex, ey, sx, sy), out)
}

#[inline(never)]
pub fn log_record(n: i64, x: i64, y: i64, out: &mut [u8]) -> i64 {
    write_record(log(n, x, y), out)
}
