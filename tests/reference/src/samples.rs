//! Inputs for the tests: the same ones at every run, most of them at edges.

use crate::doubles::bits_of;
use crate::edges::doubles;
use crate::exponential::{self, rectangle, CUT};
use crate::logarithm::{self, reduce, FIRST_STEP};
use crate::point::{floor_quotient, point, Point};
use crate::sheet::{parse, write_line, Call, Line};
use crate::tables::{tables, Tables};
use crate::width::Width;

/// Steele, Lea and Flood's splitmix64.
pub struct Random(u64);

impl Random {
    pub fn new(seed: u64) -> Random {
        Random(seed)
    }

    pub fn draw(&mut self) -> u64 {
        self.0 = self.0.wrapping_add(0x9e37_79b9_7f4a_7c15);
        let mut z = self.0;
        z = (z ^ (z >> 30)).wrapping_mul(0xbf58_476d_1ce4_e5b9);
        z = (z ^ (z >> 27)).wrapping_mul(0x94d0_49bb_1331_11eb);
        z ^ (z >> 31)
    }

    /// From low to high, both included.
    pub fn between(&mut self, low: i128, high: i128) -> i128 {
        low + i128::from(self.draw()).rem_euclid(high - low + 1)
    }

    pub fn one_in(&mut self, count: i128) -> bool {
        self.between(1, count) == 1
    }

    pub fn pick<T: Copy>(&mut self, choices: &[T]) -> T {
        choices[self.between(0, choices.len() as i128 - 1) as usize]
    }

    /// -1, 0 or 1.
    fn nudge(&mut self) -> i128 {
        self.between(-1, 1)
    }
}

/// As a call takes it: cut to 64 bits.
fn word(value: i128) -> i64 {
    value.clamp(i64::MIN.into(), i64::MAX.into()) as i64
}

/// N, now and then a refused one.
fn steps(random: &mut Random, lowest: i64, width: Width) -> i64 {
    let highest = width.max_steps();
    match random.between(0, 31) {
        0 => random.pick(&[lowest - 1, highest + 1, 0, -1, i64::MIN, i64::MAX]),
        1..=8 => highest,
        9..=11 => lowest,
        _ => word(random.between(lowest.into(), highest.into())),
    }
}

/// A start part or point part, now and then a refused one.
fn part(random: &mut Random, width: Width) -> i128 {
    let limit = width.max_part();
    let bits = random.between(0, (width.fraction_bits + 10).into()) as u32;
    let power = 1i128 << bits;
    match random.between(0, 15) {
        0..=4 => random.between(-limit, limit),
        5..=8 => random.between(-power, power),
        9..=12 => (random.pick(&[-1, 1]) * power + random.nudge()).clamp(-limit, limit),
        13 => random.pick(&[0, 1, -1]),
        14 => random.pick(&[limit, -limit]),
        _ if random.one_in(4) => {
            random.pick(&[limit + 1, -limit - 1, i64::MIN.into(), i64::MAX.into()])
        }
        _ => 0,
    }
}

/// A part of an exponent for the rectangle, now and then outside.
fn exponent_part(random: &mut Random, (low, high): (i128, i128), width: Width) -> i128 {
    match random.between(0, 15) {
        0..=7 => random.between(low, high),
        8..=10 => {
            let bits = random.between(0, width.fraction_bits.into()) as u32;
            (random.pick(&[-1, 1]) * (1 << bits) + random.nudge()).clamp(low, high)
        }
        11 => random.pick(&[low, high]),
        12..=14 => 0,
        _ if random.one_in(4) => {
            random.pick(&[low - 1, high + 1, i64::MIN.into(), i64::MAX.into()])
        }
        _ => random.pick(&[low + 1, high - 1]),
    }
}

/// An exponent that meets a threshold of EXP at some step, give or take a unit:
/// the steps before it move every near exponent by the same amount.
fn exponent_at_threshold(random: &mut Random, width: Width) -> Point {
    let [xs, ys] = rectangle(width);
    let given = point(random.between(xs.0, xs.1), random.between(ys.0, ys.1));
    let before = random.between(0, i128::from(width.max_steps()) - 1) as u32;
    let reached = exponential::steps(given, point(0, 0), CUT, width)
        .take(before as usize)
        .last()
        .map_or(given, |step| step.exponent);
    let mut threshold = |(low, high)| {
        let sixteenths: i128 = random.pick(&[low, high]);
        (sixteenths << (width.fraction_bits - 5 - before)) + random.nudge()
    };
    let target = point(threshold(CUT[0]), threshold(CUT[1]));
    let moved = given + target - reached;
    point(moved.x.clamp(xs.0, xs.1), moved.y.clamp(ys.0, ys.1))
}

/// Where a nearest multiple of the unit changes, give or take a unit: the least part that has
/// j + 1 of them, for a j within the count.
fn at_half(random: &mut Random, unit: i128, count: i128) -> i128 {
    let odd = 2 * random.between(-count, count - 1) + 1;
    (odd * unit + 1).div_euclid(2) + random.nudge()
}

/// A part of an exponent up to eight, now and then beyond or at an edge of the rectangle.
fn far_part(random: &mut Random, (low, high): (i128, i128), width: Width) -> i128 {
    let limit = width.max_exponent();
    match random.between(0, 15) {
        0..=9 => random.between(-limit, limit),
        10..=11 => random.between(low, high),
        12..=13 => random.pick(&[low, high, low - 1, high + 1]),
        14 => random.pick(&[limit, -limit, limit - 1, 1 - limit]),
        _ if random.one_in(4) => {
            random.pick(&[limit + 1, -limit - 1, i64::MIN.into(), i64::MAX.into()])
        }
        _ => 0,
    }
}

/// An exponent for the reduction: p changes at ey, k at ex, both or neither.
fn far_exponent(random: &mut Random, width: Width) -> Point {
    let limit = width.max_exponent();
    let Tables { log_of_one_plus_i, log_of_two, .. } = tables(width);
    let [xs, ys] = rectangle(width);
    let y = if random.one_in(4) {
        at_half(random, log_of_one_plus_i.y, 10)
    } else {
        far_part(random, ys, width)
    };
    let x = if random.one_in(4) {
        // Odd p and even p: what ex loses before k is taken.
        let lost = random.pick(&[0, log_of_one_plus_i.x]);
        (lost + at_half(random, log_of_two.x, 12)).clamp(-limit, limit)
    } else {
        far_part(random, xs, width)
    };
    point(x, y)
}

/// Three in eight have an exponent for the reduction.
pub fn exp_input(random: &mut Random, width: Width) -> exponential::Input {
    let [xs, ys] = rectangle(width);
    let exponent = match random.between(0, 7) {
        0..=1 => exponent_at_threshold(random, width),
        2..=4 => point(exponent_part(random, xs, width), exponent_part(random, ys, width)),
        _ => far_exponent(random, width),
    };
    exponential::Input {
        n: steps(random, 1, width),
        ex: word(exponent.x),
        ey: word(exponent.y),
        sx: word(part(random, width)),
        sy: word(part(random, width)),
    }
}

/// A corner of a cell at a random scale and quarter, give or take a unit.
fn cell_corner(random: &mut Random, width: Width) -> Point {
    let side = width.fraction_bits - 4;
    let corner = point(random.between(8, 16) << side, random.between(-16, 16) << side);
    let up = random.between(0, 10) as u32;
    let down = if random.one_in(2) { random.between(0, side.into()) as u32 } else { 0 };
    let scale = |part: i128| floor_quotient(part << up, down);
    let nudge = point(random.nudge(), random.nudge());
    (point(scale(corner.x), scale(corner.y)) + nudge).turned(random.between(0, 3) as i64)
}

/// A point whose residual meets a threshold of LOG at some step, give or take some units.
fn point_at_threshold(random: &mut Random, width: Width) -> Point {
    let one = width.one();
    // Only corners of cells near the left meet those of step 3, so they come more often.
    let right = random.pick(&[5 * one / 8, one - 1]);
    let x = random.between(one / 2, right);
    let given = point(x, random.between(1 - x, x));
    let reduction = reduce(given, width);
    let last = if random.one_in(4) { FIRST_STEP.into() } else { width.max_steps() };
    let before = random.between(i128::from(FIRST_STEP) - 1, i128::from(last) - 1) as u32;
    let reached = logarithm::steps(reduction, width)
        .take((before + 1 - FIRST_STEP) as usize)
        .last()
        .map_or(reduction.point, |step| step.point);
    let half = 1i128 << (width.fraction_bits - 2 - before);
    let residual = reached - point(one, 0);
    let target = point(
        one + random.pick(&[-half, half, residual.x]),
        random.pick(&[-half, half, residual.y]),
    );
    // given·(target - reached)/reached, where the quotient is small: doubles will do.
    let (change, over) = (given.times(target - reached), reached);
    let norm = (over.x as f64).powi(2) + (over.y as f64).powi(2);
    let (cx, cy, ox, oy) = (change.x as f64, change.y as f64, over.x as f64, over.y as f64);
    let moved = point(
        ((cx * ox + cy * oy) / norm).round() as i128 + random.nudge(),
        ((cy * ox - cx * oy) / norm).round() as i128 + random.nudge(),
    );
    (given + moved).turned(random.between(0, 3) as i64)
}

fn log_point(random: &mut Random, width: Width) -> Point {
    match random.between(0, 15) {
        0..=4 => point(part(random, width), part(random, width)),
        5 => point(part(random, width), 0).turned(random.between(0, 1) as i64),
        6..=7 => {
            let side = part(random, width);
            point(side, random.pick(&[-1, 1]) * side + random.nudge())
        }
        8..=11 => cell_corner(random, width),
        12..=15 if random.one_in(64) => point(0, 0),
        _ => point_at_threshold(random, width),
    }
}

pub fn log_input(random: &mut Random, width: Width) -> logarithm::Input {
    let n = steps(random, FIRST_STEP.into(), width);
    let point = log_point(random, width);
    logarithm::Input { n, x: word(point.x), y: word(point.y) }
}

/// The bits of a double: of any kind, a whole number of units, or next to one.
pub fn double(random: &mut Random, width: Width) -> u64 {
    let limit = 2 * width.one();
    let bits = random.between(0, (width.fraction_bits + 1).into()) as u32;
    let power = random.pick(&[-1, 1]) * (1i128 << bits);
    match random.between(0, 15) {
        0 => random.draw(),
        // Of a size between a part of a unit and some twos.
        1 => {
            let exponent = random.between(1023 - 60, 1023 + 3) as u64;
            random.draw() & (1 << 63 | (1 << 52) - 1) | exponent << 52
        }
        // Few digits.
        2 => random.draw() & !0 << random.between(40, 63),
        3 => random.pick(&doubles().map(|(bits, _)| bits)),
        4..=5 => bits_of(word(random.between(-limit, limit)), width) ^ 1,
        6..=7 => bits_of(word(power), width).wrapping_add_signed(random.nudge() as i64),
        8..=10 => bits_of(word((power + random.nudge()).clamp(1 - limit, limit - 1)), width),
        _ => bits_of(word(random.between(1 - limit, limit - 1)), width),
    }
}

/// A line without its newline: well formed three times in four.
pub fn line(random: &mut Random, width: Width) -> Vec<u8> {
    let serial = word(random.between(1, 9_999_999));
    numbered_line(random, serial, width)
}

/// So many lines of a sheet. Their numbers rise by one, but for one in eight, which repeats the
/// largest before it, lies below it or leaves some out.
pub fn sheet(random: &mut Random, lines: usize, width: Width) -> Vec<u8> {
    let (mut sheet, mut largest) = (Vec::new(), 0);
    for _ in 0..lines {
        let serial = match random.between(0, 23) {
            0 => largest.max(1),
            1 => word(random.between(1, largest.max(1).into())),
            2 => largest + word(random.between(2, 40)),
            _ => largest + 1,
        };
        // A damage that makes the number far larger is drawn again: it would refuse all behind it.
        let (line, read) = loop {
            let line = numbered_line(random, serial, width);
            let read = parse(&line).map_or(0, |line| line.serial);
            if read <= largest + 40 {
                break (line, read);
            }
        };
        largest = largest.max(read);
        sheet.extend(line);
        sheet.push(b'\n');
    }
    sheet
}

/// Two sheets to merge, dealt from so many lines whose numbers rise, one in four to both; one in
/// `damage` lines is disturbed.
pub fn two_sheets(random: &mut Random, lines: usize, damage: i128, width: Width) -> [Vec<u8>; 2] {
    let mut sheets = [Vec::new(), Vec::new()];
    let mut serial = 0;
    for _ in 0..lines {
        serial += word(random.pick(&[1, 1, 1, 2, 3, 40]));
        let line = good_line(random, serial, width);
        let place = random.between(0, 7) as usize;
        if place < 2 {
            sheets.iter_mut().for_each(|sheet| sheet.push(line.clone()));
        } else {
            sheets[place % 2].push(line);
        }
    }
    sheets.map(|mut lines| {
        for place in 0..lines.len() {
            if random.one_in(damage) {
                disturb(&mut lines, place, random, width);
            }
        }
        let mut sheet = lines.join(&b'\n');
        if !random.one_in(3) && !sheet.is_empty() {
            sheet.push(b'\n');
        }
        sheet
    })
}

/// A line is spoilt, is one from before it, moves up, or is another one with its number or any.
fn disturb(lines: &mut [Vec<u8>], place: usize, random: &mut Random, width: Width) {
    let before = random.between(0, place as i128) as usize;
    let own = parse(&lines[place]).map_or(1, |line| line.serial);
    match random.between(0, 4) {
        0 => spoil(&mut lines[place], random),
        1 => lines[place] = lines[before].clone(),
        2 => lines.swap(place, before),
        any => {
            let serial = if any == 3 { own } else { word(random.between(1, 99)) };
            lines[place] = good_line(random, serial, width);
        }
    }
}

fn good_line(random: &mut Random, serial: i64, width: Width) -> Vec<u8> {
    let call = if random.one_in(2) {
        Call::Exp(exp_input(random, width))
    } else {
        Call::Log(log_input(random, width))
    };
    write_line(Line { serial, call })
}

fn numbered_line(random: &mut Random, serial: i64, width: Width) -> Vec<u8> {
    let mut line = good_line(random, serial, width);
    if random.one_in(4) {
        spoil(&mut line, random);
    }
    line
}

/// One byte put in, taken out or replaced; now and then far too many.
fn spoil(line: &mut Vec<u8>, random: &mut Random) {
    let place = random.between(0, line.len() as i128 - 1) as usize;
    let byte = random.pick(b"\t\t0019-+ EXPLOGREF\r\0\xff");
    match random.between(0, 7) {
        0..=2 => line.insert(place, byte),
        3..=4 => drop(line.remove(place)),
        5..=6 => line[place] = byte,
        _ if random.one_in(8) => line.resize(random.between(100, 5000) as usize, byte),
        _ => line.clear(),
    }
}
