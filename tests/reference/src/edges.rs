//! The edges and limits of 01 and of 02, E5, E7 and E8 in their own numbers, for any implementation
//! to be held to.

use crate::answer::Record;
use crate::exponential::Input as Exp;
use crate::logarithm::Input as Log;
use crate::point::{point, Digit};

pub const ONE: i64 = 1 << 48;
pub const MAX_PART: i64 = 1 << 58;

/// "What a case leaves unsaid."
pub const EXP: Exp = Exp { n: 40, ex: 0, ey: 0, sx: ONE, sy: 0 };
pub const LOG: Log = Log { n: 40, x: ONE, y: 0 };

/// The ends of the rectangle: least ex, greatest ex, greatest ey in size.
pub const EX_LEAST: i64 = -233096465088512;
pub const EX_GREATEST: i64 = 241892558110720;
pub const EY_GREATEST: i64 = 206708186021888;

/// Eight, the greatest part of an exponent in size.
pub const MAX_EXPONENT: i64 = 1 << 51;

/// The units nearest π/4, ln 2 and ½·ln 2.
pub const Q: i64 = 221069929750889;
pub const H: i64 = 195103586505167;
pub const R: i64 = 97551793252584;

/// N inside, then N outside: next to the ends, at the ends of the numbers, and such as would be
/// inside if only some low bits were read.
fn counts(least: i64) -> [Vec<i64>; 2] {
    let outside = [i64::MIN, -40, -1, 0, least - 1, 41, 64, 256 + 40, (1 << 32) + 40, i64::MAX];
    [(least..=40).collect(), outside.to_vec()]
}

/// Parts inside ±2^58, then parts outside: -2^63 has no size in 64 bits.
fn parts() -> [Vec<i64>; 2] {
    let inside = vec![0, 1, -1, MAX_PART - 1, MAX_PART, 1 - MAX_PART, -MAX_PART];
    let outside = vec![MAX_PART + 1, -MAX_PART - 1, i64::MIN, i64::MIN + 1, i64::MAX];
    [inside, outside]
}

/// Both sides of each limit of EXP at every N, with what the call hands back; then every order
/// in which conditions can meet.
pub fn exp_refusals() -> Vec<(Exp, i64)> {
    let [inside, outside] = counts(1);
    let mut cases: Vec<_> = outside.iter().map(|&n| (Exp { n, ..EXP }, 1)).collect();
    for n in inside {
        let exp = Exp { n, ..EXP };
        let [xs, ys] = [(EX_LEAST, EX_GREATEST), (-EY_GREATEST, EY_GREATEST)]
            .map(|(low, high)| [-MAX_EXPONENT, low - 1, low, 0, high, high + 1, MAX_EXPONENT]);
        for (ex, ey) in xs.into_iter().flat_map(|ex| ys.map(|ey| (ex, ey))) {
            cases.push((Exp { ex, ey, ..exp }, 0));
        }
        for part in [MAX_EXPONENT + 1, -MAX_EXPONENT - 1, i64::MIN, i64::MAX] {
            cases.push((Exp { ex: part, ..exp }, 2));
            cases.push((Exp { ey: part, ..exp }, 2));
        }
        for (parts, refusal) in parts().into_iter().zip([0, 3]) {
            for part in parts {
                for ey in [0, Q, MAX_EXPONENT] {
                    cases.push((Exp { ey, sx: part, ..exp }, refusal));
                    cases.push((Exp { ey, sx: 0, sy: part, ..exp }, refusal));
                }
            }
        }
    }
    for (n, bad_n) in [(40, false), (0, true)] {
        for (ey, bad_exponent) in [(0, false), (MAX_EXPONENT + 1, true)] {
            for (sy, bad_start) in [(0, false), (i64::MIN, true)] {
                let first = [bad_n, bad_exponent, bad_start].iter().position(|&bad| bad);
                cases.push((Exp { n, ey, sy, ..EXP }, first.map_or(0, |place| place as i64 + 1)));
            }
        }
    }
    cases
}

/// Likewise for LOG.
pub fn log_refusals() -> Vec<(Log, i64)> {
    let [inside, outside] = counts(3);
    let mut cases = Vec::new();
    for n in outside {
        for (x, y) in [(ONE, 0), (i64::MIN, 0), (0, 0)] {
            cases.push((Log { n, x, y }, 1));
        }
    }
    for n in inside {
        cases.push((Log { n, x: 0, y: 0 }, 4));
        for (parts, refusal) in parts().into_iter().zip([0, 3]) {
            for part in parts {
                cases.push((Log { n, x: part, y: ONE }, refusal));
                cases.push((Log { n, x: 1, y: part }, refusal));
                if part != 0 {
                    cases.push((Log { n, x: part, y: 0 }, refusal));
                    cases.push((Log { n, x: 0, y: part }, refusal));
                }
            }
        }
    }
    cases
}

/// Start zero: answer zero, column 2N, and the remainder that any other start has.
pub fn exp_of_zero() -> Vec<Exp> {
    let mut cases = Vec::new();
    for n in 1..=40 {
        for ex in [EX_LEAST, 0, EX_GREATEST] {
            for ey in [-EY_GREATEST, -1, 0, EY_GREATEST] {
                cases.push(Exp { n, ex, ey, sx: 0, sy: 0 });
            }
        }
    }
    cases
}

/// Whole records of EXP that need no steps: the exponent nought, of which nothing is left, with a
/// column that comes out even and with M a unit less and more; start zero among them.
pub fn exp_records() -> Vec<(Exp, Record)> {
    let mut cases = vec![(EXP, [0, ONE, 0, 0, 0, 2128, 0, 0])];
    for n in 1..=40 {
        cases.push((Exp { n, sx: 0, ..EXP }, [0, 0, 0, 0, 0, 2 * n, 0, 0]));
        let even = 1 << n;
        for (m, share) in [
            (even - 1, 8 - 8 / even),
            (even, 8),
            (even + 1, 8 + (8 + even - 1) / even),
            (MAX_PART, 8 * (MAX_PART >> n)),
        ] {
            for (sx, sy) in [(m, 0), (-m, 1), (1, m), (0, -m)] {
                cases.push((Exp { n, sx, sy, ..EXP }, [0, sx, sy, 0, 0, share + 2 * n, 0, 0]));
            }
        }
    }
    cases
}

/// The start times 1, 1+i, i, -1+i, -1, -1-i, -i or 1-i.
fn multiplied(eighths: i64, x: i64, y: i64) -> [i64; 2] {
    match eighths.rem_euclid(8) {
        0 => [x, y],
        1 => [x - y, x + y],
        2 => [-y, x],
        3 => [-x - y, x - y],
        4 => [-x, -y],
        5 => [y - x, -x - y],
        6 => [y, -x],
        _ => [x + y, y - x],
    }
}

/// Whole records of EXP outside the rectangle that need no steps: exponents of p eighths of a turn
/// and k doublings, which the reduction brings to nought. The answer is the multiplied start, whose
/// larger part reaches 2^59.
pub fn far_exp_records() -> Vec<(Exp, Record)> {
    let starts = [(ONE, 0), (0, 0), (3, -5), (MAX_PART, MAX_PART), (-MAX_PART, MAX_PART)];
    let mut cases = Vec::new();
    for (p, k) in (-10i64..=10).flat_map(|p| (-12..=12).map(move |k| (p, k))) {
        let (ex, ey) = (k * H + p.rem_euclid(2) * R, p * Q);
        // No eighths and at most one doubling: inside the rectangle.
        if ex.abs() > MAX_EXPONENT || (p == 0 && k.abs() <= 1) {
            continue;
        }
        for ((sx, sy), n) in starts.into_iter().flat_map(|start| [1, 2, 20, 40].map(|n| (start, n)))
        {
            let [x, y] = multiplied(p, sx, sy);
            let share = (8 * x.abs().max(y.abs()) + (1 << n) - 1) >> n;
            cases.push((Exp { n, ex, ey, sx, sy }, [0, x, y, k, 0, share + 2 * n, 0, 0]));
        }
    }
    cases
}

/// Exponents outside the rectangle with their k: at every threshold of k and a unit below, for odd
/// and for even p; at every threshold of p, where ex = 0 loses R or does not; at the corners.
pub fn exp_scales() -> Vec<(Exp, i64)> {
    let at = |ex, ey| Exp { ex, ey, ..EXP };
    // The least part that has j + 1 of the unit.
    let from = |j: i64, unit: i64| ((2 * j + 1) * unit + 1).div_euclid(2);
    let mut cases = vec![(at(EX_GREATEST + 1, 0), 1), (at(EX_LEAST - 1, 0), -1)];
    for (p, j) in (-10i64..=10).flat_map(|p| (-12..=11).map(move |j| (p, j))) {
        let (ex, ey) = (from(j, H) + p.rem_euclid(2) * R, p * Q);
        // Without eighths, the thresholds next to nought are inside the rectangle.
        if ex <= MAX_EXPONENT && (p != 0 || ![-1, 0].contains(&j)) {
            cases.extend([(at(ex, ey), j + 1), (at(ex - 1, ey), j)]);
        }
    }
    for j in (-10..=9).filter(|j| ![-1, 0].contains(j)) {
        // -R is a unit past the threshold of -H/2: k is -1 for odd p.
        let k = |p: i64| -p.rem_euclid(2);
        cases.extend([(at(0, from(j, Q)), k(j + 1)), (at(0, from(j, Q) - 1), k(j))]);
    }
    for ey in [-MAX_EXPONENT, MAX_EXPONENT] {
        cases.extend([(at(-MAX_EXPONENT, ey), -12), (at(MAX_EXPONENT, ey), 12)]);
    }
    cases
}

/// The 24 exponents at which 02, E5's p, floor(ey/Q + 1/2), is not ey over π/4 rounded, with that p: Q is
/// a quarter of a unit more than π/4, which up to eight comes to 2.3 units at a threshold. The start
/// is 1 + i, whose column is 2128 by 40 steps for an even p and 4176 for an odd one.
pub fn exp_eighths() -> Vec<(Exp, i64)> {
    let mut cases = Vec::new();
    for p in 2..=9 {
        let last = ((2 * p + 1) * Q - 1) / 2;
        for ey in (if p < 6 { last } else { last - 1 })..=last {
            cases.extend([(ey, p), (-ey, -p)].map(|(ey, p)| (Exp { ey, sy: ONE, ..EXP }, p)));
        }
    }
    cases
}

/// Remainders of EXP after one step, by hand: the entry -H of the digit -1, and a unit beside it;
/// next to the thresholds, where the step takes nothing from the exponent or just that entry; and
/// what the reduction leaves past the rectangle.
pub fn exp_remainders() -> Vec<(Exp, [i64; 2])> {
    [
        ([-H - 1, 0], [-1, 0]),
        ([-H, 0], [0, 0]),
        ([1 - H, 0], [1, 0]),
        ([-ONE / 4 - 1, 0], [H - ONE / 4 - 1, 0]),
        ([-ONE / 4, 0], [-ONE / 4, 0]),
        ([3 * ONE / 16 - 1, 0], [3 * ONE / 16 - 1, 0]),
        ([0, -3 * ONE / 8], [0, -3 * ONE / 8]),
        ([0, 13 * ONE / 32 - 1], [0, 13 * ONE / 32 - 1]),
        ([EX_GREATEST + 1, 0], [EX_GREATEST + 1 - H, 0]),
        ([7, 2 * Q - 5], [7, -5]),
        ([R + 7, -Q - 5], [7, -5]),
        ([R - 3 * H, 3 * Q + 1], [0, 1]),
    ]
    .map(|([ex, ey], remainder)| (Exp { n: 1, ex, ey, ..EXP }, remainder))
    .to_vec()
}

/// The inputs of all edges of EXP.
pub fn exp_edges() -> Vec<Exp> {
    let mut inputs = exp_of_zero();
    let numbered = [exp_refusals(), exp_scales(), exp_eighths()];
    inputs.extend(numbered.into_iter().flatten().map(|(input, _)| input));
    inputs.extend(exp_records().into_iter().chain(far_exp_records()).map(|(input, _)| input));
    inputs.extend(exp_remainders().into_iter().map(|(input, _)| input));
    inputs
}

/// Remainders of LOG of one, by hand: (120 - 7i)/128 after the digits 1, -1+i and 0.
pub fn log_one_remainders() -> Vec<(Log, [i64; 2])> {
    [(3, [56, -63], 10), (4, [-121, 135], 14), (5, [-121, 135], 14)]
        .map(|(n, parts, bits)| (Log { n, ..LOG }, parts.map(|part| part * (ONE >> bits))))
        .to_vec()
}

/// The columns of LOG, even ones and with M a unit less and more.
pub fn log_bounds() -> Vec<(Log, i64)> {
    let mut cases = Vec::new();
    for n in 3..=40 {
        let even = 1 << n;
        for (m, bound) in [(even - 1, 3), (even, 3), (even + 1, 4), (MAX_PART, 3 * (MAX_PART >> n))]
        {
            for (x, y) in [(m, 0), (-m, 1), (1, m), (0, -m)] {
                cases.push((Log { n, x, y }, bound));
            }
        }
    }
    cases
}

/// Points with their k and q, as 02, E2 writes it: the cases of 01, and at every k and after every
/// turn the ends of wx with the ends of wy and the numbers around nought.
pub fn log_reductions() -> Vec<(Log, [i64; 2])> {
    let at = |x, y| Log { x, y, ..LOG };
    let mut cases = vec![(LOG, [1, 0]), (at(-1, 0), [-47, 2])];
    cases.extend([((0, 5), 1), ((5, 5), 0), ((5, -5), -1)].map(|((x, y), q)| (at(x, y), [-45, q])));
    for k in -47..=11 {
        let ends = [1 << (47 + k), ((1 << (48 + k)) - 1).min(MAX_PART)];
        for x in ends {
            for y in [0, 1, -1, x, 1 - x].into_iter().filter(|&y| -x < y && y <= x) {
                for turns in 0..4 {
                    let turned = point(x.into(), y.into()).turned(turns);
                    let q = match turns {
                        3 => -1,
                        2 if y > 0 => -2,
                        _ => turns,
                    };
                    cases.push((at(turned.x as i64, turned.y as i64), [k, q]));
                }
            }
        }
    }
    cases
}

/// Doubles by their bits, with the number of units that each is; the others are turned away.
pub fn doubles() -> [(u64, Option<i64>); 32] {
    let two = 2 * ONE;
    [
        (0, Some(0)),
        // one unit, one, next below two, each with its sign
        (0x3cf0_0000_0000_0000, Some(1)),
        (0xbcf0_0000_0000_0000, Some(-1)),
        (0x3cf8_0000_0000_0000, None),
        (0x3d08_0000_0000_0000, Some(3)),
        (0x3ff0_0000_0000_0000, Some(ONE)),
        (0xbff0_0000_0000_0000, Some(-ONE)),
        (0x3fff_ffff_ffff_fff0, Some(two - 1)),
        (0xbfff_ffff_ffff_fff0, Some(1 - two)),
        // 2^49 and more
        (0x4000_0000_0000_0000, None),
        (0xc000_0000_0000_0000, None),
        (0x4000_0000_0000_0008, None),
        (0x43e0_0000_0000_0000, None),
        (0x7fef_ffff_ffff_ffff, None),
        // between two whole numbers: below two, around one, half a unit
        (0x3fff_ffff_ffff_ffff, None),
        (0x3fff_ffff_ffff_fff8, None),
        (0xbfff_ffff_ffff_fff8, None),
        (0x3ff0_0000_0000_0001, None),
        (0x3ff0_0000_0000_0010, Some(ONE + 1)),
        (0x3fef_ffff_ffff_ffff, None),
        (0x3fef_ffff_ffff_ffe0, Some(ONE - 1)),
        (0x3ce0_0000_0000_0000, None),
        (0xbcef_ffff_ffff_ffff, None),
        // minus zero, the least double and the least normal one
        (0x8000_0000_0000_0000, None),
        (0x0000_0000_0000_0001, None),
        (0x0010_0000_0000_0000, None),
        // infinities
        (0x7ff0_0000_0000_0000, None),
        (0xfff0_0000_0000_0000, None),
        // not numbers, quiet and signalling
        (0x7ff8_0000_0000_0000, None),
        (0xfff8_0000_0000_0001, None),
        (0x7ff0_0000_0000_0001, None),
        (0xffff_ffff_ffff_ffff, None),
    ]
}

/// A digit as 01 writes it.
fn digit(text: &str) -> Digit {
    match text {
        "0" => point(0, 0),
        "1" => point(1, 0),
        "-1" => point(-1, 0),
        "i" => point(0, 1),
        "1+i" => point(1, 1),
        "-1+i" => point(-1, 1),
        _ => unreachable!("{text}"),
    }
}

/// The digits that open figure 1 of 001, from n = 1 on.
pub fn figure_digits() -> [Digit; 8] {
    ["1", "1+i", "-1", "i", "i", "0", "-1", "0"].map(digit)
}

/// The digits that open LOG of one, from n = 3 on.
pub fn log_one_digits() -> [Digit; 3] {
    ["1", "-1+i", "0"].map(digit)
}
