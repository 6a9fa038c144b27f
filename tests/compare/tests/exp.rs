//! EXP of the product against the second implementation.

use compare::{check_buffers, expected, numbers, observed};
use reference::exponential::{exp, Input};
use reference::figure;
use reference::samples::{exp_input, Random};
use reference::width::WIDTH_48;
use std::collections::BTreeMap;

const SAMPLES: usize = 1_500_000;

#[test]
fn records() {
    let mut random = Random::new(48);
    let (mut met, mut scales) = ([0; 4], BTreeMap::new());
    for _ in 0..SAMPLES {
        let input = exp_input(&mut random, WIDTH_48);
        let wanted = expected(exp(input, WIDTH_48));
        assert_eq!(observed(|out| compare::exp(input, out)), wanted, "{input:?}");
        met[wanted.0 as usize] += 1;
        *scales.entry(numbers(wanted)[3]).or_insert(0) += 1;
    }
    println!("answered, then refused by number: {met:?}; by k: {scales:?}");
    assert!(met.iter().all(|&count| count > SAMPLES / 1000));
    assert!(scales.keys().copied().eq(-12..=12));
    assert!(scales.values().all(|&count| count > SAMPLES / 1000));
}

#[test]
fn buffers() {
    let good = Input { n: 40, ex: -1, ey: 1 << 47, sx: 1 << 58, sy: -5 };
    let inputs = [
        good,
        Input { ey: -(1 << 51), ..good },
        Input { n: 0, ..good },
        Input { ex: i64::MIN, ..good },
        Input { sx: i64::MIN, ..good },
    ];
    for input in inputs {
        check_buffers(exp(input, WIDTH_48), |out| compare::exp(input, out));
    }
}

/// Figure 1 of 001: its exponent from one, for every N as the second implementation has it, and
/// row k + 1 as printed for N = k, the answer and the remainder. (Rows past the ninth were made with other thresholds;
/// `reference` has them.)
#[test]
fn figure_1() {
    let input = |n| Input {
        n,
        ex: figure::EXPONENT.x as i64,
        ey: figure::EXPONENT.y as i64,
        sx: 1 << 48,
        sy: 0,
    };
    let mut rows = vec![[1 << 48, 0, input(0).ex, input(0).ey]];
    for n in 1..=40 {
        let seen = observed(|out| compare::exp(input(n), out));
        assert_eq!(seen, expected(exp(input(n), WIDTH_48)), "{n} steps");
        let [refusal, x, y, _, _, _, rx, ry] = numbers(seen);
        assert_eq!(refusal, 0);
        rows.push([x, y, rx, ry]);
    }
    for (k, printed) in figure::rows_of_01() {
        for (units, text) in rows[k - 1].into_iter().zip(printed) {
            assert_eq!(figure::like(text, units.into()), text, "row {k}");
        }
    }
}
