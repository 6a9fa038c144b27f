//! LOG of the product against the second implementation.

use compare::{check_buffers, expected, numbers, observed};
use reference::logarithm::{log, Input};
use reference::samples::{log_input, Random};
use reference::width::WIDTH_48;
use std::f64::consts::{FRAC_PI_2, PI, SQRT_2};

const SAMPLES: usize = 1_500_000;

#[test]
fn records() {
    let mut random = Random::new(84);
    let mut met = [0; 5];
    for _ in 0..SAMPLES {
        let input = log_input(&mut random, WIDTH_48);
        let wanted = expected(log(input, WIDTH_48));
        assert_eq!(observed(|out| compare::log(input, out)), wanted, "{input:?}");
        met[wanted.0 as usize] += 1;
    }
    println!("answered, then refused by number: {met:?}");
    assert!([0, 1, 3, 4].iter().all(|&number| met[number] > SAMPLES / 1000));
}

/// 02, E2: q is of the point's side of the axis, so q quarter turns and the angle of the answer are
/// the angle between minus and plus half a turn, as the C library has it: each part is off by at
/// most 3M/2^N and the point is at least M long. The answer's own error may carry the sum past.
#[test]
fn angles() {
    let mut random = Random::new(85);
    let (mut met, mut past) = ([0; 5], 0);
    for _ in 0..SAMPLES {
        let input = log_input(&mut random, WIDTH_48);
        let [refusal, _, y, _, q, ..] = numbers(observed(|out| compare::log(input, out)));
        if refusal != 0 {
            continue;
        }
        met[usize::try_from(q + 2).unwrap()] += 1;
        assert!(q == 0 || (q > 0) == (input.y >= 0), "{input:?}");
        let angle = q as f64 * FRAC_PI_2 + y as f64 / WIDTH_48.one() as f64;
        let off = (3.0 * SQRT_2 / 2f64.powi(input.n as i32)).asin() + 1e-14;
        assert!((angle - (input.y as f64).atan2(input.x as f64)).abs() <= off, "{input:?}");
        past += usize::from(angle.abs() > PI);
    }
    println!("by q from -2 to 2: {met:?}; the answer's error carries {past} past half a turn");
    assert!(met.iter().all(|&count| count > SAMPLES / 100));
}

#[test]
fn buffers() {
    let good = Input { n: 40, x: -(1 << 58), y: 12345 };
    let inputs =
        [good, Input { n: 2, ..good }, Input { y: i64::MIN, ..good }, Input { x: 0, y: 0, ..good }];
    for input in inputs {
        check_buffers(log(input, WIDTH_48), |out| compare::log(input, out));
    }
}
