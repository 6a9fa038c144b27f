//! Doubles for the plotting desk (02, E8): the product's two calls against the second
//! implementation, bit by bit.

use compare::{log_doubles, numbers, observed, read_doubles};
use reference::doubles::{bits_of, doubles_answer, units_answer, units_of};
use reference::edges::{doubles, log_refusals, ONE};
use reference::logarithm::log;
use reference::samples::{double, log_input, Random};
use reference::width::WIDTH_48 as W;

const SAMPLES: usize = 1_500_000;
const PATTERNS: usize = 6_000_000;

/// LOG in doubles is LOG's record over 2^48, refused ones too, and is read back to the same two
/// whole numbers.
#[test]
fn answers() {
    let mut random = Random::new(92);
    let drawn = (0..SAMPLES).map(|_| log_input(&mut random, W));
    let limits = log_refusals().into_iter().map(|(input, _)| input);
    let mut met = [0; 5];
    for input in drawn.chain(limits) {
        let given = log_doubles(input);
        assert_eq!(given, doubles_answer(log(input, W), W), "{input:?}");
        let [refusal, x, y, ..] = numbers(observed(|out| compare::log(input, out)));
        assert_eq!(given.0, refusal, "{input:?}");
        assert_eq!(read_doubles(given.1), [0, x, y], "{input:?}");
        met[refusal as usize] += 1;
    }
    println!("answered, then refused by number: {met:?}");
    assert!([0, 1, 3, 4].iter().all(|&number| met[number] > SAMPLES / 1000));
}

/// A pair is read as the second implementation reads it, and what is accepted is written back to the
/// same bits, by that and by the processor. Whether it is accepted.
fn check(bits: [u64; 2]) -> bool {
    let read = read_doubles(bits);
    assert_eq!(read, units_answer(bits, W), "{bits:016x?}");
    let [refusal, x, y] = read;
    if refusal == 0 {
        assert_eq!([x, y].map(|part| bits_of(part, W)), bits);
        assert_eq!([x, y].map(|part| (part as f64 / ONE as f64).to_bits()), bits);
    } else {
        assert_eq!(read, [9, 0, 0], "{bits:016x?}");
    }
    refusal == 0
}

#[test]
fn patterns() {
    let mut random = Random::new(93);
    let mut met = [0; 2];
    for _ in 0..PATTERNS {
        let bits = [(); 2].map(|_| double(&mut random, W));
        met[usize::from(check(bits))] += 1;
    }
    println!("refused and accepted: {met:?}");
    assert!(met.iter().all(|&count| count > PATTERNS / 5));
}

/// Every edge beside every other.
fn pairs() -> impl Iterator<Item = [(u64, Option<i64>); 2]> {
    doubles().into_iter().flat_map(|first| doubles().map(|second| [first, second]))
}

/// Both parts are zero where one is bad.
#[test]
fn edges() {
    for [(x, first), (y, second)] in pairs() {
        let wanted = match (first, second) {
            (Some(x), Some(y)) => [0, x, y],
            _ => [9, 0, 0],
        };
        assert_eq!(read_doubles([x, y]), wanted, "{x:016x} {y:016x}");
    }
}

/// Every exponent that a double has, with either sign: no digits, one, two neighbours, all from one
/// place on.
#[test]
fn every_exponent() {
    let mut accepted = 0;
    for exponent in 0..1u64 << 12 {
        let whole = (0..52).map(|place| !0 << place);
        let digits = whole.chain((0..52).flat_map(|place| [1 << place, 3 << place])).chain([0]);
        for digits in digits {
            let bits = exponent << 52 | digits & ((1 << 52) - 1);
            accepted += usize::from(check([bits, bits_of(1, W)]));
            assert_eq!(check([0, bits]), check([bits, 0]), "{bits:016x}");
        }
    }
    println!("{accepted} accepted");
    assert!(accepted > 4000);
}

/// Every number of units next to a power of two and some others, and the doubles next to it.
#[test]
fn next_to_powers() {
    let near = |middle: i64| (-1000..=1000).map(move |offset| middle + offset);
    for middle in (0..=49).map(|place| 1 << place).chain([0, 3 * ONE / 2, 5 * ONE / 4]) {
        for units in near(middle).flat_map(|units| [units, -units]) {
            let bits = bits_of(units, W);
            let inside = units.abs() < 2 * ONE;
            assert_eq!(check([bits, 0]), inside, "{units}");
            for beside in [bits.wrapping_sub(1), bits.wrapping_add(1)] {
                check([0, beside]);
            }
        }
    }
}

/// Readings that miss a sentence of the request: the edges tell each of them from the product.
#[test]
fn faults_show() {
    const TWO: u64 = 0x4000 << 48;
    const MINUS_ZERO: u64 = 1 << 63;
    type Reading = fn([u64; 2]) -> [i64; 3];
    let faults: [(&str, Reading); 7] = [
        ("minus zero accepted", |bits| {
            units_answer(bits.map(|x| if x == MINUS_ZERO { 0 } else { x }), W)
        }),
        ("2^49 accepted", |bits| {
            match bits.map(|x| if x == TWO { Some(2 * ONE) } else { units_of(x, W) }) {
                [Some(x), Some(y)] => [0, x, y],
                _ => [9, 0, 0],
            }
        }),
        ("a fraction cut", |bits| {
            let [x, y] = bits.map(|x| (f64::from_bits(x) * ONE as f64) as i64);
            [0, x, y]
        }),
        ("another scale", |bits| {
            let [refusal, x, y] = units_answer(bits, W);
            [refusal, 2 * x, 2 * y]
        }),
        ("parts exchanged", |bits| {
            let [refusal, x, y] = units_answer(bits, W);
            [refusal, y, x]
        }),
        ("the first part kept", |[x, y]| match units_answer([x, y], W) {
            [9, ..] => [9, units_of(x, W).unwrap_or(0), 0],
            read => read,
        }),
        ("what is not a number taken for nought", |bits| {
            units_answer(bits.map(|x| if f64::from_bits(x).is_nan() { 0 } else { x }), W)
        }),
    ];
    for (fault, reading) in faults {
        let shows = pairs().any(|[(x, _), (y, _)]| reading([x, y]) != read_doubles([x, y]));
        assert!(shows, "{fault}");
    }
}
