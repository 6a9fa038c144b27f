//! EXP by the register (02, E9) of the product: against the second implementation's register and
//! against the product's EXP, and against registers with one fault put in, on inputs at which the
//! fault shows.

use compare::{check_buffers, exp_register_figures, expected, numbers, observed, Outcome};
use reference::answer::{Figures, Record};
use reference::edges::{
    exp_edges, exp_records, exp_refusals, exp_remainders, far_exp_records, figure_digits, EXP, ONE,
    Q,
};
use reference::exponential::{Input, Reduction};
use reference::figure::EXPONENT;
use reference::point::{floor_quotient, point, Digit, Point};
use reference::register::{self, exp};
use reference::samples::{exp_input, Random};
use reference::tables::{logarithm, tables};
use reference::width::{Width, WIDTH_48 as W};
use std::collections::BTreeMap;
use std::sync::LazyLock;

const SAMPLES: usize = 1_000_000;

/// What the call hands back and writes, the same as the second implementation and as EXP.
fn checked(input: Input) -> Outcome {
    let seen = observed(|out| compare::exp_register(input, out));
    assert_eq!(seen, expected(exp(input, W)), "{input:?}");
    assert_eq!(seen, observed(|out| compare::exp(input, out)), "{input:?}");
    seen
}

fn record(input: Input) -> Record {
    numbers(checked(input))
}

#[test]
fn records() {
    let mut random = Random::new(91);
    let (mut met, mut scales) = ([0; 4], BTreeMap::new());
    for _ in 0..SAMPLES {
        let seen = checked(exp_input(&mut random, W));
        met[seen.0 as usize] += 1;
        *scales.entry(numbers(seen)[3]).or_insert(0) += 1;
    }
    println!("answered, then refused by number: {met:?}; by k: {scales:?}");
    assert!(met.iter().all(|&count| count > SAMPLES / 1000));
    assert!(scales.keys().copied().eq(-12..=12));
    assert!(scales.values().all(|&count| count > SAMPLES / 1000));
}

/// Every edge of EXP; those that the papers or a hand calculation give numbers for, in these.
#[test]
fn edges() {
    let inputs = exp_edges();
    assert!(inputs.len() > 17_000, "{}", inputs.len());
    for input in inputs {
        checked(input);
    }
    for (input, refusal) in exp_refusals() {
        let record = record(input);
        assert_eq!(record[0], refusal, "{input:?}");
        assert!(refusal == 0 || record[1..] == [0; 7], "{input:?}");
    }
    for (input, wanted) in exp_records().into_iter().chain(far_exp_records()) {
        assert_eq!(record(input), wanted, "{input:?}");
    }
    for (input, remainder) in exp_remainders() {
        assert_eq!(record(input)[6..], remainder, "{input:?}");
    }
}

#[test]
fn buffers() {
    let good = Input { n: 40, ex: -1, ey: 1 << 47, sx: 1 << 58, sy: -5 };
    let inputs = [
        good,
        Input { ey: -(1 << 51), ..good },
        Input { n: 0, ..good },
        Input { ex: i64::MIN, ..good },
        Input { sx: i64::MIN, ..good },
    ];
    for input in inputs {
        check_buffers(exp(input, W), |out| compare::exp_register(input, out));
    }
}

fn figure_1(n: i64) -> Input {
    Input { n, ex: EXPONENT.x as i64, ey: EXPONENT.y as i64, ..EXP }
}

/// Figure 1 of 001. No call hands registers or digits back, but the remainder for each N tells the
/// register, and the answers for N - 1 and N tell the digit of step N.
#[test]
fn steps_of_the_figure() {
    let nine = [-1, 0, 1].map(|dx| [-1, 0, 1].map(|dy| point(dx, dy))).concat();
    let (mut before, mut digits) = (EXP.start(), Vec::new());
    for step in register::steps(EXPONENT, EXP.start(), W) {
        let seen = exp_register_figures(figure_1(step.n.into())).expect("an answer");
        assert_eq!(seen.remainder().shifted_up(step.n + 1), step.register, "step {}", step.n);
        let leads = |d: &&Digit| before.step(**d, step.n) == seen.parts();
        let [digit] = nine.iter().filter(leads).collect::<Vec<_>>()[..] else {
            panic!("not one digit at step {}", step.n);
        };
        assert_eq!(*digit, step.digit, "step {}", step.n);
        digits.push(*digit);
        before = seen.parts();
    }
    assert_eq!(digits[..8], figure_digits());
    assert_eq!(digits.len(), 40);
}

#[derive(Clone, Copy, PartialEq, Eq, Debug)]
enum Fault {
    /// None.
    Right,
    /// The exponent itself before step 1, not its double.
    NotDoubled,
    /// The thresholds of the exponent before step 1, which are half of the register's.
    HalfThresholds,
    /// What is looked at cut towards zero.
    CutToZero,
    /// The entry of step n times 2^n.
    EntryOnce,
    /// Entries that are rounded after they are scaled.
    EntryAfresh,
    /// The entry taken away before the shift.
    ShiftLast,
    /// The remainder read back with one bit too many.
    RemainderTwice,
    /// No reduction outside the rectangle.
    Unreduced,
}

use Fault::*;

const FAULTS: [Fault; 8] = [
    NotDoubled,
    HalfThresholds,
    CutToZero,
    EntryOnce,
    EntryAfresh,
    ShiftLast,
    RemainderTwice,
    Unreduced,
];

/// 2^(n+1)·ln(1 + d/2^n) in units, each part the nearest: by n - 1, dx + 1, dy + 1.
static AFRESH: LazyLock<Vec<[[Point; 3]; 3]>> = LazyLock::new(|| {
    let entry = |n: u32, dx: i128, dy: i128| {
        logarithm(point((1 << n) + dx, dy), n, Width { fraction_bits: W.fraction_bits + n + 1 })
    };
    (1..=40).map(|n| [-1, 0, 1].map(|dx| [-1, 0, 1].map(|dy| entry(n, dx, dy)))).collect()
});

impl Fault {
    fn first(self, exponent: Point) -> Point {
        exponent.shifted_up(if self == NotDoubled { 0 } else { 1 })
    }

    fn digit(self, register: Point) -> Digit {
        register::digit(match self {
            HalfThresholds => register::cut(register.shifted_up(1), W),
            CutToZero => point(register.x / (1 << 45), register.y / (1 << 44)),
            _ => register::cut(register, W),
        })
    }

    fn entry(self, n: u32, d: Digit) -> Point {
        match self {
            EntryOnce => tables(W).step(n, d).shifted_up(n),
            EntryAfresh => AFRESH[n as usize - 1][(d.x + 1) as usize][(d.y + 1) as usize],
            _ => register::scaled_entry(n, d, W),
        }
    }

    fn exp(self, input: Input) -> Figures {
        let reduction = if self == Unreduced { input.unreduced() } else { input.reduction(W) };
        let Reduction { exponent, mut start, .. } = reduction;
        let (mut register, count) = (self.first(exponent), input.n as u32);
        for n in 1..=count {
            let digit = self.digit(register);
            let entry = self.entry(n, digit);
            register = match self {
                ShiftLast => (register - entry).shifted_up(1),
                _ => register.shifted_up(1) - entry,
            };
            start = start.step(digit, n);
        }
        let bits = if self == RemainderTwice { count } else { count + 1 };
        let [x, y] = [register.x, register.y].map(|part| floor_quotient(part, bits));
        reduction.figures(count, start, point(x, y))
    }
}

/// Every N, with whether the fault shows in the answer's parts or in the remainder alone. Most of
/// these exponents meet their first digit at step N, or just miss it.
#[test]
fn every_count_of_steps() {
    for n in 1..=40 {
        let exponent = |ex: i64, ey: i64| Input { n, ex, ey, ..EXP };
        let half = exponent(ONE >> (n + 1), 0);
        for (input, fault, in_parts) in [
            (half, NotDoubled, true),
            (exponent(ONE >> (n + 2), 0), HalfThresholds, true),
            (exponent(0, ONE >> (n + 1)), HalfThresholds, true),
            // -9/16 is looked at as -5/8 and -25/32 as -13/16
            (exponent(-((9 * ONE) >> (n + 4)), 0), CutToZero, true),
            (exponent(0, -((25 * ONE) >> (n + 5))), CutToZero, true),
            (half, EntryOnce, false),
            (half, ShiftLast, false),
            (half, RemainderTwice, false),
            (figure_1(n), EntryAfresh, false),
            (exponent(0, 2 * Q), Unreduced, true),
        ] {
            let (seen, faulty) = (exp_register_figures(input).unwrap(), fault.exp(input));
            assert_eq!(seen, Right.exp(input), "{input:?}");
            assert_ne!(seen, faulty, "{fault:?} does not show at {input:?}");
            assert_eq!(seen.parts() != faulty.parts(), in_parts, "{fault:?} at {input:?}");
        }
    }
}

/// Each fault shows at many of the random inputs, and at none of them in the product.
#[test]
fn random_inputs() {
    const SAMPLES: usize = 100_000;
    let mut random = Random::new(92);
    for fault in FAULTS {
        let inputs = (0..SAMPLES).map(|_| exp_input(&mut random, W));
        let (mut shown, mut in_parts) = (0, 0);
        for input in inputs {
            if let Some(seen) = exp_register_figures(input) {
                assert_eq!(seen, Right.exp(input), "{input:?}");
                let faulty = fault.exp(input);
                shown += usize::from(seen != faulty);
                in_parts += usize::from(seen.parts() != faulty.parts());
            }
        }
        println!("{fault:?}: {shown} of {SAMPLES}, {in_parts} of them in the parts");
        assert!(shown > SAMPLES / 10);
        // All but one make other digits, too.
        assert_eq!(in_parts > SAMPLES / 100, fault != RemainderTwice);
    }
}
