//! The register of 02, E9 beside EXP at every width: the same digits, answers and remainders, and
//! the bits that its parts take.

use reference::edges::{exp_edges, figure_digits};
use reference::exponential::{self, exp, in_rectangle, Input, Reduction, CUT};
use reference::figure::{like, rows_of_01, EXPONENT};
use reference::point::{point, Point};
use reference::register::{self, cut, remainder};
use reference::samples::{exp_input, Random};
use reference::width::{Width, WIDTHS, WIDTH_48};

const SAMPLES: usize = 60_000;

/// What a number takes in two's complement, the sign counted.
fn bits(number: i128) -> u32 {
    i128::BITS - (number ^ (number >> 127)).leading_zeros() + 1
}

/// Of its two parts.
fn bits_of(p: Point) -> [u32; 2] {
    [p.x, p.y].map(bits)
}

/// What was run: inputs refused, inside the rectangle and outside, and the most bits of each part
/// of a register, of a scaled entry, and of what is looked at.
#[derive(Default)]
struct Seen {
    inputs: [usize; 3],
    bits: [[u32; 2]; 3],
}

impl Seen {
    fn run(&mut self, input: Input, width: Width) {
        let answer = exp(input, width);
        assert_eq!(register::exp(input, width), answer, "{input:?}");
        if answer.is_err() {
            self.inputs[0] += 1;
            return;
        }
        self.inputs[if in_rectangle(input.exponent(), width) { 1 } else { 2 }] += 1;
        let Reduction { exponent, start, .. } = input.reduction(width);
        let mut before = exponent;
        let mut run = register::steps(exponent, start, width);
        for wanted in exponential::steps(exponent, start, CUT, width) {
            let step = run.next().expect("as many steps");
            assert_eq!(step.before, before.shifted_up(step.n), "{input:?}, {step:?}");
            assert_eq!(
                (step.n, step.digit, remainder(step.register, step.n), step.start),
                (wanted.n, wanted.digit, wanted.exponent, wanted.start),
                "{input:?}"
            );
            before = wanted.exponent;
            let seen = [(0, step.before), (0, step.register), (1, step.entry), (2, step.cut)];
            for (what, p) in seen {
                for (most, bits) in self.bits[what].iter_mut().zip(bits_of(p)) {
                    *most = bits.max(*most);
                }
            }
        }
        assert_eq!(run.next(), None);
    }

    /// These bits suffice for every step, and fewer do not.
    fn check(&self, width: Width) {
        println!("{width:?}: refused, near and far: {:?}; bits: {:?}", self.inputs, self.bits);
        assert!(self.inputs.iter().all(|&count| count > 100));
        let [register, entry] = [2, 3].map(|bits| [width.fraction_bits + bits; 2]);
        assert_eq!(self.bits, [register, entry, [5, 6]]);
    }
}

#[test]
fn random_inputs() {
    for width in WIDTHS {
        let mut seen = Seen::default();
        let mut random = Random::new(90);
        for _ in 0..SAMPLES {
            seen.run(exp_input(&mut random, width), width);
        }
        seen.check(width);
    }
}

#[test]
fn edges() {
    let mut seen = Seen::default();
    for input in exp_edges() {
        seen.run(input, WIDTH_48);
    }
    seen.check(WIDTH_48);
}

/// 000's rule for what is looked at is 01's for the whole exponent: at every step, at every
/// sixteenth that a register can have and a unit of the exponent beside.
#[test]
fn digits_off_the_cut_parts() {
    for width in WIDTHS {
        for n in 1..=width.max_steps() as u32 {
            for sixteenths in -32..=32 {
                for beside in -1..=1 {
                    let part = (sixteenths << (width.fraction_bits - 4 - n)) + beside;
                    let exponent = point(part, part);
                    assert_eq!(
                        register::digit(cut(exponent.shifted_up(n), width)),
                        exponential::digit(exponent, n, CUT, width),
                        "step {n}, {part}"
                    );
                }
            }
        }
    }
}

/// Its digits, the first nine rows, and by hand what is looked at first: of 1.02 and 0.58.
#[test]
fn figure_1() {
    let run: Vec<_> = register::steps(EXPONENT, point(WIDTH_48.one(), 0), WIDTH_48).collect();
    assert_eq!([0, 1, 2, 3, 4, 5, 6, 7].map(|place| run[place].digit), figure_digits());
    assert_eq!(run[0].cut, point(0b01_000, 0b00_1001));
    for (k, printed) in rows_of_01().filter(|&(k, _)| k > 1) {
        let step = run[k - 2];
        let left = remainder(step.register, step.n);
        let row = [step.start.x, step.start.y, left.x, left.y];
        for (units, text) in row.into_iter().zip(printed) {
            assert_eq!(like(text, units), text, "row {k}");
        }
    }
}
