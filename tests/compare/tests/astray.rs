//! 01, Where a step goes astray, a step that does not round as 02, E1 says, and a reduction, a
//! reciprocal or a remainder that is not that of 02, E5, E6 and E7: the product against the second
//! implementation with one fault put in, on inputs at which the fault shows.

use compare::{exp_figures, log_figures};
use reference::answer::Figures;
use reference::edges::{EXP, EX_GREATEST, EY_GREATEST, H, ONE, Q};
use reference::exponential::{
    self, in_rectangle, nearest_multiple, Input as Exp, Reduction, CUT, FACTORS,
};
use reference::logarithm::{self, Input as Log};
use reference::point::{
    ceiling_quotient, floor_quotient, nearest_quotient, point, word, Digit, Point, Quotient,
};
use reference::samples::{exp_input, log_input, Random};
use reference::tables::{cell_xs, cell_ys, reciprocal, tables};
use reference::width::WIDTH_48 as W;

#[derive(Clone, Copy, PartialEq, Eq, Debug)]
enum Fault {
    /// None.
    Right,
    /// A step's quotient by floor, as before E1, cut towards zero, or with a half rounded down.
    StepFloor,
    StepCut,
    StepHalfDown,
    /// LOG's scale, which keeps plain floor, cut towards zero or to the nearest.
    ScaleCut,
    ScaleNearest,
    /// Likewise the product with the reciprocal.
    ProductCut,
    ProductNearest,
    /// A reciprocal by floor, without the half, with its second part cut towards zero, or with X
    /// and Y exchanged.
    ReciprocalFloor,
    ReciprocalCut,
    ReciprocalAcross,
    /// The new x used in making the new y.
    NewX,
    /// The half before the real logarithm lost.
    HalfLost,
    /// Equation 3.10 of 004: a minus before the squares.
    MinusSquares,
    /// EXP's reduction inside the rectangle, too.
    ReducedInside,
    /// p by floor, without the half.
    EighthsFloor,
    /// An odd p below zero taken for an even one.
    OddCut,
    /// The factor by the size of the remainder that a cut division leaves.
    FactorCut,
    /// k before ex has lost the half of ln 2.
    DoublingsFirst,
    /// k with the other sign.
    DoublingsSign,
    /// M of the given start.
    GivenLarger,
    /// The remainder before the last step.
    RemainderEarly,
    /// Its parts exchanged.
    RemainderAcross,
    /// What is left of the given exponent and not of the reduced one.
    RemainderGiven,
    /// LOG's point itself, not less one.
    RemainderPoint,
}

use Fault::*;

fn cut_quotient(a: i128, n: u32) -> i128 {
    a / (1 << n)
}

fn half_down_quotient(a: i128, n: u32) -> i128 {
    -nearest_quotient(-a, n)
}

impl Fault {
    fn step(self, p: Point, d: Digit, n: u32) -> Point {
        let quotient: Quotient = match self {
            StepFloor => floor_quotient,
            StepCut => cut_quotient,
            StepHalfDown => half_down_quotient,
            _ => nearest_quotient,
        };
        let right = p.step_by(quotient, d, n);
        if self == NewX {
            point(right.x, p.y + quotient(d.x * p.y + d.y * right.x, n))
        } else {
            right
        }
    }

    /// Where 01 has a plain floor, and these faults none.
    fn floor(self, cut: Fault, nearest: Fault) -> Quotient {
        if self == cut {
            cut_quotient
        } else if self == nearest {
            nearest_quotient
        } else {
            floor_quotient
        }
    }

    fn entry(self, d: Digit, n: u32) -> Point {
        let entry = tables(W).step(n, d);
        match self {
            HalfLost => point(2 * entry.x, entry.y),
            MinusSquares => {
                let power = 2f64.powi(-(n as i32));
                let squares = (d.x * d.x + d.y * d.y) as f64 * power * power;
                let log = (2.0 * d.x as f64 * power - squares).ln_1p() / 2.0;
                point((log * ONE as f64).round() as i128, entry.y)
            }
            _ => entry,
        }
    }

    fn reduction(self, input: Exp) -> Reduction {
        let exponent = input.exponent();
        if self != ReducedInside && in_rectangle(exponent, W) {
            return input.unreduced();
        }
        let (Point { x: r, y: q }, h) = (tables(W).log_of_one_plus_i, tables(W).log_of_two.x);
        let p = match self {
            EighthsFloor => exponent.y.div_euclid(q),
            _ => nearest_multiple(exponent.y, q),
        };
        let odd = if self == OddCut { p % 2 } else { p.rem_euclid(2) };
        let lost = if odd == 1 { r } else { 0 };
        let place = if self == FactorCut { (p % 8).abs() } else { p.rem_euclid(8) };
        let (x, y) = FACTORS[place as usize];
        let k = match self {
            DoublingsFirst => nearest_multiple(exponent.x, h),
            _ => nearest_multiple(exponent.x - lost, h),
        };
        Reduction {
            exponent: exponent - point(lost + k * h, p * q),
            start: input.start().times(point(x, y)),
            binary_exponent: word(if self == DoublingsSign { -k } else { k }),
        }
    }

    /// Of what is left before the last step and after it.
    fn remainder(self, [before, after]: [Point; 2]) -> Point {
        match self {
            RemainderEarly => before,
            RemainderAcross => point(after.y, after.x),
            _ => after,
        }
    }

    fn exp(self, input: Exp) -> Figures {
        let Reduction { mut exponent, mut start, binary_exponent } = self.reduction(input);
        let measured = if self == GivenLarger { input.start() } else { start };
        let lost = if self == RemainderGiven { input.exponent() - exponent } else { point(0, 0) };
        let count = input.n as u32;
        let mut before = exponent;
        for n in 1..=count {
            let digit = exponential::digit(exponent, n, CUT, W);
            before = exponent;
            exponent = exponent - self.entry(digit, n);
            start = self.step(start, digit, n);
        }
        let error_bound =
            ceiling_quotient(8 * measured.larger_part(), count) + 2 * i128::from(count);
        let remainder = self.remainder([before, exponent]) + lost;
        Figures {
            x: word(start.x),
            y: word(start.y),
            binary_exponent,
            quadrant: 0,
            error_bound: word(error_bound),
            remainder_x: word(remainder.x),
            remainder_y: word(remainder.y),
        }
    }

    fn reciprocal(self, x: i128, y: i128) -> Point {
        let s = x * x + y * y;
        match self {
            ReciprocalFloor => point((2048 * x).div_euclid(s), (-2048 * y).div_euclid(s)),
            ReciprocalCut => point(reciprocal(x, y).x, (s - 4096 * y) / (2 * s)),
            ReciprocalAcross => reciprocal(y, x),
            _ => reciprocal(x, y),
        }
    }

    /// None when the scaled point has no cell, as it may have none by rounding up to one.
    fn log(self, input: Log) -> Option<Figures> {
        let reduction = logarithm::reduce(input.point(), W);
        let turned = input.point().turned(-reduction.quadrant);
        let k = reduction.binary_exponent;
        let scale = |part: i128| match k {
            ..=0 => part << -k,
            _ => self.floor(ScaleCut, ScaleNearest)(part, k as u32),
        };
        let scaled = point(scale(turned.x), scale(turned.y));
        let [cx, cy] = [scaled.x, scaled.y].map(|part| 2 * (part >> 44) + 1);
        if !cell_xs().any(|x| x == cx) || !cell_ys().any(|y| y == cy) {
            return None;
        }
        let product = scaled.times(self.reciprocal(cx, cy));
        let floor = self.floor(ProductCut, ProductNearest);
        let [x, y] = [product.x, product.y].map(|part| floor(part, 6));
        let (mut near_one, mut answer) =
            (point(x, y), point(0, 0) - tables(W).reciprocal_log(cx, cy));
        let one = point(W.one(), 0);
        let mut before = near_one;
        for n in logarithm::FIRST_STEP..=input.n as u32 {
            let digit = logarithm::digit(near_one - one, n, W);
            before = near_one;
            near_one = self.step(near_one, digit, n);
            answer = answer - self.entry(digit, n);
        }
        let less = if self == RemainderPoint { point(0, 0) } else { one };
        let remainder = self.remainder([before - less, near_one - less]);
        let error_bound = ceiling_quotient(3 * input.point().larger_part(), input.n as u32);
        Some(Figures {
            x: word(answer.x),
            y: word(answer.y),
            binary_exponent: k.into(),
            quadrant: reduction.quadrant,
            error_bound: word(error_bound),
            remainder_x: word(remainder.x),
            remainder_y: word(remainder.y),
        })
    }
}

fn parts(figures: Option<Figures>) -> Option<Point> {
    figures.map(Figures::parts)
}

/// One step by hand.
#[test]
fn one_step() {
    let real = Exp { n: 1, ex: ONE / 2, ..EXP };
    let imaginary = Exp { n: 1, ey: EY_GREATEST, ..EXP };
    let cases = [
        (Exp { sx: -1, sy: 0, ..real }, [-1, 0], StepHalfDown),
        (Exp { sx: 0, sy: 1, ..real }, [0, 2], StepFloor),
        (Exp { sx: 3, sy: -5, ..real }, [5, -7], StepFloor),
        (Exp { sx: 3, sy: -5, ..real }, [5, -7], StepCut),
        (Exp { sx: 3, sy: -5, ..real }, [5, -7], StepHalfDown),
        (Exp { sx: 0, sy: -1, ..imaginary }, [1, -1], StepFloor),
        (Exp { sx: 1, sy: 0, ..imaginary }, [1, 1], StepCut),
        (Exp { sx: -1, sy: 0, ..imaginary }, [-1, 0], StepHalfDown),
        (Exp { sx: 0, sy: 4, ..imaginary }, [-2, 4], NewX),
        (Exp { sx: 4, sy: 4, ..imaginary }, [2, 6], NewX),
        (Exp { sx: ONE, sy: -ONE, ..imaginary }, [3 * ONE / 2, -ONE / 2], NewX),
    ];
    for (input, parts, fault) in cases {
        let [x, y] = parts.map(i128::from);
        assert_eq!(exp_figures(input).unwrap().parts(), point(x, y), "{input:?}");
        assert_ne!(fault.exp(input).parts(), point(x, y), "{fault:?} does not show at {input:?}");
    }
}

/// Every N: a small start shows the rounding, a large one the old pair and the tables.
#[test]
fn every_count_of_steps() {
    for n in 1..=40 {
        let one = Exp { n, ex: ONE / 2, ey: EY_GREATEST, sx: ONE, sy: 0 };
        let small = Exp { sx: 1, sy: 0, ..one };
        for (input, fault) in [
            (small, StepFloor),
            (small, StepCut),
            (small, StepHalfDown),
            (one, NewX),
            (one, HalfLost),
            (one, MinusSquares),
        ] {
            let (seen, faulty) = (exp_figures(input).unwrap(), fault.exp(input));
            assert_eq!(seen, Right.exp(input), "{input:?}");
            assert_ne!(seen, faulty, "{fault:?} does not show at {input:?}");
            // The first step has the digit 1 + i whatever its entry is: only the remainder tells.
            let shows = n > 1 || !matches!(fault, HalfLost | MinusSquares);
            assert_eq!(seen.parts() != faulty.parts(), shows, "{fault:?} at {input:?}");
        }
    }
}

/// EXP's reduction at every N.
#[test]
fn reduction_of_exp() {
    for n in 1..=40 {
        let one = Exp { n, ..EXP };
        for (input, fault) in [
            (Exp { ex: EX_GREATEST, ..one }, ReducedInside),
            (Exp { ey: EY_GREATEST, ..one }, ReducedInside),
            (Exp { ey: Q - 1, ..one }, EighthsFloor),
            (Exp { ey: -Q, ..one }, OddCut),
            (Exp { ey: -Q, ..one }, FactorCut),
            (Exp { ey: -2 * Q, ..one }, FactorCut),
            (Exp { ey: Q, ..one }, DoublingsFirst),
            (Exp { ex: 2 * H, ..one }, DoublingsSign),
            (Exp { ey: Q, sy: ONE, ..one }, GivenLarger),
        ] {
            let seen = exp_figures(input).unwrap();
            assert_eq!(seen, Right.exp(input), "{input:?}");
            assert_ne!(seen, fault.exp(input), "{fault:?} does not show at {input:?}");
        }
    }
}

/// The remainder at every N. An exponent of 1/2^(N+1) meets its first digit at the last step.
#[test]
fn remainders() {
    for n in 1..=40 {
        let late = Exp { n, ex: ONE >> (n + 1), ..EXP };
        let far = Exp { ex: late.ex + 3 * H, ..late };
        for (input, fault) in [
            (late, RemainderEarly),
            (late, RemainderAcross),
            (far, RemainderEarly),
            (far, RemainderGiven),
        ] {
            let seen = exp_figures(input).unwrap();
            assert_eq!(seen, Right.exp(input), "{input:?}");
            assert_ne!(seen, fault.exp(input), "{fault:?} does not show at {input:?}");
        }
    }
    for n in 3..=40 {
        let input = Log { n, x: ONE, y: ONE / 3 };
        let seen = log_figures(input);
        assert_eq!(seen, Right.log(input), "{input:?}");
        for fault in [RemainderAcross, RemainderPoint] {
            assert_ne!(seen, fault.log(input), "{fault:?} does not show at {input:?}");
        }
    }
}

/// LOG's scale: just below the lower edge of a cell, by less than a unit after scaling. Cut
/// towards zero, the point would be in the cell above.
#[test]
fn scale_of_log() {
    for k in 1..=11 {
        for edge in 0..8 {
            for below in [1, (1 << k) - 1] {
                let turned = point(1 << (47 + k), -(edge << (44 + k)) - below);
                for q in 0..4 {
                    let Point { x, y } = turned.turned(q);
                    let input = Log { n: 40, x: x as i64, y: y as i64 };
                    let seen = log_figures(input);
                    assert_eq!(seen, Right.log(input), "{input:?}");
                    assert_ne!(
                        parts(seen),
                        parts(ScaleCut.log(input)),
                        "does not show at {input:?}"
                    );
                }
            }
        }
    }
}

/// LOG's reciprocals: at the centre of each cell that has it in the cone, a fault shows exactly
/// where it changes the cell's reciprocal.
#[test]
fn reciprocals_of_log() {
    for fault in [ReciprocalFloor, ReciprocalCut, ReciprocalAcross] {
        let mut shown = 0;
        for (cx, cy) in cell_xs().flat_map(|cx| cell_ys().map(move |cy| (cx, cy))) {
            if -cx < cy && cy <= cx {
                let input = Log { n: 40, x: (cx << 43) as i64, y: (cy << 43) as i64 };
                let seen = log_figures(input);
                assert_eq!(seen, Right.log(input), "{input:?}");
                let shows = parts(seen) != parts(fault.log(input));
                let changes = fault.reciprocal(cx, cy) != reciprocal(cx, cy);
                assert_eq!(shows, changes, "{fault:?} at {input:?}");
                shown += u32::from(shows);
            }
        }
        println!("{fault:?}: {shown} cells");
        assert!(shown > 60);
    }
}

/// Each fault shows at many of the random inputs, and at none of them in the product.
#[test]
fn random_inputs() {
    const SAMPLES: usize = 100_000;
    let mut random = Random::new(14);
    for fault in [
        StepFloor,
        StepCut,
        StepHalfDown,
        NewX,
        HalfLost,
        MinusSquares,
        ReducedInside,
        EighthsFloor,
        OddCut,
        FactorCut,
        DoublingsFirst,
        DoublingsSign,
        GivenLarger,
        RemainderEarly,
        RemainderAcross,
        RemainderGiven,
    ] {
        let inputs = (0..SAMPLES).map(|_| exp_input(&mut random, W));
        let shown = inputs.filter(|&input| {
            exp_figures(input).is_some_and(|seen| {
                assert_eq!(seen, Right.exp(input), "{input:?}");
                seen != fault.exp(input)
            })
        });
        let shown = shown.count();
        println!("EXP, {fault:?}: {shown} of {SAMPLES}");
        assert!(shown > SAMPLES / 1000);
    }
    for fault in [
        StepFloor,
        StepCut,
        StepHalfDown,
        ScaleCut,
        ScaleNearest,
        ProductCut,
        ProductNearest,
        ReciprocalFloor,
        ReciprocalCut,
        ReciprocalAcross,
        NewX,
        HalfLost,
        MinusSquares,
        RemainderEarly,
        RemainderAcross,
        RemainderPoint,
    ] {
        let inputs = (0..SAMPLES).map(|_| log_input(&mut random, W));
        let shown = inputs.filter(|&input| {
            let seen = log_figures(input);
            seen.is_some() && {
                assert_eq!(seen, Right.log(input), "{input:?}");
                seen != fault.log(input)
            }
        });
        let shown = shown.count();
        println!("LOG, {fault:?}: {shown} of {SAMPLES}");
        assert!(shown > SAMPLES / 1000);
    }
}
