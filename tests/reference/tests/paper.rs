//! The whole run and the edges of 01, with those of 02, E5 and E7.

use reference::answer::record;
use reference::damage::tabs;
use reference::edges::{
    exp_eighths, exp_of_zero, exp_records, exp_refusals, exp_remainders, exp_scales,
    far_exp_records, figure_digits, log_bounds, log_one_digits, log_one_remainders, log_reductions,
    log_refusals, EXP, EX_GREATEST, H, LOG, ONE, Q, R,
};
use reference::exponential::{exp, nearest_multiple, steps, Input as Exp, Reduction, CUT};
use reference::figure::EXPONENT;
use reference::logarithm::{self, log, reduce};
use reference::point::point;
use reference::sheet::answer_sheet;
use reference::tables::{reciprocal, tables};
use reference::width::WIDTH_48 as W;

#[test]
fn whole_run() {
    let input = tabs("1|EXP|40|0|0|281474976710656|0\n2|LOG|40|0|0\n3|EXP|0|0|0|0|0\n");
    let output = tabs("BKM|48\n1|EXP|40|281474976710656|0|0|0|0|2128\n2|REF|4\n3|REF|1\n");
    assert_eq!(answer_sheet(&input, W), output);
    assert_eq!(answer_sheet(&input[..input.len() - 1], W), output);
}

#[test]
fn limits_of_exp() {
    for (input, refusal) in exp_refusals() {
        let numbers = record(exp(input, W));
        assert_eq!(numbers[0], refusal, "{input:?}");
        assert!(refusal == 0 || numbers[1..] == [0; 7], "{input:?}");
    }
}

#[test]
fn limits_of_log() {
    for (input, refusal) in log_refusals() {
        let numbers = record(log(input, W));
        assert_eq!(numbers[0], refusal, "{input:?}");
        assert!(refusal == 0 || numbers[1..] == [0; 7], "{input:?}");
    }
}

#[test]
fn records_of_exp() {
    for (input, wanted) in exp_records().into_iter().chain(far_exp_records()) {
        assert_eq!(record(exp(input, W)), wanted, "{input:?}");
    }
}

#[test]
fn exp_of_start_zero() {
    for input in exp_of_zero() {
        let (zero, other) = (record(exp(input, W)), record(exp(Exp { sx: ONE, ..input }, W)));
        assert_eq!(zero[..6], [0, 0, 0, 0, 0, 2 * input.n], "{input:?}");
        assert_eq!(zero[6..], other[6..], "{input:?}");
    }
}

#[test]
fn remainders() {
    for (input, remainder) in exp_remainders() {
        assert_eq!(record(exp(input, W))[6..], remainder, "{input:?}");
    }
    for (input, remainder) in log_one_remainders() {
        assert_eq!(record(log(input, W))[6..], remainder, "{input:?}");
    }
}

#[test]
fn scales_of_exp() {
    for (input, k) in exp_scales() {
        assert_eq!(record(exp(input, W))[3], k, "{input:?}");
    }
}

/// By π/4 itself, here in billionths of a unit, p would be another one.
#[test]
fn eighths_by_the_constant() {
    let quarter_pi = 221_069_929_750_888_758_617_686;
    for (input, p) in exp_eighths() {
        let ey = i128::from(input.ey);
        assert_eq!(nearest_multiple(ey, Q.into()), p.into(), "{input:?}");
        assert_eq!(
            nearest_multiple(ey * 1_000_000_000, quarter_pi),
            (p + p.signum()).into(),
            "{input:?}"
        );
        assert_eq!(record(exp(input, W))[5], if p % 2 == 0 { 2128 } else { 4176 }, "{input:?}");
    }
    assert_eq!(exp_eighths().len(), 24);
}

#[test]
fn constants_of_the_reduction() {
    assert_eq!(tables(W).log_of_one_plus_i, point(R.into(), Q.into()));
    assert_eq!(tables(W).log_of_two, point(H.into(), 0));
}

/// Just past 55/64, and at the end of it.
#[test]
fn past_the_rectangle() {
    let input = Exp { ex: EX_GREATEST + 1, ..EXP };
    let exponent = point(46788971605554, 0);
    let wanted = Reduction { exponent, start: input.start(), binary_exponent: 1 };
    assert_eq!(input.reduction(W), wanted);
    let input = Exp { ex: EX_GREATEST, ..EXP };
    assert_eq!(input.reduction(W), input.unreduced());
}

#[test]
fn bounds_of_log() {
    for (input, bound) in log_bounds() {
        assert_eq!(record(log(input, W))[5], bound, "{input:?}");
    }
}

#[test]
fn reductions() {
    for (input, wanted) in log_reductions() {
        assert_eq!(record(log(input, W))[3..5], wanted, "{input:?}");
    }
}

#[test]
fn digits_of_the_figure() {
    let run: Vec<_> = steps(EXPONENT, point(W.one(), 0), CUT, W).take(8).collect();
    assert_eq!(run.iter().map(|step| step.digit).collect::<Vec<_>>(), figure_digits());
    // 1.640625 + 0.328125i
    assert_eq!(run[2].start, point(105 * W.one() / 64, 21 * W.one() / 64));
}

#[test]
fn digits_of_log_of_one() {
    let run = logarithm::steps(reduce(LOG.point(), W), W).take(3);
    assert_eq!(run.map(|step| step.digit).collect::<Vec<_>>(), log_one_digits());
}

/// 02, E1, ties of both signs among them; 01, Where a step goes astray: a cut towards zero, and the
/// new x in making the new y.
#[test]
fn quotients_and_old_parts() {
    let (one, i) = (point(1, 0), point(0, 1));
    assert_eq!(point(-1, 1).step(one, 1), point(-1, 2));
    assert_eq!(point(-3, 3).step(one, 1), point(-4, 5));
    assert_eq!(point(-3, 3).step(one, 2), point(-4, 4));
    assert_eq!(point(-1, 1).step(one, 2), point(-1, 1));
    assert_eq!(point(-8, 8).step(one + i, 2), point(-12, 8));
    assert_eq!(point(1, 4).step(i, 2), point(0, 4));
    assert_eq!(point(4, 4).step(i, 2), point(3, 5));
}

#[test]
fn reciprocal_of_a_cell() {
    assert_eq!(reciprocal(17, 1), point(120, -7));
}
