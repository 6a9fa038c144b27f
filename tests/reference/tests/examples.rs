//! The stored answers that the program and the examples are held to are this implementation's.

use reference::answer::{Answer, Figures};
use reference::closeness::exp_closeness;
use reference::closeness::Claim::{Column, WithRemainder};
use reference::edges::{EXP, LOG, ONE};
use reference::exponential::{exp, Input as Exp};
use reference::figure::EXPONENT;
use reference::logarithm::{log, Input as Log};
use reference::merge::{merge, stopped_at};
use reference::register;
use reference::sheet::answer_sheet;
use reference::width::WIDTH_48 as W;
use std::fs;

fn bytes(name: &str) -> Vec<u8> {
    let path = format!("{}/../../{name}", env!("CARGO_MANIFEST_DIR"));
    fs::read(&path).unwrap_or_else(|error| panic!("{path}: {error}"))
}

fn stored(name: &str) -> String {
    String::from_utf8(bytes(name)).expect("an example is text")
}

fn answered(answer: Answer) -> Figures {
    answer.expect("an example that is answered")
}

/// The pairs of numbers in braces in an example's source: an outline, in ones.
fn outline(name: &str) -> Vec<[f64; 2]> {
    let source = stored(name);
    let pair = |text: &str| {
        let (x, y) = text.split_once('}')?.0.split_once(',')?;
        Some([x.trim().parse().ok()?, y.trim().parse().ok()?])
    };
    let pairs: Vec<_> = source.split('{').filter_map(pair).collect();
    assert!(pairs.len() >= 12, "{name}");
    pairs
}

fn units(ones: f64) -> i64 {
    (ones * ONE as f64) as i64
}

fn ones(units: i64) -> f64 {
    units as f64 / ONE as f64
}

#[test]
fn sheets() {
    for (sheet, answers) in [
        ("crates/bkm/stdin", "crates/bkm/stdout"),
        ("examples/kernels.sheet", "examples/kernels.answer"),
    ] {
        assert!(answer_sheet(&bytes(sheet), W) == bytes(answers), "{answers}");
    }
}

/// Lines of `kernels.answer` whose last field, for EXP times 2^k, is at most 1000.
#[test]
fn small_bounds() {
    let small = |line: &&str| {
        let fields: Vec<_> = line.split('\t').collect();
        let last = |back: usize| fields[fields.len() - back].parse::<i32>().unwrap_or(i32::MAX);
        match fields[1] {
            "EXP" => f64::from(last(1)) * 2f64.powi(last(2)) <= 1000.0,
            "LOG" => last(1) <= 1000,
            _ => false,
        }
    };
    let kernels = stored("examples/kernels.answer");
    let wanted: Vec<_> = kernels.lines().filter(small).collect();
    assert_eq!(wanted, stored("examples/small_bounds.answer").lines().collect::<Vec<_>>());
    assert!(wanted.len() > 3);
}

#[test]
fn merged_sheets() {
    let [first, second, both] =
        ["first", "second", "both"].map(|name| bytes(&format!("examples/{name}.sheet")));
    assert_eq!(merge(&first, &second), Ok(both));
}

/// Two sheets that clash: the lines that are named.
#[test]
fn clashing_sheets() {
    let names = ["examples/first.sheet", "examples/kernels.sheet"];
    let (refusal, at) = stopped_at(&bytes(names[0]), &bytes(names[1]));
    let reason = "the other sheet has a differing line under its number";
    let said =
        |i: usize| format!("merge_sheets: {}, line {}: {reason} ({refusal})\n", names[i], at[i]);
    assert_eq!(said(0) + &said(1), stored("examples/clash.said"));
    assert_eq!(refusal, 8);
}

#[test]
fn turned_outline() {
    let mut wanted = String::new();
    for [x, y] in outline("examples/turn_outline.c") {
        let input = Exp { ey: ONE / 2, sx: units(x), sy: units(y), ..EXP };
        let f = answered(exp(input, W));
        let [x, y, bound] = [f.x, f.y, f.error_bound].map(ones);
        wanted += &format!("{x:+.13} {y:+.13}, each to {bound:.1e}\n");
    }
    assert_eq!(wanted, stored("examples/turn_outline.answer"));
}

/// The errors of both claims in the exact arithmetic of `closeness`, where the example has the C
/// library's long doubles.
#[test]
fn multiplied_back() {
    let mut wanted =
        vec![" N    units off by          at most | times e^remainder  at most".to_string()];
    for n in (5..=40).step_by(5) {
        let input = Exp { n, ex: EXPONENT.x as i64, ey: EXPONENT.y as i64, ..EXP };
        let f = answered(exp(input, W));
        let [off, back] = [Column, WithRemainder].map(|claim| exp_closeness(input, f, claim, W));
        let [off, back, allowed] = [off.error, back.error, back.allowed].map(|part| part.to_f64());
        let bound = f.error_bound;
        wanted.push(format!("{n:2}{off:16.0} {bound:16} |{back:18.0} {:8.0}", allowed.ceil()));
    }
    assert_eq!(wanted, stored("examples/multiply_back.answer").lines().collect::<Vec<_>>());
}

/// The register, in bits and as a number, what is looked at, the digit and the scaled entry.
#[test]
fn traced_register() {
    let number = |part: i128, bits: u32| {
        format!("  {:013x} {:+.15}", part & ((1 << bits) - 1), part as f64 / ONE as f64)
    };
    let looked_at = |cut: i128, fraction: usize| {
        let bits = format!("{:0places$b}", cut & ((4 << fraction) - 1), places = fraction + 2);
        format!("{}.{}", &bits[..2], &bits[2..])
    };
    let heads = ["register", "looked at", "digit  scaled entry"];
    let mut wanted = vec![format!(" n    {:<32}  {}  {}", heads[0], heads[1], heads[2])];
    let mut end = EXPONENT;
    for step in register::steps(EXPONENT, EXP.start(), W).take(10) {
        for (name, part, cut, digit, entry) in [
            ('x', step.before.x, looked_at(step.cut.x, 3), step.digit.x, step.entry.x),
            ('y', step.before.y, looked_at(step.cut.y, 4), step.digit.y, step.entry.y),
        ] {
            let (register, entry) = (number(part, 50), number(entry, 51));
            wanted.push(format!("{:2} {name}{register}  {cut:9}  {digit:5}{entry}", step.n));
        }
        end = step.register;
    }
    wanted.extend(
        [('x', end.x), ('y', end.y)].map(|(name, part)| format!("11 {name}{}", number(part, 50))),
    );
    let left = register::remainder(end, 10);
    wanted.push(format!("left over: {} and {} units", left.x, left.y));
    assert_eq!(wanted, stored("examples/register_trace.answer").lines().collect::<Vec<_>>());
}

/// The points and the last two numbers of each, angle and length, which 17 digits tell to the bit.
#[test]
fn plotted_outline() {
    let corners = outline("examples/plot_outline.c");
    let answer = stored("examples/plot_outline.answer");
    let mut lines = answer.lines().skip_while(|line| !line.starts_with('#')).skip(1);
    for i in 0..=10 * corners.len() {
        let [from, to] = [i / 10, i / 10 + 1].map(|corner| corners[corner % corners.len()]);
        let share = (i % 10) as f64 / 10.0;
        let [x, y] = [0, 1].map(|part| units(from[part] + share * (to[part] - from[part])));
        let f = answered(log(Log { x, y, ..LOG }, W));
        let angle = ones(f.y) * 57.29577951308232 + f.quadrant as f64 * 90.0;
        let length = ones(f.x) + f.binary_exponent as f64 * 0.6931471805599453;
        let line = lines.next().expect("a line for each point");
        let (point, log) = line.match_indices(' ').nth(1).map(|(at, _)| line.split_at(at)).unwrap();
        assert_eq!(point, format!("{:.6} {:.6}", ones(x), ones(y)));
        let seen: Vec<f64> = log.split_whitespace().map(|text| text.parse().unwrap()).collect();
        assert_eq!(seen, [angle, length], "{line}");
    }
    assert_eq!(lines.next(), Some("END"));
}
