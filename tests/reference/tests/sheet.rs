//! Sheets: what is a line, what is a number, and every byte of the answer.

use reference::answer::record;
use reference::damage::{self, not_rising, tabs, MALFORMED, REFUSED};
use reference::exponential::exp;
use reference::logarithm::log;
use reference::samples::{self, Random};
use reference::sheet::{
    answer_into, answer_line, answer_sheet, parse, write_line, Call, LINE_BUFFER,
};
use reference::width::WIDTH_48 as W;

fn answer(line: &str) -> String {
    String::from_utf8(answer_line(&tabs(line), W).1).unwrap().replace('\t', "|")
}

#[test]
fn malformed_lines() {
    for line in MALFORMED.into_iter().chain(["1|LOG|40|1|0\n"]) {
        assert_eq!(answer(line), "0|REF|5\n", "{line:?}");
    }
    assert_eq!(answer_line(b"1\tLOG\t40\t\xff\t0", W), (5, tabs("0|REF|5\n")));
    assert_eq!(answer_line(&vec![b'1'; 1_000_000], W), (5, tabs("0|REF|5\n")));
}

#[test]
fn well_formed_but_refused() {
    for (line, wanted) in REFUSED {
        assert_eq!(answer(line), format!("{wanted}\n"));
    }
}

#[test]
fn ends_of_lines() {
    let sheet = |input: &str| {
        let output = String::from_utf8(answer_sheet(&tabs(input), W)).unwrap();
        output.replace('\t', "|")
    };
    assert_eq!(sheet(""), "BKM|48\n");
    assert_eq!(sheet("\n"), "BKM|48\n0|REF|5\n");
    assert_eq!(sheet("\n\n"), "BKM|48\n0|REF|5\n0|REF|5\n");
    assert_eq!(sheet("2|LOG|40|0|0"), "BKM|48\n2|REF|4\n");
    assert_eq!(sheet("2|LOG|40|0|0\n\n"), "BKM|48\n2|REF|4\n0|REF|5\n");
    assert_eq!(sheet("1|LOG|40|0|0\n2|LOG|2|0|0\n"), "BKM|48\n1|REF|4\n2|REF|1\n");
    assert_eq!(sheet("BKM|48\n"), "BKM|48\n0|REF|5\n");
}

#[test]
fn numbers_that_do_not_rise() {
    for (sheet, answer) in not_rising() {
        assert_eq!(answer_sheet(&sheet, W), answer, "{:?}", String::from_utf8_lossy(&sheet));
    }
}

#[test]
fn longest_line() {
    let line = damage::longest_line();
    assert_eq!(line.len(), 116);
    assert_eq!(answer_line(&line, W), (1, tabs("9999999|REF|1\n")));
}

#[test]
fn lines_carry_the_figures() {
    let mut random = Random::new(6);
    for _ in 0..50_000 {
        let line = samples::line(&mut random, W);
        let (refusal, answer) = answer_line(&line, W);
        assert!(answer.len() <= LINE_BUFFER);
        let Some(parsed) = parse(&line) else {
            assert_eq!((refusal, answer), (5, tabs("0|REF|5\n")));
            continue;
        };
        assert_eq!(write_line(parsed), line);
        let (kind, n, figures) = match parsed.call {
            Call::Exp(input) => ("EXP", input.n, record(exp(input, W))),
            Call::Log(input) => ("LOG", input.n, record(log(input, W))),
        };
        let [number, x, y, k, q, bound, rx, ry] = figures;
        let serial = parsed.serial;
        let wanted = match kind {
            _ if number != 0 => format!("{serial}|REF|{number}\n"),
            "EXP" => format!("{serial}|EXP|{n}|{x}|{y}|{rx}|{ry}|{k}|{bound}\n"),
            _ => format!("{serial}|LOG|{n}|{x}|{y}|{rx}|{ry}|{k}|{q}|{bound}\n"),
        };
        assert_eq!((refusal, answer), (number, tabs(&wanted)));
    }
}

#[test]
fn lent_buffers() {
    let far = "5|EXP|40|2251799813685248|-2251799813685248|288230376151711744|0";
    let lines = ["1|EXP|40|0|0|281474976710656|0", "2|LOG|40|0|0", "nonsense", "4|LOG|40|-3|8"];
    for line in lines.into_iter().chain([far]).map(tabs) {
        let (refusal, answer) = answer_line(&line, W);
        for length in 0..=300 {
            let mut out = vec![0xa5; length];
            let handed = answer_into(&line, &mut out, W);
            let written = if length < 128 { 0 } else { answer.len() };
            assert_eq!(handed, (if length < 128 { 6 } else { refusal }, written));
            assert_eq!(out[..written], answer[..written]);
            assert!(out[written..].iter().all(|&byte| byte == 0xa5));
        }
    }
}
