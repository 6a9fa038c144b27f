//! The plain versions against the second implementation of the tests.

use plain::doubles::{log_doubles, read_doubles, Doubles, DoublesAnswer, UnitsAnswer};
use plain::{c, engines, merge, sheet};
use reference::answer::{write_record, RECORD_BYTES};
use reference::damage::{every_damage, longest_line, merges};
use reference::doubles::{doubles_answer, units_answer};
use reference::edges::{exp_edges, EXP, LOG};
use reference::merge::merge_into;
use reference::samples::{self, double, exp_input, line, log_input, Random};
use reference::width::WIDTH_48 as W;
use reference::{exponential, logarithm, register};
use std::io::Write;
use std::process::{Command, Stdio};
use std::thread;

const SAMPLES: usize = 200_000;

/// What a call hands back and writes.
fn outcome(call: impl FnOnce(&mut [u8]) -> i64) -> (i64, [u8; RECORD_BYTES]) {
    let mut out = [0; RECORD_BYTES];
    (call(&mut out), out)
}

#[test]
fn exp() {
    let mut random = Random::new(11);
    let drawn = (0..SAMPLES).map(|_| exp_input(&mut random, W));
    for i in drawn.chain(exp_edges()) {
        let ours = outcome(|out| engines::exp_record(i.n, i.ex, i.ey, i.sx, i.sy, out));
        let theirs = outcome(|out| write_record(exponential::exp(i, W), out));
        assert_eq!(ours, theirs, "{i:?}");
        if let Some(c) = c::VERSION {
            let c = outcome(|out| (c.exp_record)(i.n, i.ex, i.ey, i.sx, i.sy, out));
            assert_eq!(c, theirs, "{i:?}");
        }
    }
}

#[test]
fn exp_by_the_register() {
    let mut random = Random::new(17);
    let drawn = (0..SAMPLES).map(|_| exp_input(&mut random, W));
    for i in drawn.chain(exp_edges()) {
        let ours = outcome(|out| engines::exp_register_record(i.n, i.ex, i.ey, i.sx, i.sy, out));
        let theirs = outcome(|out| write_record(register::exp(i, W), out));
        assert_eq!(ours, theirs, "{i:?}");
        if let Some(c) = c::VERSION {
            let c = outcome(|out| (c.exp_register_record)(i.n, i.ex, i.ey, i.sx, i.sy, out));
            assert_eq!(c, theirs, "{i:?}");
        }
    }
}

#[test]
fn log() {
    let mut random = Random::new(12);
    for _ in 0..SAMPLES {
        let i = log_input(&mut random, W);
        let ours = outcome(|out| engines::log_record(i.n, i.x, i.y, out));
        let theirs = outcome(|out| write_record(logarithm::log(i, W), out));
        assert_eq!(ours, theirs, "{i:?}");
        if let Some(c) = c::VERSION {
            let c = outcome(|out| (c.log_record)(i.n, i.x, i.y, out));
            assert_eq!(c, theirs, "{i:?}");
        }
    }
}

#[test]
fn doubles() {
    let bits = |d: DoublesAnswer| (d.refusal, [d.parts.x, d.parts.y].map(f64::to_bits));
    let units = |u: UnitsAnswer| [u.refusal, u.x, u.y];
    let mut random = Random::new(16);
    for _ in 0..SAMPLES {
        let i = log_input(&mut random, W);
        let wanted = doubles_answer(logarithm::log(i, W), W);
        assert_eq!(bits(log_doubles(i.n, i.x, i.y)), wanted, "{i:?}");
        let pattern = [(); 2].map(|_| double(&mut random, W));
        let [x, y] = pattern.map(f64::from_bits);
        let read = units_answer(pattern, W);
        assert_eq!(units(read_doubles(Doubles { x, y })), read, "{pattern:016x?}");
        if let Some(c) = c::VERSION {
            assert_eq!(bits((c.log_doubles)(i.n, i.x, i.y)), wanted, "{i:?}");
            assert_eq!(units((c.read_doubles)(Doubles { x, y })), read, "{pattern:016x?}");
        }
    }
}

/// Bytes past the record keep their values; a buffer that is too short keeps all.
#[test]
fn lent_buffers() {
    for length in 0..=2 * RECORD_BYTES {
        let lent = |call: &dyn Fn(&mut [u8]) -> i64| {
            let mut out = vec![0xa5; length];
            (call(&mut out), out)
        };
        let (e, l) = (EXP, LOG);
        let exp = lent(&|out| write_record(exponential::exp(e, W), out));
        let log = lent(&|out| write_record(logarithm::log(l, W), out));
        assert_eq!(lent(&|out| engines::exp_record(e.n, e.ex, e.ey, e.sx, e.sy, out)), exp);
        let register = lent(&|out| engines::exp_register_record(e.n, e.ex, e.ey, e.sx, e.sy, out));
        assert_eq!(register, exp);
        assert_eq!(lent(&|out| engines::log_record(l.n, l.x, l.y, out)), log);
        if let Some(c) = c::VERSION {
            assert_eq!(lent(&|out| (c.exp_record)(e.n, e.ex, e.ey, e.sx, e.sy, out)), exp);
            let register =
                &|out: &mut [u8]| (c.exp_register_record)(e.n, e.ex, e.ey, e.sx, e.sy, out);
            assert_eq!(lent(register), exp);
            assert_eq!(lent(&|out| (c.log_record)(l.n, l.x, l.y, out)), log);
        }
    }
}

#[test]
fn lines() {
    let mut random = Random::new(13);
    for _ in 0..SAMPLES {
        let line = line(&mut random, W);
        let mut ours = Vec::new();
        sheet::answer_line(&mut 0, &line, &mut ours).unwrap();
        assert_eq!(ours, reference::sheet::answer_line(&line, W).1, "{line:?}");
    }
}

/// What the C program writes.
fn answered_by_c(program: &str, sheet: &[u8]) -> Vec<u8> {
    let mut child =
        Command::new(program).stdin(Stdio::piped()).stdout(Stdio::piped()).spawn().unwrap();
    let mut stdin = child.stdin.take().unwrap();
    thread::scope(|scope| {
        scope.spawn(move || stdin.write_all(sheet).unwrap());
        child.wait_with_output().unwrap().stdout
    })
}

#[test]
fn sheets() {
    let mut random = Random::new(14);
    let long = samples::sheet(&mut random, SAMPLES / 4, W);
    let lines: Vec<_> = (0..SAMPLES / 4).map(|_| line(&mut random, W)).collect();
    let mut sheets = vec![long, lines.join(&b'\n'), every_damage(&longest_line()).join(&b'\n')];
    sheets.push(vec![b'7'; 200_000]);
    for short in ["", "\n", "\n\n", "2\tLOG\t40\t0\t0", "1\tLOG\t9\t5\t5\n\n"] {
        sheets.push(short.into());
    }
    for given in sheets {
        let wanted = reference::sheet::answer_sheet(&given, W);
        let mut ours = Vec::new();
        sheet::answer_sheet(&given[..], &mut ours).unwrap();
        assert!(ours == wanted);
        if let Some(c) = c::VERSION {
            assert!(answered_by_c(c.program, &given) == wanted);
        }
    }
}

#[test]
fn merged() {
    let mut random = Random::new(15);
    let drawn = (0..SAMPLES / 100).map(|i| samples::two_sheets(&mut random, i % 90, 90, W));
    let small = merges().into_iter().map(|(first, second, _)| [first, second]);
    for [first, second] in drawn.chain(small) {
        for room in [0, 1, 2, 3, 100].map(|extra| first.len() + second.len() + extra) {
            let (mut ours, mut theirs) = (vec![0xa5; room], vec![0xa5; room]);
            let count = merge::merge(&first, &second, &mut ours);
            assert_eq!(count, merge_into(&first, &second, &mut theirs));
            assert!(ours == theirs);
        }
    }
}
