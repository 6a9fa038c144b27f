//! LOG in doubles and doubles read back: the product's calls beside the plain ones.

use crate::contenders::STEPS;
use crate::effort::Effort;
use crate::operation::Operation;
use crate::rounds::{rows, Contender};
use crate::table::print_table;
use plain::c::{Version, VERSION};
use plain::doubles::{Doubles, DoublesAnswer, UnitsAnswer};
use reference::answer::RECORD_BYTES;
use reference::logarithm::Input as Log;
use reference::samples::{double, log_input, Random};
use reference::width::WIDTH_48;
use std::hint::black_box;

fn bits(answer: DoublesAnswer) -> (i64, [u64; 2]) {
    (answer.refusal, [answer.parts.x, answer.parts.y].map(f64::to_bits))
}

fn numbers(read: UnitsAnswer) -> [i64; 3] {
    [read.refusal, read.x, read.y]
}

fn of_bits(bits: [u64; 2]) -> Doubles {
    let [x, y] = bits.map(f64::from_bits);
    Doubles { x, y }
}

// Every version by its bits and numbers, as the product's calls are wrapped.

fn plain_log(i: Log) -> (i64, [u64; 2]) {
    bits(plain::doubles::log_doubles(i.n, i.x, i.y))
}

fn plain_read(pattern: [u64; 2]) -> [i64; 3] {
    numbers(plain::doubles::read_doubles(of_bits(pattern)))
}

fn c_log(c: &Version, i: Log) -> (i64, [u64; 2]) {
    bits((c.log_doubles)(i.n, i.x, i.y))
}

fn c_read(c: &Version, pattern: [u64; 2]) -> [i64; 3] {
    numbers((c.read_doubles)(of_bits(pattern)))
}

fn compare_versions(effort: &Effort) {
    let mut random = Random::new(33);
    for _ in 0..effort.compared {
        let input = log_input(&mut random, WIDTH_48);
        let pattern = [(); 2].map(|_| double(&mut random, WIDTH_48));
        let (given, read) = (compare::log_doubles(input), compare::read_doubles(pattern));
        assert_eq!(given, plain_log(input), "plain Rust: {input:?}");
        assert_eq!(read, plain_read(pattern), "plain Rust: {pattern:x?}");
        if let Some(c) = &VERSION {
            assert_eq!(given, c_log(c, input), "plain C: {input:?}");
            assert_eq!(read, c_read(c, pattern), "plain C: {pattern:x?}");
        }
    }
}

/// A call on each item.
fn batch<'a, Item: Copy, Answer>(
    name: &'static str,
    items: &'a [Item],
    call: impl Fn(Item) -> Answer + 'a,
) -> Contender<'a> {
    let run = move || {
        for &item in items {
            black_box(call(item));
        }
    };
    (name, Box::new(run))
}

pub fn race(effort: &Effort) {
    compare_versions(effort);
    let mut all = Vec::new();
    for n in STEPS {
        let mut random = Random::new(31);
        let inputs: Vec<_> = (0..effort.batch).map(|_| Log::everyday(&mut random, n)).collect();
        let mut contenders = vec![
            batch("bkm_log_doubles", &inputs, compare::log_doubles),
            batch("plain Rust", &inputs, plain_log),
        ];
        if let Some(c) = VERSION {
            contenders.push(batch("plain C", &inputs, move |input| c_log(&c, input)));
        }
        contenders.push(batch("bkm_log, a record", &inputs, |i| {
            let mut out = [0; RECORD_BYTES];
            compare::log(i, black_box(&mut out))
        }));
        all.extend(rows(contenders, effort.rounds, effort.batch, &format!("N = {n}")));
    }
    let mut random = Random::new(34);
    let inputs = (0..effort.batch).map(|_| Log::everyday(&mut random, STEPS[1]));
    let answers: Vec<_> = inputs.map(|input| compare::log_doubles(input).1).collect();
    let mut contenders = vec![
        batch("bkm_read_doubles", &answers, compare::read_doubles),
        batch("plain Rust", &answers, plain_read),
    ];
    if let Some(c) = VERSION {
        contenders.push(batch("plain C", &answers, move |pattern| c_read(&c, pattern)));
    }
    all.extend(rows(contenders, effort.rounds, effort.batch, "reading"));
    print_table(
        "LOG in doubles, and doubles read back, the same bits",
        &["", "", "ns, median", "ns, least", "time / the product's"],
        all.into_iter(),
    );
}
