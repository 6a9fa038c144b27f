//! EXP by the register: the product's call beside the plain ones and beside its EXP.

use crate::contenders::{fill_records, STEPS};
use crate::effort::Effort;
use crate::operation::{plain_c, Operation};
use crate::rounds::{rows, Contender};
use crate::table::print_table;
use plain::c::VERSION;
use plain::engines::exp_register_record;
use reference::answer::RECORD_BYTES;
use reference::exponential::Input as Exp;
use reference::samples::{exp_input, Random};
use reference::width::WIDTH_48;

type Call = fn(Exp, &mut [u8]) -> i64;

fn in_rust(i: Exp, out: &mut [u8]) -> i64 {
    exp_register_record(i.n, i.ex, i.ey, i.sx, i.sy, out)
}

fn in_c(i: Exp, out: &mut [u8]) -> i64 {
    (plain_c().exp_register_record)(i.n, i.ex, i.ey, i.sx, i.sy, out)
}

/// The product first.
fn versions() -> Vec<(&'static str, Call)> {
    let mut all: Vec<(_, Call)> =
        vec![("bkm_exp_register", compare::exp_register), ("plain Rust", in_rust)];
    if VERSION.is_some() {
        all.push(("plain C", in_c));
    }
    all.push(("bkm_exp", compare::exp));
    all
}

fn compare_versions(effort: &Effort) {
    let versions = versions();
    let mut random = Random::new(35);
    for _ in 0..effort.compared {
        let input = exp_input(&mut random, WIDTH_48);
        let outcome = |call: Call| {
            let mut out = [0; RECORD_BYTES];
            (call(input, &mut out), out)
        };
        let product = outcome(versions[0].1);
        for (name, call) in &versions[1..] {
            assert_eq!(product, outcome(*call), "{name}: {input:?}");
        }
    }
}

pub fn race(effort: &Effort) {
    compare_versions(effort);
    let mut all = Vec::new();
    for n in STEPS {
        let mut random = Random::new(31);
        let inputs: Vec<_> = (0..effort.batch).map(|_| Exp::everyday(&mut random, n)).collect();
        let batch = |(name, call): (&'static str, Call)| -> Contender {
            let inputs = &inputs;
            (name, Box::new(move || fill_records(inputs, call)))
        };
        let contenders = versions().into_iter().map(batch).collect();
        all.extend(rows(contenders, effort.rounds, effort.batch, &format!("N = {n}")));
    }
    print_table(
        "EXP by the register, the same record",
        &["", "", "ns, median", "ns, least", "time / bkm_exp_register"],
        all.into_iter(),
    );
}
