//! The race: prints the tables of `bench/run` as markdown. `race quick` prints the same from a
//! few rounds, without instructions; `race register`, `race doubles` and `race merges` print one of
//! them alone. `race calls COURSE PLACE COUNT` runs COUNT small batches of one contender and nothing
//! else, for counting instructions.

mod callgrind;
mod contenders;
mod doubles;
mod effort;
mod merges;
mod operation;
mod register;
mod rounds;
mod sheets;
mod table;

use callgrind::instructions_per_item;
use contenders::{contenders, missing, Contender, STEPS};
use effort::{Effort, FULL, QUICK};
use operation::{Course, Operation, EXP, FAR_EXP, LOG};
use reference::answer::RECORD_BYTES;
use reference::exponential::Input as Exp;
use reference::logarithm::Input as Log;
use reference::samples::Random;
use std::env;
use std::time::Instant;
use table::{figure, least, median, print_table};

/// Calls in a batch whose instructions are counted.
const SMALL_BATCH: usize = 500;

fn main() {
    let arguments: Vec<String> = env::args().skip(1).collect();
    match arguments.iter().map(String::as_str).collect::<Vec<_>>()[..] {
        ["calls", name, place, count] if name == LOG.name => calls(&LOG, place, count),
        ["calls", name, place, count] => {
            let course = [EXP, FAR_EXP].into_iter().find(|course| course.name == name);
            calls(&course.expect("a course"), place, count)
        }
        [] => race_all(&FULL),
        ["quick"] => race_all(&QUICK),
        ["register"] => register::race(&FULL),
        ["doubles"] => doubles::race(&FULL),
        ["merges"] => merges::race(&FULL),
        _ => panic!("race [quick|register|doubles|merges], or race calls COURSE PLACE COUNT"),
    }
}

fn race_all(effort: &Effort) {
    let Effort { compared, batch, rounds, judged, .. } = effort;
    println!(
        "Before the race the product and the plain versions gave the same bytes on {compared} \
         inputs of each call, edges and refusals among them. Times are of {rounds} rounds of \
         {batch} calls, the contenders taking turns; a ratio is the median of the rounds' ratios. \
         Errors are the worst of {judged} calls with parts up to one, measured as demand 3 of \
         paper 01 compares: for LOG, how far the exponential of the answer is from the point. A \
         unit is 2^-48; with exponents up to eight, errors and bounds are those of 2^k times the \
         answer."
    );
    if let Some(c) = plain::c::VERSION {
        println!("\nPlain C is compiled by {}, as the product is.", c.compiler);
    }
    compare_versions::<Exp>(effort);
    race(&EXP, effort);
    race(&FAR_EXP, effort);
    register::race(effort);
    compare_versions::<Log>(effort);
    race(&LOG, effort);
    doubles::race(effort);
    for name in missing() {
        println!("\nNot installed, so not in the race: {name}.");
    }
    sheets::race(effort);
    merges::race(effort);
}

fn inputs<Input: Operation>(
    course: &Course<Input>,
    contender: &Contender<Input>,
    count: usize,
) -> Vec<Input> {
    let mut random = Random::new(31);
    let n = contender.steps.unwrap_or(STEPS[0]);
    (0..count).map(|_| (course.draw)(&mut random, n)).collect()
}

fn calls<Input: Operation>(course: &Course<Input>, place: &str, count: &str) {
    let contender = &contenders::<Input>()[place.parse::<usize>().expect("a place")];
    let inputs = inputs(course, contender, SMALL_BATCH);
    for _ in 0..count.parse().expect("a count") {
        (contender.batch)(&inputs);
    }
}

fn compare_versions<Input: Operation>(effort: &Effort) {
    let outcome = |input: Input, call: fn(Input, &mut [u8]) -> i64| {
        let mut out = [0; RECORD_BYTES];
        (call(input, &mut out), out)
    };
    let mut random = Random::new(32);
    for _ in 0..effort.compared {
        let input = Input::any(&mut random);
        let product = outcome(input, Input::product);
        assert_eq!(product, outcome(input, Input::plain), "plain Rust: {input:?}");
        if plain::c::VERSION.is_some() {
            assert_eq!(product, outcome(input, Input::plain_c), "plain C: {input:?}");
        }
    }
}

/// The worst error and the largest bound that came with an answer, in units.
fn judge<Input: Operation>(
    course: &Course<Input>,
    contender: &Contender<Input>,
    effort: &Effort,
) -> (f64, Option<f64>) {
    let (mut worst, mut largest) = (0f64, None);
    for input in inputs(course, contender, effort.judged) {
        let answer = (contender.answer)(input);
        let error = input.error(&answer).to_f64();
        // A column is a promise; the other bounds are not ours to check.
        let promised = answer.bound.filter(|_| contender.steps.is_some());
        assert!(promised.is_none_or(|bound| error <= bound), "{}: {input:?}", contender.name);
        worst = worst.max(error);
        largest = answer.bound.map(|bound| bound.max(largest.unwrap_or(0.0)));
    }
    (worst, largest)
}

/// Nanoseconds per call, by contender and round.
fn times<Input: Operation>(
    course: &Course<Input>,
    all: &[Contender<Input>],
    effort: &Effort,
) -> Vec<Vec<f64>> {
    let batches: Vec<_> =
        all.iter().map(|contender| inputs(course, contender, effort.batch)).collect();
    let mut times = vec![Vec::new(); all.len()];
    for round in 0..=effort.rounds {
        for (place, contender) in all.iter().enumerate() {
            let begin = Instant::now();
            (contender.batch)(&batches[place]);
            // The first round only warms up.
            if round > 0 {
                times[place].push(begin.elapsed().as_nanos() as f64 / effort.batch as f64);
            }
        }
    }
    times
}

fn race<Input: Operation>(course: &Course<Input>, effort: &Effort) {
    let all = contenders::<Input>();
    let times = times(course, &all, effort);
    let ratio = |place: usize, n: i64| {
        // The product is the first with this N; other N do other work.
        let product = all.iter().position(|c| c.steps == Some(n)).expect("the product");
        if all[place].steps.is_some_and(|steps| steps != n) {
            return String::new();
        }
        format!("{:.2}", median(times[place].iter().zip(&times[product]).map(|(a, b)| a / b)))
    };
    let rows = all.iter().enumerate().map(|(place, contender)| {
        let (worst, largest) = judge(course, contender, effort);
        let instructions = instructions_per_item(effort, [1, 3], SMALL_BATCH, |command, count| {
            command.arg(env::current_exe().expect("this program"));
            command.args(["calls", course.name, &place.to_string(), &count.to_string()]);
        });
        vec![
            contender.name.clone(),
            format!("{:.1}", median(times[place].iter().copied())),
            format!("{:.1}", least(&times[place])),
            ratio(place, STEPS[0]),
            ratio(place, STEPS[1]),
            instructions,
            figure(worst),
            largest.map_or(String::new(), figure),
            contender.bound.to_string(),
        ]
    });
    let versus = |n: i64| format!("time / {}, N = {n}", Input::PRODUCT);
    print_table(
        course.name,
        &[
            "",
            "ns, median",
            "ns, least",
            &versus(STEPS[0]),
            &versus(STEPS[1]),
            "instructions",
            "worst error, units",
            "largest bound, units",
            "bound",
        ],
        rows,
    );
}
