//! What 02, E7 says of a remainder, on the product's records alone.

use compare::{exp_figures, log_figures};
use reference::answer::Figures;
use reference::closeness::Claim::WithRemainder;
use reference::closeness::{exp_closeness, log_closeness, Closeness};
use reference::samples::{exp_input, log_input, Random};
use reference::width::WIDTH_48 as W;

/// "Every remainder part is below 1/2^N in size."
#[test]
fn below_one_over_two_to_the_n() {
    let (mut worst, mut answered) = ([0; 2], [0; 2]);
    let mut check = |place: usize, n: i64, figures: Option<Figures>| {
        let Some(figures) = figures else { return };
        let size = figures.remainder().larger_part() << n;
        assert!(size < W.one(), "N = {n}: {figures:?}");
        worst[place] = size.max(worst[place]);
        answered[place] += 1;
    };
    let mut random = Random::new(60);
    for _ in 0..1_500_000 {
        let input = exp_input(&mut random, W);
        check(0, input.n, exp_figures(input));
        let input = log_input(&mut random, W);
        check(1, input.n, log_figures(input));
    }
    println!(
        "EXP and LOG leave at most {:.3?} of it in {answered:?} answers",
        worst.map(|size| size as f64 / W.one() as f64)
    );
    assert!(answered.iter().all(|&count| count > 1_000_000), "{answered:?}");
}

/// An answer with its remainder is as near as `include/bkm.h` says, by rounding alone.
#[test]
fn answers_with_their_remainders() {
    let (mut worst, mut answered) = ([0.0; 2], [0; 2]);
    let mut check = |place: usize, closeness: Closeness| {
        assert!(closeness.holds(), "{closeness:?}");
        worst[place] = closeness.fraction().max(worst[place]);
        answered[place] += 1;
    };
    let mut random = Random::new(61);
    for _ in 0..60_000 {
        let input = exp_input(&mut random, W);
        if let Some(figures) = exp_figures(input) {
            check(0, exp_closeness(input, figures, WithRemainder, W));
        }
        let input = log_input(&mut random, W);
        if let Some(figures) = log_figures(input) {
            check(1, log_closeness(input, figures, WithRemainder, W));
        }
    }
    println!("EXP and LOG: at most {worst:.3?} of what is allowed in {answered:?} answers");
    assert!(answered.iter().all(|&count| count > 40_000), "{answered:?}");
}
