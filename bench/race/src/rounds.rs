//! Contenders that take turns, each round all of them, and the rows of their times.

use crate::table::{least, median};
use std::time::Instant;

pub type Contender<'a> = (&'static str, Box<dyn FnMut() + 'a>);

/// A row for each contender: its name, `what` all of them worked on, nanoseconds an item as median
/// and least, and the median of its ratios to the first, the product.
pub fn rows(
    mut contenders: Vec<Contender>,
    rounds: usize,
    items: usize,
    what: &str,
) -> Vec<Vec<String>> {
    let mut times = vec![Vec::new(); contenders.len()];
    for _ in 0..rounds {
        for (times, (_, contender)) in times.iter_mut().zip(&mut contenders) {
            let begin = Instant::now();
            contender();
            times.push(begin.elapsed().as_nanos() as f64 / items as f64);
        }
    }
    let row = |((name, _), own): (&Contender, &Vec<f64>)| {
        let ratios = own.iter().zip(&times[0]).map(|(this, product)| this / product);
        vec![
            name.to_string(),
            what.to_string(),
            format!("{:.1}", median(own.iter().copied())),
            format!("{:.1}", least(own)),
            format!("{:.2}", median(ratios)),
        ]
    };
    contenders.iter().zip(&times).map(row).collect()
}
