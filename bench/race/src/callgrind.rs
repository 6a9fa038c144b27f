//! Instructions as valgrind counts them: the figure that a busy machine cannot move.

use crate::effort::Effort;
use std::process::Command;

/// Runs what `add_program` puts behind valgrind; none where there is no valgrind.
fn instructions(add_program: impl Fn(&mut Command)) -> Option<u64> {
    let mut command = Command::new("valgrind");
    command.args(["--tool=callgrind", "--callgrind-out-file=/dev/null"]);
    add_program(&mut command);
    let output = command.output().ok()?;
    let report = String::from_utf8_lossy(&output.stderr);
    let (_, total) = report.lines().find_map(|line| line.split_once("Collected :"))?;
    total.trim().parse().ok()
}

/// From two runs that differ by some counts of `items` items each, which leaves out how a
/// program begins.
pub fn instructions_per_item(
    effort: &Effort,
    counts: [usize; 2],
    items: usize,
    add_program: impl Fn(&mut Command, usize),
) -> String {
    if !effort.counts {
        return "not counted".to_string();
    }
    match counts.map(|count| instructions(|command| add_program(command, count))) {
        [Some(few), Some(many)] => {
            let items = (counts[1] - counts[0]) * items;
            format!("{:.0}", (many - few) as f64 / items as f64)
        }
        _ => "no valgrind".to_string(),
    }
}
