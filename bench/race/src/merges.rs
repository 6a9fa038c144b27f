//! Two sheets merged: the product's call beside the plain one, and its example program, which
//! `bench/run` builds, beside `sort -m`.

use crate::effort::Effort;
use crate::rounds::{rows, Contender};
use crate::sheets::{line, SheetFile};
use crate::table::print_table;
use reference::samples::Random;
use std::env;
use std::process::{Command, Stdio};

/// Lines dealt to two sheets; one in 16 stands in both.
fn two_sheets(lines: usize) -> [Vec<u8>; 2] {
    let mut random = Random::new(51);
    let mut sheets = [Vec::new(), Vec::new()];
    for serial in 1..=lines as i64 {
        let line = [line(&mut random, serial), b"\n".to_vec()].concat();
        match random.between(0, 31) as usize {
            0 | 1 => sheets.iter_mut().for_each(|sheet| sheet.extend(&line)),
            place => sheets[place % 2].extend(line),
        }
    }
    sheets
}

fn call(
    merge: fn(&[u8], &[u8], &mut [u8]) -> i64,
    [first, second]: &[Vec<u8>; 2],
    out: &mut [u8],
) -> usize {
    merge(first, second, out).try_into().expect("sheets that are merged")
}

fn example(files: &[SheetFile; 2]) -> Command {
    let mut command =
        Command::new(env::current_exe().expect("this program").with_file_name("../merge_sheets"));
    command.args(files.iter().map(|file| &file.0));
    command
}

/// The same order; equal lines are not told from differing ones, and nothing is checked.
fn sort(files: &[SheetFile; 2]) -> Command {
    let mut command = Command::new("sort");
    command.args(["-m", "-n", "-u"]).args(files.iter().map(|file| &file.0)).env("LC_ALL", "C");
    command
}

fn output(mut command: Command) -> Vec<u8> {
    let output = command.output().expect("a program that runs");
    assert!(output.status.success());
    output.stdout
}

pub fn race(effort: &Effort) {
    let mut all = Vec::new();
    for lines in [effort.lines / 10, effort.lines] {
        let sheets = two_sheets(lines);
        let files = [0, 1].map(|place| SheetFile::new(&format!("merge-{place}"), &sheets[place]));
        let mut out = vec![0; sheets[0].len() + sheets[1].len() + 2];
        let written = call(compare::merge, &sheets, &mut out);
        let wanted = out[..written].to_vec();
        assert!(
            call(plain::merge::merge, &sheets, &mut out) == written && out[..written] == wanted
        );
        assert!(output(example(&files)) == wanted, "merge_sheets merges differently");
        assert!(output(sort(&files)) == wanted, "sort merges differently");

        let (mut out, mut other) = (out.clone(), out);
        let run = |mut command: Command| {
            let status = command.stdout(Stdio::null()).status();
            assert!(status.expect("a program that runs").success());
        };
        let contenders: Vec<Contender> = vec![
            ("bkm_merge", Box::new(|| assert!(call(compare::merge, &sheets, &mut out) == written))),
            (
                "plain Rust",
                Box::new(|| assert!(call(plain::merge::merge, &sheets, &mut other) == written)),
            ),
            ("merge_sheets, from files", Box::new(|| run(example(&files)))),
            ("sort -m -n -u, from files", Box::new(|| run(sort(&files)))),
        ];
        all.extend(rows(contenders, effort.sheet_rounds, lines, &lines.to_string()));
    }
    print_table(
        "Two sheets merged into one, the same bytes",
        &["", "lines", "ns a line, median", "least", "time / bkm_merge"],
        all.into_iter(),
    );
}
