//! Sheets: the product's program beside the plain ones.

use crate::callgrind::instructions_per_item;
use crate::effort::Effort;
use crate::operation::Operation;
use crate::table::{median, print_table};
use reference::exponential::Input as Exp;
use reference::logarithm::Input as Log;
use reference::samples::Random;
use reference::sheet::{write_line, Call, Line};
use std::env;
use std::fs::{self, File};
use std::path::{Path, PathBuf};
use std::process::{self, Command, Stdio};
use std::time::Instant;

/// A line as a sender writes it, with N from 20 to 40; one in 50 is refused.
pub fn line(random: &mut Random, serial: i64) -> Vec<u8> {
    let n = if random.one_in(50) { 41 } else { random.between(20, 40) as i64 };
    let call = if random.one_in(2) {
        Call::Exp(Exp::everyday(random, n))
    } else {
        Call::Log(Log::everyday(random, n))
    };
    write_line(Line { serial, call })
}

/// So many lines, of which one in 50 is malformed.
fn sheet(lines: usize) -> Vec<u8> {
    let mut random = Random::new(41);
    let mut text = Vec::new();
    for serial in 1..=lines as i64 {
        text.extend(line(&mut random, serial));
        text.extend(if random.one_in(50) { &b"\t\n"[..] } else { b"\n" });
    }
    text
}

/// The plain version in Rust, built beside this program.
fn plain_rust() -> PathBuf {
    env::current_exe().expect("this program").with_file_name("plain")
}

/// A sheet in a file, removed at the end.
pub struct SheetFile(pub PathBuf);

impl SheetFile {
    pub fn new(name: &str, sheet: &[u8]) -> SheetFile {
        let path = env::temp_dir().join(format!("bench-{}-{name}.sheet", process::id()));
        fs::write(&path, sheet).expect("room for the sheet");
        SheetFile(path)
    }

    fn of_lines(lines: usize) -> SheetFile {
        SheetFile::new(&lines.to_string(), &sheet(lines))
    }

    fn open(&self) -> File {
        File::open(&self.0).expect("the sheet")
    }
}

impl Drop for SheetFile {
    fn drop(&mut self) {
        let _ = fs::remove_file(&self.0);
    }
}

/// Lines per second, standard output thrown away.
fn speed(program: &Path, sheet: &SheetFile, lines: usize) -> f64 {
    let begin = Instant::now();
    let status = Command::new(program).stdin(sheet.open()).stdout(Stdio::null()).status();
    assert!(status.expect("a program that runs").success());
    lines as f64 / begin.elapsed().as_secs_f64()
}

fn answers(program: &Path, sheet: &SheetFile) -> Vec<u8> {
    let output = Command::new(program).stdin(sheet.open()).output().expect("a program that runs");
    assert!(output.status.success());
    output.stdout
}

pub fn race(effort: &Effort) {
    let product = compare::program::path();
    if !product.exists() {
        println!("\nNo program at {}: no sheets were run.", product.display());
        return;
    }
    let mut programs = vec![("bkm", product), ("plain Rust", plain_rust())];
    programs.extend(plain::c::VERSION.map(|c| ("plain C", c.program.into())));
    let sheet = SheetFile::of_lines(effort.lines);
    let wanted = answers(&programs[0].1, &sheet);
    for (name, program) in &programs[1..] {
        assert!(answers(program, &sheet) == wanted, "{name} answers differently");
    }
    let mut speeds = vec![Vec::new(); programs.len()];
    for _ in 0..effort.sheet_rounds {
        for (place, (_, program)) in programs.iter().enumerate() {
            speeds[place].push(speed(program, &sheet, effort.lines));
        }
    }
    let small = [2_000, 12_000];
    let small_sheets = small.map(|lines| (lines, SheetFile::of_lines(lines)));
    let rows = programs.iter().enumerate().map(|(place, (name, program))| {
        let ratios = speeds[0].iter().zip(&speeds[place]).map(|(product, this)| product / this);
        let instructions = instructions_per_item(effort, small, 1, |command, lines| {
            let (_, sheet) = small_sheets.iter().find(|(count, _)| *count == lines).unwrap();
            command.arg(program).stdin(sheet.open());
        });
        let median_speed = median(speeds[place].iter().copied());
        let best = speeds[place].iter().copied().fold(0.0, f64::max);
        vec![
            name.to_string(),
            format!("{median_speed:.0}"),
            format!("{best:.0}"),
            format!("{:.2}", median(ratios)),
            instructions,
        ]
    });
    print_table(
        &format!("Sheets of {} mixed lines, the same answers byte for byte", effort.lines),
        &["", "lines per second, median", "best", "time / bkm", "instructions per line"],
        rows,
    );
}
