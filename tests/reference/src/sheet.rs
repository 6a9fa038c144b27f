//! Sheets of 01 whose numbers must rise (02, E3), whose EXP lines have a k (02, E5) and whose
//! answers have a remainder (02, E7), from bytes to bytes.

use crate::answer::Refusal;
use crate::width::Width;
use crate::{exponential, logarithm};
use std::collections::BTreeSet;

/// A lent buffer for a line's answer must have this many bytes.
pub const LINE_BUFFER: usize = 128;

/// A well-formed line.
#[derive(Clone, Copy, PartialEq, Eq, Debug)]
pub struct Line {
    /// The "kernel number" of 01.
    pub serial: i64,
    pub call: Call,
}

#[derive(Clone, Copy, PartialEq, Eq, Debug)]
pub enum Call {
    Exp(exponential::Input),
    Log(logarithm::Input),
}

/// A field is a number when writing that number gives the field back: this is what shuts
/// out +1, 01 and -0.
fn number(field: &[u8]) -> Option<i64> {
    let text = std::str::from_utf8(field).ok()?;
    let value: i64 = text.parse().ok()?;
    (value.to_string() == text).then_some(value)
}

pub fn parse(line: &[u8]) -> Option<Line> {
    let fields: Vec<&[u8]> = line.split(|&byte| byte == b'\t').collect();
    let (&serial, rest) = fields.split_first()?;
    let serial = number(serial).filter(|s| (1..=9_999_999).contains(s))?;
    let (&kind, rest) = rest.split_first()?;
    let numbers: Option<Vec<i64>> = rest.iter().map(|field| number(field)).collect();
    let call = match (kind, numbers?.as_slice()) {
        (b"EXP", &[n, ex, ey, sx, sy]) => Call::Exp(exponential::Input { n, ex, ey, sx, sy }),
        (b"LOG", &[n, x, y]) => Call::Log(logarithm::Input { n, x, y }),
        _ => return None,
    };
    Some(Line { serial, call })
}

/// A line as a sender writes it, without its newline.
pub fn write_line(line: Line) -> Vec<u8> {
    match line.call {
        Call::Exp(i) => joined(line.serial, "EXP", &[i.n, i.ex, i.ey, i.sx, i.sy]),
        Call::Log(i) => joined(line.serial, "LOG", &[i.n, i.x, i.y]),
    }
    .into_bytes()
}

fn joined(serial: i64, kind: &str, numbers: &[i64]) -> String {
    numbers.iter().fold(format!("{serial}\t{kind}"), |text, number| format!("{text}\t{number}"))
}

/// The refusal number or 0, and the answer with its newline, to a line alone.
pub fn answer_line(line: &[u8], width: Width) -> (i64, Vec<u8>) {
    answer_behind(&mut BTreeSet::new(), line, width)
}

/// The same on a sheet, behind well-formed lines with these serials; none may reach the line's own.
fn answer_behind(serials: &mut BTreeSet<i64>, line: &[u8], width: Width) -> (i64, Vec<u8>) {
    let (serial, answered) = match parse(line) {
        Some(line) => {
            let reached = serials.range(line.serial..).next().is_some();
            serials.insert(line.serial);
            let own = || answer_text(line, width);
            (line.serial, if reached { Err(Refusal::Serial) } else { own() })
        }
        None => (0, Err(Refusal::Line)),
    };
    let (refusal, text) = match answered {
        Ok(text) => (0, text),
        Err(refusal) => (refusal as i64, joined(serial, "REF", &[refusal as i64])),
    };
    (refusal, (text + "\n").into_bytes())
}

fn answer_text(Line { serial, call }: Line, width: Width) -> Result<String, Refusal> {
    let (kind, n, f) = match call {
        Call::Exp(input) => ("EXP", input.n, exponential::exp(input, width)?),
        Call::Log(input) => ("LOG", input.n, logarithm::log(input, width)?),
    };
    let mut numbers = vec![n, f.x, f.y, f.remainder_x, f.remainder_y, f.binary_exponent];
    if let Call::Log(_) = call {
        numbers.push(f.quadrant);
    }
    numbers.push(f.error_bound);
    Ok(joined(serial, kind, &numbers))
}

/// 01, "A line into a lent buffer": the refusal number or 0 and the bytes written.
pub fn answer_into(line: &[u8], out: &mut [u8], width: Width) -> (i64, usize) {
    if out.len() < LINE_BUFFER {
        return (Refusal::Buffer as i64, 0);
    }
    let (refusal, answer) = answer_line(line, width);
    out[..answer.len()].copy_from_slice(&answer);
    (refusal, answer.len())
}

/// What the program writes for what it reads.
pub fn answer_sheet(input: &[u8], width: Width) -> Vec<u8> {
    let mut output = format!("BKM\t{}\n", width.fraction_bits).into_bytes();
    let mut serials = BTreeSet::new();
    for line in lines(input) {
        output.extend(answer_behind(&mut serials, line, width).1);
    }
    output
}

/// Lines end with byte 10; a last one without it counts if it isn't empty.
pub fn lines(input: &[u8]) -> Vec<&[u8]> {
    let mut pieces: Vec<&[u8]> = input.split(|&byte| byte == b'\n').collect();
    if pieces.last().is_some_and(|last| last.is_empty()) {
        pieces.pop();
    }
    pieces
}
