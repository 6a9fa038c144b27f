//! A sheet, line by line.

use crate::engines::{exp, log, Figures, Refusal};
use std::io::{self, BufRead, Write};

pub(crate) enum Call {
    Exp([i64; 5]),
    Log([i64; 3]),
}

/// An optional minus and digits, no leading zero, no -0.
fn number(field: &[u8]) -> Option<i64> {
    match field {
        b"0" => Some(0),
        [b'1'..=b'9', ..] | [b'-', b'1'..=b'9', ..] => {
            std::str::from_utf8(field).ok()?.parse().ok()
        }
        _ => None,
    }
}

/// Exactly `COUNT` numbers and nothing after them.
fn numbers<'a, const COUNT: usize>(
    mut fields: impl Iterator<Item = &'a [u8]>,
) -> Option<[i64; COUNT]> {
    let mut values = [0; COUNT];
    for value in &mut values {
        *value = number(fields.next()?)?;
    }
    fields.next().is_none().then_some(values)
}

/// The serial and the call of a well-formed line.
pub(crate) fn parse(line: &[u8]) -> Option<(i64, Call)> {
    let mut fields = line.split(|&byte| byte == b'\t');
    let serial = number(fields.next()?).filter(|k| (1..=9_999_999).contains(k))?;
    let call = match fields.next()? {
        b"EXP" => Call::Exp(numbers(fields)?),
        b"LOG" => Call::Log(numbers(fields)?),
        _ => return None,
    };
    Some((serial, call))
}

/// The answer to one line behind others with this largest serial, its newline included.
pub fn answer_line(largest: &mut i64, line: &[u8], out: &mut impl Write) -> io::Result<()> {
    let refuse = |out: &mut _, serial: i64, refusal: Refusal| {
        Write::write_fmt(out, format_args!("{serial}\tREF\t{}\n", refusal as i64))
    };
    let Some((serial, call)) = parse(line) else {
        return refuse(out, 0, Refusal::Line);
    };
    if serial <= *largest {
        return refuse(out, serial, Refusal::Serial);
    }
    *largest = serial;
    match call {
        Call::Exp([n, ex, ey, sx, sy]) => match exp(n, ex, ey, sx, sy) {
            Ok(Figures { x, y, remainder_x: rx, remainder_y: ry, k, bound, .. }) => {
                writeln!(out, "{serial}\tEXP\t{n}\t{x}\t{y}\t{rx}\t{ry}\t{k}\t{bound}")
            }
            Err(refusal) => refuse(out, serial, refusal),
        },
        Call::Log([n, x, y]) => match log(n, x, y) {
            Ok(Figures { x, y, remainder_x: rx, remainder_y: ry, k, q, bound }) => {
                writeln!(out, "{serial}\tLOG\t{n}\t{x}\t{y}\t{rx}\t{ry}\t{k}\t{q}\t{bound}")
            }
            Err(refusal) => refuse(out, serial, refusal),
        },
    }
}

pub fn answer_sheet(mut input: impl BufRead, mut out: impl Write) -> io::Result<()> {
    writeln!(out, "BKM\t48")?;
    let mut line = Vec::new();
    let mut largest = 0;
    while input.read_until(b'\n', &mut line)? > 0 {
        answer_line(&mut largest, line.strip_suffix(b"\n").unwrap_or(&line), &mut out)?;
        line.clear();
    }
    out.flush()
}
