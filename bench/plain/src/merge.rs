//! Two sheets merged into one, in a lent buffer.

use crate::engines::Refusal;
use crate::sheet::parse;

/// The lines of a sheet, whose serials must rise.
struct Lines<'a> {
    rest: &'a [u8],
    last: i64,
}

impl<'a> Lines<'a> {
    fn new(rest: &'a [u8]) -> Lines<'a> {
        Lines { rest, last: 0 }
    }

    fn next(&mut self) -> Result<Option<(i64, &'a [u8])>, Refusal> {
        if self.rest.is_empty() {
            return Ok(None);
        }
        let end = self.rest.iter().position(|&byte| byte == b'\n').unwrap_or(self.rest.len());
        let line = &self.rest[..end];
        self.rest = self.rest.get(end + 1..).unwrap_or_default();
        let (serial, _) = parse(line).ok_or(Refusal::Line)?;
        if serial <= self.last {
            return Err(Refusal::Serial);
        }
        self.last = serial;
        Ok(Some((serial, line)))
    }
}

fn merged<'a>(first: &'a [u8], second: &'a [u8]) -> Result<Vec<&'a [u8]>, Refusal> {
    let (mut first, mut second) = (Lines::new(first), Lines::new(second));
    let (mut a, mut b) = (first.next()?, second.next()?);
    let mut merged = Vec::new();
    loop {
        let (from_first, line) = match (a, b) {
            (None, None) => return Ok(merged),
            (Some((_, line)), None) => (true, line),
            (None, Some((_, line))) => (false, line),
            (Some((m, line)), Some((n, _))) if m < n => (true, line),
            (Some((m, _)), Some((n, line))) if n < m => (false, line),
            (Some((_, line)), Some((_, other))) if line == other => {
                a = first.next()?;
                continue;
            }
            _ => return Err(Refusal::Clash),
        };
        merged.push(line);
        if from_first {
            a = first.next()?;
        } else {
            b = second.next()?;
        }
    }
}

/// The bytes written, or minus the refusal number.
#[inline(never)]
pub fn merge(first: &[u8], second: &[u8], out: &mut [u8]) -> i64 {
    if out.len() < first.len() + second.len() + 2 {
        return -(Refusal::Buffer as i64);
    }
    match merged(first, second) {
        Err(refusal) => -(refusal as i64),
        Ok(lines) => {
            let mut end = 0;
            for line in lines {
                out[end..end + line.len()].copy_from_slice(line);
                out[end + line.len()] = b'\n';
                end += line.len() + 1;
            }
            end as i64
        }
    }
}
