//! Two sheets merged into one (02, E4). No step is taken: what stops the merge is told by the
//! number at which it is met, and the merged lines are one map.

use crate::answer::Refusal;
use crate::sheet::{lines, parse};
use std::collections::BTreeMap;

/// The lines of a sheet by number, up to the first that must stop a merge, and that one's refusal
/// with the number before it.
struct Sheet<'a> {
    lines: BTreeMap<i64, &'a [u8]>,
    flaw: Option<(i64, Refusal)>,
}

fn read(input: &[u8]) -> Sheet<'_> {
    let mut sheet = Sheet { lines: BTreeMap::new(), flaw: None };
    for line in lines(input) {
        let last = sheet.lines.last_key_value().map_or(0, |(&number, _)| number);
        let refusal = match parse(line) {
            None => Refusal::Line,
            Some(read) if read.serial <= last => Refusal::Serial,
            Some(read) => {
                sheet.lines.insert(read.serial, line);
                continue;
            }
        };
        sheet.flaw = Some((last, refusal));
        break;
    }
    sheet
}

impl Sheet<'_> {
    /// The line of a number, counted from 1.
    fn line_of(&self, number: i64) -> usize {
        self.lines.range(..=number).count()
    }
}

/// What stops a merge, and the line of each sheet that it is due to, counted from 1, or 0.
type Stop = (Refusal, [usize; 2]);

/// The flaw that a merge meets first, with the number before it. It meets one when the line before it
/// is read, and of two equal lines the first sheet's is read first; at the top, where nothing is read
/// before, it meets both sheets' at once, and the one flaw there is 5.
fn first_flaw(first: &Sheet, second: &Sheet) -> Option<(i64, Stop)> {
    let at = |sheet: &Sheet| sheet.lines.len() + 1;
    match (first.flaw, second.flaw) {
        (Some((0, refusal)), Some((0, _))) => Some((0, (refusal, [1, 1]))),
        (Some((m, refusal)), other) if other.is_none_or(|(n, _)| m <= n) => {
            Some((m, (refusal, [at(first), 0])))
        }
        (_, other) => other.map(|(n, refusal)| (n, (refusal, [0, at(second)]))),
    }
}

/// What stops the merge. Two differing lines are met before either is read.
fn stop(first: &Sheet, second: &Sheet) -> Option<Stop> {
    let differs = |(n, line): (&i64, &&[u8])| {
        second.lines.get(n).is_some_and(|other| other != line).then_some(*n)
    };
    let clash = first.lines.iter().find_map(differs);
    match (clash, first_flaw(first, second)) {
        (clash, Some((n, flaw))) if clash.is_none_or(|m| n < m) => Some(flaw),
        (Some(m), _) => Some((Refusal::Clash, [first.line_of(m), second.line_of(m)])),
        _ => None,
    }
}

/// The refusal number or 0, and the line of each sheet that it is due to.
pub fn stopped_at(first: &[u8], second: &[u8]) -> (i64, [usize; 2]) {
    stop(&read(first), &read(second))
        .map_or((0, [0, 0]), |(refusal, lines)| (refusal as i64, lines))
}

/// The merged sheet, or what stops the merge.
pub fn merge(first: &[u8], second: &[u8]) -> Result<Vec<u8>, Refusal> {
    let (first, mut second) = (read(first), read(second));
    if let Some((refusal, _)) = stop(&first, &second) {
        return Err(refusal);
    }
    second.lines.extend(first.lines);
    Ok(second.lines.into_values().flat_map(|line| [line, b"\n"]).flatten().copied().collect())
}

/// The call: the bytes written, or minus the refusal number.
pub fn merge_into(first: &[u8], second: &[u8], out: &mut [u8]) -> i64 {
    if out.len() < first.len() + second.len() + 2 {
        return -(Refusal::Buffer as i64);
    }
    match merge(first, second) {
        Ok(merged) => {
            out[..merged.len()].copy_from_slice(&merged);
            merged.len() as i64
        }
        Err(refusal) => -(refusal as i64),
    }
}
