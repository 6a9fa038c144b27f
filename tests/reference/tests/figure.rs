//! Figure 1 of 001, with the thresholds of 01 and with those it was made with.

use reference::exponential::{steps, Thresholds, CUT, UNCUT};
use reference::figure::{like, rows_of_01, EXPONENT, ROWS};
use reference::point::point;
use reference::width::WIDTH_48;

/// Rows whose last column is misprinted with one zero too many: the figure has ten decimals,
/// and the eleventh of row 33 would be a 2.
const MISPRINTS: [usize; 3] = [31, 32, 33];

fn row(k: usize, thresholds: Thresholds) -> [i128; 4] {
    let one = point(WIDTH_48.one(), 0);
    let (e, l) = steps(EXPONENT, one, thresholds, WIDTH_48)
        .take(k - 1)
        .last()
        .map_or((one, EXPONENT), |step| (step.start, step.exponent));
    [e.x, e.y, l.x, l.y]
}

fn check(k: usize, wanted: [&str; 4], thresholds: Thresholds) {
    for (units, text) in row(k, thresholds).into_iter().zip(wanted) {
        assert_eq!(like(text, units), text, "row {k}");
    }
}

#[test]
fn first_nine_rows() {
    for (k, wanted) in rows_of_01() {
        check(k, wanted, CUT);
    }
}

#[test]
fn all_rows_with_uncut_thresholds() {
    for (k, mut wanted) in ROWS {
        let corrected = wanted[3].replacen("0.0", "0.", 1);
        if MISPRINTS.contains(&k) {
            wanted[3] = &corrected;
        }
        check(k, wanted, UNCUT);
    }
}
