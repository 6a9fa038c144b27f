//! The tables and the constants of the reduction, at every width.

use reference::fixed::{Complex, Fixed};
use reference::point::{point, Point};
use reference::tables::{cell_xs, cell_ys, reciprocal, tables};
use reference::width::{Width, WIDTHS};
use std::collections::BTreeMap;
use std::process::Command;

const DIGIT_PARTS: [i128; 3] = [-1, 0, 1];

/// Each entry with the number it is the logarithm of, (x + iy)/2^bits.
fn entries(width: Width) -> Vec<(Point, Point, u32)> {
    let tables = tables(width);
    let mut entries = Vec::new();
    for n in 1..=width.max_steps() as u32 {
        for dx in DIGIT_PARTS {
            for dy in DIGIT_PARTS {
                entries.push((tables.step(n, point(dx, dy)), point((1 << n) + dx, dy), n));
            }
        }
    }
    for cx in cell_xs() {
        for cy in cell_ys() {
            entries.push((tables.reciprocal_log(cx, cy), reciprocal(cx, cy), 6));
        }
    }
    entries
        .extend([(tables.log_of_one_plus_i, point(1, 1), 0), (tables.log_of_two, point(2, 0), 0)]);
    entries
}

/// "The series exponential of an entry differs from 1 + d/2^n, as a length, by at most one
/// unit times the length of 1 + d/2^n."
#[test]
fn rule_of_the_entries() {
    for width in WIDTHS {
        let unit_squared = Fixed::ratio(1, 2 * width.fraction_bits);
        for (entry, number, bits) in entries(width) {
            let z = Complex::ratio(entry.x, entry.y, width.fraction_bits);
            let c = Complex::ratio(number.x, number.y, bits);
            for terms in [24, 40] {
                let difference = z.exponential(terms) - c;
                assert!(difference.norm() <= unit_squared * c.norm(), "{entry:?}");
            }
        }
    }
}

/// A double's logarithm is off by less than 1/10 of a unit.
#[test]
fn entries_near_the_doubles() {
    for width in WIDTHS {
        let one = width.one() as f64;
        for (entry, number, bits) in entries(width) {
            let (x, y) = (number.x as f64, number.y as f64);
            let scale = 2f64.powi(bits as i32);
            let over_one = (2.0 * (x - scale) + ((x - scale).powi(2) + y * y) / scale) / scale;
            assert!((entry.x as f64 - over_one.ln_1p() / 2.0 * one).abs() < 0.6, "{number:?}");
            assert!((entry.y as f64 - y.atan2(x) * one).abs() < 0.6, "{number:?}");
        }
    }
}

#[test]
fn identities() {
    for width in WIDTHS {
        let at = |n, dx, dy| tables(width).step(n, point(dx, dy));
        let near = |a: i128, b: i128| assert!((a - b).abs() <= 2, "{a} {b}");
        // arctan 1/2 + arctan 1/3 = 2·arctan 1/3 + arctan 1/7 = arctan 1
        near(at(1, 0, 1).y + at(1, 1, 1).y, at(1, -1, 1).y);
        near(2 * at(1, 1, 1).y + at(3, -1, 1).y, at(1, -1, 1).y);
        // 1 + i is twice (1 + i)/2; 1/2 is one over 2
        near(tables(width).log_of_one_plus_i.x, at(1, -1, 1).x + tables(width).log_of_two.x);
        near(tables(width).log_of_one_plus_i.y, at(1, -1, 1).y);
        near(tables(width).log_of_two.x, -at(1, -1, 0).x);
        // 3/2 · 5/4 · 1/2 = 15/16
        near(at(1, 1, 0).x + at(2, 1, 0).x + at(1, -1, 0).x, at(4, -1, 0).x);
        for n in 1..=width.max_steps() as u32 {
            for dx in DIGIT_PARTS {
                // A conjugate has the conjugate logarithm.
                assert_eq!(at(n, dx, 1), point(at(n, dx, -1).x, -at(n, dx, -1).y));
                assert_eq!(at(n, dx, 0).y, 0);
            }
            assert_eq!(at(n, 0, 0), point(0, 0));
            if 2 * n <= width.max_steps() as u32 {
                // (1 + 1/2^n)(1 - 1/2^n) = 1 - 1/4^n and |1 + i/2^n|² = 1 + 1/4^n
                near(at(n, 1, 0).x + at(n, -1, 0).x, at(2 * n, -1, 0).x);
                near(2 * at(n, 0, 1).x, at(2 * n, 1, 0).x);
            }
        }
    }
}

/// A number too near a tie would be rounded one way or the other without our knowing.
#[test]
#[should_panic(expected = "too near a tie")]
fn ties_are_refused() {
    Fixed::ratio(3, 1).nearest(0);
}

/// `make_tables.py` computes the same tables by other series.
#[test]
fn equal_to_make_tables() {
    for width in WIDTHS {
        let dump = Command::new("python3")
            .arg(concat!(env!("CARGO_MANIFEST_DIR"), "/../make_tables.py"))
            .args(["dump", &width.fraction_bits.to_string()])
            .output()
            .expect("python3 runs");
        assert!(dump.status.success());
        let mut theirs = BTreeMap::new();
        for line in String::from_utf8(dump.stdout).unwrap().lines() {
            let (name, numbers) = line.split_once(' ').unwrap();
            let mut numbers: Vec<i128> = numbers.split(' ').map(|n| n.parse().unwrap()).collect();
            let value = numbers.split_off(numbers.len() - 2);
            theirs.insert((name.to_string(), numbers), point(value[0], value[1]));
        }
        let mut ours = BTreeMap::new();
        for n in 1..=width.max_steps() as u32 {
            for dx in DIGIT_PARTS {
                for dy in DIGIT_PARTS {
                    let entry = tables(width).step(n, point(dx, dy));
                    ours.insert(("step".to_string(), vec![n.into(), dx, dy]), entry);
                }
            }
        }
        for cx in cell_xs() {
            for cy in cell_ys() {
                let log = tables(width).reciprocal_log(cx, cy);
                ours.insert(("reciprocal".to_string(), vec![cx, cy]), reciprocal(cx, cy));
                ours.insert(("reciprocal_log".to_string(), vec![cx, cy]), log);
            }
        }
        let (one_plus_i, two) = (tables(width).log_of_one_plus_i, tables(width).log_of_two);
        ours.insert(("constant".to_string(), vec![1, 1]), one_plus_i);
        ours.insert(("constant".to_string(), vec![2, 0]), two);
        assert!(theirs == ours, "width {}", width.fraction_bits);
    }
}
