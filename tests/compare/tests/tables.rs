//! Every number in the source of the tables against the second implementation's own.

use reference::point::{point, Point};
use reference::tables::{cell_xs, cell_ys, reciprocal, tables};
use reference::width::WIDTH_48;
use std::fs;

/// The entries that a source file of this name in a crate writes out, in their order: each
/// `re: A` and the `im: B` behind it.
fn entries(file: &str) -> Vec<Point> {
    let crates = concat!(env!("CARGO_MANIFEST_DIR"), "/../../crates");
    let places =
        fs::read_dir(crates).unwrap().map(|found| found.unwrap().path().join("src").join(file));
    let [path] = &places.filter(|path| path.exists()).collect::<Vec<_>>()[..] else {
        panic!("not one {file} in {crates}");
    };
    let text = fs::read_to_string(path).unwrap();
    let numbers = |name: &str| -> Vec<i128> {
        text.split(&format!("{name}: "))
            .skip(1)
            .filter_map(|rest| {
                let end = rest.find(|c: char| c != '-' && !c.is_ascii_digit()).unwrap();
                rest[..end].parse().ok()
            })
            .collect()
    };
    let (re, im) = (numbers("re"), numbers("im"));
    assert_eq!(re.len(), im.len(), "{file}");
    re.into_iter().zip(im).map(|(x, y)| point(x, y)).collect()
}

#[test]
fn step_table() {
    let mut wanted = vec![point(0, 0); 3]; // what stands outside comes first
    for n in 1..=40 {
        for dx in -1..=1 {
            for dy in -1..=1 {
                wanted.push(tables(WIDTH_48).step(n, point(dx, dy)));
            }
        }
    }
    assert_eq!(entries("rows48.rt"), wanted);
}

/// The same read by the product through the array of the step table, and nought outside.
#[test]
fn step_array() {
    for n in 0..=45 {
        for dx in -2..=2i128 {
            for dy in -2..=2i128 {
                let inside = (1..=40).contains(&n) && dx.abs() < 2 && dy.abs() < 2;
                let wanted =
                    if inside { tables(WIDTH_48).step(n, point(dx, dy)) } else { point(0, 0) };
                let (x, y) = compare::step_entry(n as usize, dx as i64, dy as i64);
                assert_eq!(point(x.into(), y.into()), wanted, "{n} {dx} {dy}");
            }
        }
    }
    assert_eq!(compare::step_entry(usize::MAX, i64::MIN, i64::MAX), (0, 0));
}

/// What the cells have, by columns.
fn cells(of: impl Fn(i128, i128) -> Point) -> Vec<Point> {
    cell_xs().flat_map(|x| cell_ys().map(move |y| (x, y))).map(|(x, y)| of(x, y)).collect()
}

/// 02, E6: each of the 256 cells keeps the reciprocal ("seat") that was stored for it.
#[test]
fn stored_reciprocals() {
    let stored = include_str!("stored_reciprocals.txt").split_whitespace().map(|pair| {
        let (a, b) = pair.split_once(',').unwrap();
        point(a.parse().unwrap(), b.parse().unwrap())
    });
    assert_eq!(stored.collect::<Vec<_>>(), cells(reciprocal));
}

#[test]
fn reciprocal_logs() {
    let mut wanted = cells(|x, y| tables(WIDTH_48).reciprocal_log(x, y));
    wanted.push(point(0, 0)); // what stands outside comes last
    assert_eq!(entries("reciprocal_logs48.rt"), wanted);
}
