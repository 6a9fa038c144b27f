//! Two sheets merged by the C call (02, E4).

use compare::program::answers;
use reference::damage::{every_damage, merges, tabs};
use reference::merge::{merge_into, stopped_at};
use reference::samples::{two_sheets, Random};
use reference::sheet::{lines, parse};
use reference::width::WIDTH_48;
use std::collections::BTreeMap;

/// Both on a buffer with so many bytes more than the sheets have: what is handed back and every
/// byte of the buffer must be the same, and so must the lines that a refusal is due to. Gives what was
/// handed back.
fn check(first: &[u8], second: &[u8], extra: usize) -> i64 {
    let room = first.len() + second.len() + extra;
    let mut seen: Vec<u8> = (0..room).map(|i| (i * 37 + extra) as u8).collect();
    let mut wanted = seen.clone();
    let handed = compare::merge(first, second, &mut seen);
    let shown = || [first, second].map(String::from_utf8_lossy);
    assert_eq!(handed, merge_into(first, second, &mut wanted), "{:?}", shown());
    assert!(seen == wanted, "{:?}", shown());
    let stop = compare::merge_stopped_at(first, second);
    assert_eq!(stop, stopped_at(first, second), "{:?}", shown());
    assert!(extra < 2 || -stop.0 == handed.min(0), "{:?}", shown());
    handed
}

/// Each sentence of the request, by hand: with every last line's newline and without it.
#[test]
fn sentences() {
    for (first, second, given) in merges() {
        let bare = |sheet: &[u8]| sheet.strip_suffix(b"\n").unwrap_or(sheet).to_vec();
        for first in [first.clone(), bare(&first)] {
            for second in [second.clone(), bare(&second)] {
                let mut out = vec![0xa5; first.len() + second.len() + 5];
                let handed = compare::merge(&first, &second, &mut out);
                let mut wanted = given.clone().unwrap_or_default();
                let count = wanted.len();
                wanted.resize(out.len(), 0xa5);
                assert_eq!(handed, given.clone().map_or_else(|(r, _)| -r, |_| count as i64));
                let stop = given.clone().map_or_else(|stop| stop, |_| (0, [0, 0]));
                assert_eq!(compare::merge_stopped_at(&first, &second), stop);
                assert_eq!(String::from_utf8_lossy(&out), String::from_utf8_lossy(&wanted));
                check(&first, &second, 2);
            }
        }
    }
}

/// 6 comes before any line is looked at, whatever the sheets are.
#[test]
fn every_room() {
    for (first, second, _) in merges() {
        let least = first.len() + second.len() + 2;
        for room in 0..least + 40 {
            let mut seen: Vec<u8> = (0..room + 32).map(|i| (i * 41 + room) as u8).collect();
            let mut wanted = seen.clone();
            let lent = 16..16 + room;
            let handed = compare::merge(&first, &second, &mut seen[lent.clone()]);
            assert_eq!(handed, merge_into(&first, &second, &mut wanted[lent]), "{room} bytes");
            assert_eq!(handed == -6, room < least, "{room} bytes");
            assert_eq!(seen, wanted, "{room} bytes");
        }
    }
}

/// Every damage of one byte to a sheet, on either side of another.
#[test]
fn damage_of_one_byte() {
    let sheet = tabs("1|LOG|3|1|0\n12|EXP|40|-7|8|1|0\n");
    let other = tabs("1|LOG|3|1|0\n2|LOG|9|1|1\n112|LOG|4|0|0");
    let mut handed = BTreeMap::new();
    for damaged in every_damage(&sheet) {
        for back in [check(&damaged, &other, 2), check(&other, &damaged, 3)] {
            *handed.entry(back.min(0)).or_insert(0) += 1;
        }
    }
    assert_eq!(handed.into_keys().collect::<Vec<_>>(), [-8, -7, -5, 0]);
}

/// Sheets drawn at random, whole and damaged: all outcomes are met often.
#[test]
fn random_sheets() {
    let mut random = Random::new(4);
    let mut handed = BTreeMap::new();
    for i in 0..40_000 {
        let damage = random.pick(&[20, 100, 1_000_000]);
        let [first, second] = two_sheets(&mut random, i % 40, damage, WIDTH_48);
        let extra = random.pick(&[0, 1, 2, 2, 2, 2, 3, 100]);
        *handed.entry(check(&first, &second, extra).min(0)).or_insert(0) += 1;
    }
    assert_eq!(handed.keys().copied().collect::<Vec<_>>(), [-8, -7, -6, -5, 0]);
    assert!(handed.values().all(|&count| count > 500), "{handed:?}");
}

/// The laws, without the second implementation: numbers rise, every line of either sheet is there
/// and no other, the program answers none of them with 7, and sheets without a common number may
/// be given in either order.
#[test]
fn laws() {
    let mut random = Random::new(17);
    for count in [3, 300, 30_000] {
        let [first, second] = two_sheets(&mut random, count, 1_000_000_000, WIDTH_48);
        let merge = |first: &[u8], second: &[u8]| {
            let mut out = vec![0; first.len() + second.len() + 2];
            let written = compare::merge(first, second, &mut out);
            out.truncate(written.try_into().expect("sheets that are merged"));
            out
        };
        let merged = merge(&first, &second);
        let numbers: Vec<_> = lines(&merged).iter().map(|l| parse(l).unwrap().serial).collect();
        assert!(numbers.windows(2).all(|pair| pair[0] < pair[1]));
        let mut all: Vec<_> = lines(&first).into_iter().chain(lines(&second)).collect();
        all.sort();
        all.dedup();
        let mut there = lines(&merged);
        there.sort();
        assert_eq!(there, all);
        let answered = answers(&[&merged]);
        assert!(!lines(&answered).iter().any(|line| line.ends_with(b"\tREF\t7")));
        assert_eq!(lines(&answered).len(), numbers.len() + 1);
        assert_eq!(merge(&second, &first), merged);
        assert_eq!(merge(&merged, b""), merged);
        assert_eq!(merge(&merged, &merged), merged);
    }
}

/// Large sheets: whole, with a flaw in the last line, and one beside an empty one.
#[test]
fn large_sheets() {
    let mut random = Random::new(18);
    let [first, second] = two_sheets(&mut random, 300_000, 1_000_000_000, WIDTH_48);
    assert!(check(&first, &second, 2) > 10_000_000);
    assert!(check(&first, b"", 2) > 0 && check(b"", &second, 2) > 0);
    let spoilt = [&first[..], b"\n1\tLOG\t3\t1\t0"].concat();
    assert!([-5, -7].contains(&check(&spoilt, &second, 2)));
    assert!([-5, -7].contains(&check(b"", &spoilt, 2)));
    let endless = vec![b'7'; 3_000_000];
    assert_eq!(check(&endless, &second, 2), -5);
    assert_eq!(check(&vec![b'\n'; 1_000_000], &second, 2), -5);
}
