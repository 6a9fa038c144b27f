//! The program on whole sheets against the second implementation.

use compare::program::{answers, check};
use reference::damage::{not_rising, tabs};
use reference::edges::{exp_refusals, exp_scales};
use reference::samples::{line, sheet, Random};
use reference::sheet::{lines, write_line, Call, Line};
use reference::width::WIDTH_48;

#[test]
fn long_sheet() {
    check(&[&sheet(&mut Random::new(10), 200_000, WIDTH_48)]);
}

/// The limits of EXP and where its k changes.
#[test]
fn edges_of_exp() {
    let cases = exp_refusals().into_iter().chain(exp_scales());
    let lines: Vec<_> = (1..)
        .zip(cases)
        .map(|(serial, (input, _))| write_line(Line { serial, call: Call::Exp(input) }))
        .collect();
    check(&[&lines.join(&b'\n')]);
}

#[test]
fn short_sheets() {
    let mut random = Random::new(11);
    let long = vec![b'7'; 100_000];
    let mut sheets = vec![vec![], b"\n".to_vec(), b"\n\n".to_vec(), b"1".to_vec(), long];
    for count in 0..50 {
        let lines: Vec<_> = (0..=count % 5).map(|_| line(&mut random, WIDTH_48)).collect();
        sheets.push(lines.join(&b'\n'));
    }
    for sheet in sheets {
        check(&[&sheet]);
    }
}

#[test]
fn every_split_in_two() {
    let mut random = Random::new(12);
    let mut sheet = tabs("3|LOG|40|0|0\n2|LOG|40|1|0\n3|EXP|40|0|0|1|0\n\n4|LOG|40|1|0\n");
    for _ in 0..4 {
        sheet.extend(line(&mut random, WIDTH_48));
        sheet.push(b'\n');
    }
    sheet.extend([b'7'; 130]); // too long to have the form, and without its newline
    for at in 0..=sheet.len() {
        let (first, second) = sheet.split_at(at);
        check(&[first, second]);
    }
}

/// Answers longer than their lines: the program's buffer fills up before its block is read, at
/// every place of a line.
#[test]
fn long_answers_to_short_lines() {
    let mut random = Random::new(13);
    let mut sheet = vec![b'\n'; 70_000];
    for serial in 1..=60_000 {
        sheet.extend(tabs(&match random.between(0, 3) {
            0 => format!("{serial}|LOG|3|1|0\n"),
            1 => format!("{serial}|EXP|1|0|0|1|0\n"),
            2 => format!("{serial}|LOG|3|0|0\n"),
            _ => format!("{}\n", "1".repeat(random.between(0, 9) as usize)),
        }));
    }
    check(&[&sheet]);
}

/// 02, E3, sentence by sentence.
#[test]
fn numbers_that_do_not_rise() {
    for (sheet, answer) in not_rising() {
        assert_eq!(answers(&[&sheet]), answer, "{:?}", String::from_utf8_lossy(&sheet));
        // Without its newline the last line counts too; any two pieces have the same answer.
        for at in 0..sheet.len() {
            let (first, second) = sheet.split_at(at);
            assert_eq!(answers(&[first, second.strip_suffix(b"\n").unwrap()]), answer, "at {at}");
        }
    }
}

/// The answer to a line alone, by the C call.
fn alone(line: &[u8]) -> Vec<u8> {
    let mut out = [0; 128];
    let count = compare::line(line, &mut out);
    out[..count].to_vec()
}

/// Of the lines that are answered neither 5 nor 7 the numbers rise; a 7 has a number that does
/// not. Each line but those answered 7 is answered as if it stood alone, and so is the whole sheet
/// without them.
#[test]
fn answered_numbers_rise() {
    let sheet = sheet(&mut Random::new(15), 50_000, WIDTH_48);
    let seen = answers(&[&sheet]);
    assert_eq!(lines(&seen).len(), 1 + lines(&sheet).len());
    let (mut largest, mut refused, mut rising, mut wanted) = (0, 0, vec![], b"BKM\t48\n".to_vec());
    for (line, answer) in lines(&sheet).into_iter().zip(&lines(&seen)[1..]) {
        let text = std::str::from_utf8(answer).unwrap();
        let (serial, rest) = text.split_once('\t').unwrap();
        let serial: i64 = serial.parse().unwrap();
        if rest == "REF\t7" {
            assert!(1 <= serial && serial <= largest, "{text}");
            refused += 1;
            continue;
        }
        if rest == "REF\t5" {
            assert_eq!(serial, 0);
        } else {
            assert!(largest < serial, "{text}");
            largest = serial;
        }
        rising.extend([line, b"\n"].concat());
        wanted.extend(alone(line));
        assert!(wanted.ends_with(&[answer, &b"\n"[..]].concat()), "{text}");
    }
    assert!(refused > 1000 && largest > 30_000, "{refused} of {largest}");
    assert!(answers(&[&rising]) == wanted);
}
