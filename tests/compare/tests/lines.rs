//! The program and the C call on single lines of every kind of damage.

use compare::program::{answers, check};
use reference::damage::{every_damage, longest_line, tabs, MALFORMED, REFUSED};
use reference::edges::{MAX_PART, ONE};
use reference::exponential::Input as Exp;
use reference::logarithm::Input as Log;
use reference::samples::{self, Random};
use reference::sheet::{answer_into, write_line, Call, Line};
use reference::width::WIDTH_48;

/// A line alone, with its newline and without, has this answer.
fn check_line(line: &[u8], answer: &str) {
    let wanted = tabs(&format!("BKM|48\n{answer}\n"));
    let shown = String::from_utf8_lossy(line);
    assert_eq!(answers(&[line, b"\n"]), wanted, "{shown:?}");
    if !line.is_empty() {
        assert_eq!(answers(&[line]), wanted, "{shown:?} without its newline");
    }
}

/// The call's answer to a line is that of the second implementation; gives its length.
fn check_call(line: &[u8]) -> usize {
    let (mut seen, mut wanted) = ([0xa5; 128], [0xa5; 128]);
    let count = compare::line(line, &mut seen);
    assert_eq!(count, answer_into(line, &mut wanted, WIDTH_48).1);
    assert_eq!(seen, wanted, "{:?}", String::from_utf8_lossy(line));
    count
}

#[test]
fn malformed() {
    for line in MALFORMED {
        check_line(&tabs(line), "0|REF|5");
    }
    check_line(b"1\tLOG\t40\t\xff\t0", "0|REF|5");
}

#[test]
fn refused() {
    for (line, answer) in REFUSED {
        check_line(&tabs(line), answer);
    }
}

/// 116 bytes are the most; the program's state keeps 117 and its blocks have 65536.
#[test]
fn lengths() {
    let longest = longest_line();
    assert_eq!(longest.len(), 116);
    check_line(&longest, "9999999|REF|1");
    for count in [117, 118, 127, 128, 129, 1 << 12, 65535, 65536, 65537, 200_000] {
        let mut digits = longest.clone();
        digits.resize(count, b'8');
        check_line(&digits, "0|REF|5");
        // Well formed again past what the state keeps.
        let mut tail = vec![b'1'; count - 11];
        tail.extend(b"\tLOG\t40\t1\t0");
        check_line(&tail, "0|REF|5");
    }
}

/// How long the answers to these get, with the largest serial, their newline counted: each by the
/// call, one of the longest by the program too.
fn longest_answer(calls: impl Iterator<Item = Call>) -> usize {
    let lines = calls.map(|call| write_line(Line { serial: 9_999_999, call }));
    let (count, line) = lines.map(|line| (check_call(&line), line)).max().expect("a line");
    check(&[&line]);
    println!("{count} bytes answer {}", String::from_utf8_lossy(&line));
    count
}

/// The longest answers that were found. With room for the longest of each number, N and so on, a
/// line of EXP would have 7 + 3 + 2 + 20 + 20 + 16 + 16 + 3 + 19 + 9 = 115 bytes and one of LOG
/// 7 + 3 + 2 + 16 + 16 + 15 + 15 + 3 + 2 + 18 + 10 = 107, but these do not meet: a remainder
/// and a column are the longest for the least N, LOG's k for small points, whose column is short.
#[test]
fn longest_answers() {
    let grid = |side: i64| (-side..=side).flat_map(move |x| (-side..=side).map(move |y| (x, y)));
    let starts = [(-MAX_PART, -MAX_PART), (MAX_PART, -MAX_PART)];
    let exp = [1, 2, 10].into_iter().flat_map(|n| {
        let exponents = grid(128).map(|(x, y)| (x * ONE / 16, y * ONE / 16));
        exponents
            .flat_map(move |(ex, ey)| starts.map(|(sx, sy)| Call::Exp(Exp { n, ex, ey, sx, sy })))
    });
    assert_eq!(longest_answer(exp), 111);
    let log = [3, 4, 10].into_iter().flat_map(|n| {
        grid(256).map(move |(x, y)| Call::Log(Log { n, x: x * 4 * ONE, y: y * 4 * ONE }))
    });
    assert_eq!(longest_answer(log), 105);
}

/// Each line alone, and all of them on one sheet, where most numbers do not rise.
#[test]
fn damage_of_one_byte() {
    let far = "8|EXP|9|2251799813685248|-1000000000000000|3|-5";
    for line in ["1|EXP|40|-7|8|281474976710656|0", far, "90|LOG|3|-5|288230376151711744"] {
        let damaged = every_damage(&tabs(line));
        for line in &damaged {
            check_call(line);
        }
        check(&[&damaged.join(&b'\n')]);
    }
}

/// A damaged line leaves the lines beside it as they are.
#[test]
fn between_good_lines() {
    let [first, second] = [1, 2].map(|serial| format!("{serial}|EXP|40|0|0|281474976710656|0"));
    for line in MALFORMED {
        let seen = answers(&[&tabs(&format!("{first}\n{line}\n{second}"))]);
        let [first, second] = [1, 2].map(|s| format!("{s}|EXP|40|281474976710656|0|0|0|0|2128"));
        assert_eq!(seen, tabs(&format!("BKM|48\n{first}\n0|REF|5\n{second}\n")), "{line:?}");
    }
}

/// The call for a line, with a lent buffer of every length between bytes that must stay.
#[test]
fn every_buffer() {
    let lines = MALFORMED.iter().chain(REFUSED.iter().map(|(line, _)| line)).map(|line| tabs(line));
    let mut random = Random::new(1994);
    let drawn: Vec<_> = (0..40).map(|_| samples::line(&mut random, WIDTH_48)).collect();
    for line in lines.chain([longest_line()]).chain(drawn) {
        for length in 0..=200 {
            let mut seen: Vec<u8> = (0..length + 32).map(|i| (i * 37 + length) as u8).collect();
            let mut wanted = seen.clone();
            let lent = 16..16 + length;
            let count = compare::line(&line, &mut seen[lent.clone()]);
            assert_eq!(count, answer_into(&line, &mut wanted[lent], WIDTH_48).1, "{length} bytes");
            assert_eq!(seen, wanted, "{length} bytes");
        }
    }
}

/// The call and the second implementation on lines drawn at random, whole and damaged.
#[test]
fn random_lines() {
    let mut random = Random::new(48);
    for _ in 0..200_000 {
        check_call(&samples::line(&mut random, WIDTH_48));
    }
}
