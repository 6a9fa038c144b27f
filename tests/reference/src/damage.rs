//! Lines and sheets that are turned away, a bar standing for the tab, and every damage of one byte.

/// None is of the form of 01: each answers `0|REF|5`.
pub const MALFORMED: [&str; 43] = [
    "",
    " ",
    "|",
    "1",
    "1|EXP",
    "BKM|48",
    "0|LOG|40|1|0",
    "10000000|LOG|40|1|0",
    "-1|LOG|40|1|0",
    "-0|LOG|40|1|0",
    "01|LOG|40|1|0",
    "+1|LOG|40|1|0",
    "1|log|40|1|0",
    "1|LOGS|40|1|0",
    "1|LO|40|1|0",
    "1|REF|4",
    "1|LOG|40|1",
    "1|LOG|40|1|0|",
    "1|LOG|40|1|0|0",
    "1|LOG|40||0",
    "1|LOG||1|0",
    "1|LOG|40|-0|0",
    "1|LOG|40|00|0",
    "1|LOG|40|01|0",
    "1|LOG|40|-01|0",
    "1|LOG|40|+1|0",
    "1|LOG|40|-|0",
    "1|LOG|40|--1|0",
    "1|LOG|40|1.0|0",
    "1|LOG|40|1 |0",
    "1|LOG|40|1|0\r",
    "1|LOG|40|1|0\0",
    "1|LOG|40|9223372036854775808|0",
    "1|LOG|40|-9223372036854775809|0",
    "1|LOG|18446744073709551656|1|0",
    "1||LOG|40|1|0",
    "1|EXP|40|0|0|1",
    "1|EXP|40|0|0|1|0|",
    "1|EXP|40|0|0|1|0|0",
    "1|EXP|40|0|0|1|0\r",
    "1|LOG|040|1|0",
    "1|LOG|-0|1|0",
    "|1|LOG|40|1|0",
];

/// Of the form, and refused by EXP or LOG: the line and its answer.
pub const REFUSED: [(&str, &str); 13] = [
    ("1|EXP|-5|0|0|0|0", "1|REF|1"),
    ("2|EXP|41|0|0|0|0", "2|REF|1"),
    ("3|LOG|2|1|0", "3|REF|1"),
    ("9999999|LOG|9223372036854775807|0|0", "9999999|REF|1"),
    ("7|EXP|40|2251799813685249|0|0|0", "7|REF|2"),
    ("7|EXP|40|0|-2251799813685249|0|0", "7|REF|2"),
    ("7|EXP|40|-9223372036854775808|0|0|0", "7|REF|2"),
    ("7|EXP|40|0|9223372036854775807|0|0", "7|REF|2"),
    ("7|EXP|40|0|0|288230376151711745|0", "7|REF|3"),
    ("7|EXP|40|0|0|0|-9223372036854775808", "7|REF|3"),
    ("7|LOG|40|9223372036854775807|0", "7|REF|3"),
    ("7|LOG|40|0|-9223372036854775808", "7|REF|3"),
    ("7|LOG|3|0|0", "7|REF|4"),
];

/// Sheets whose numbers do not rise (02, E3), each line beside its answer. GOOD is a line that is
/// answered, and DONE its answer.
const NOT_RISING: [&[(&str, &str)]; 9] = [
    // At the top every number is above zero; a number may be left out.
    &[("1|GOOD", "1|DONE"), ("3|GOOD", "3|DONE"), ("9999999|GOOD", "9999999|DONE")],
    // Not above the largest before it: equal to it, or below.
    &[("5|GOOD", "5|DONE"), ("5|GOOD", "5|REF|7"), ("4|GOOD", "4|REF|7"), ("6|GOOD", "6|DONE")],
    // The largest and not the last: a line refused with 7 does not lower it.
    &[("9|GOOD", "9|DONE"), ("2|GOOD", "2|REF|7"), ("3|GOOD", "3|REF|7"), ("10|GOOD", "10|DONE")],
    // A line that is refused counts, by whatever number.
    &[("5|LOG|40|0|0", "5|REF|4"), ("5|GOOD", "5|REF|7"), ("6|GOOD", "6|DONE")],
    &[("7|EXP|0|0|0|0|0", "7|REF|1"), ("6|GOOD", "6|REF|7"), ("8|LOG|3|0|0", "8|REF|4")],
    // A malformed line does not count, though its number could be read.
    &[("90|LOG|40|1", "0|REF|5"), ("1|GOOD", "1|DONE"), ("10000000|GOOD", "0|REF|5")],
    // It is not compared: 5 comes first.
    &[("8|GOOD", "8|DONE"), ("8|LOG|40|1", "0|REF|5"), ("", "0|REF|5"), ("9|GOOD", "9|DONE")],
    // 7 comes ahead of the calculation's own.
    &[("2|GOOD", "2|DONE"), ("2|LOG|40|0|0", "2|REF|7"), ("1|EXP|0|0|0|0|0", "1|REF|7")],
    // Behind the largest number there is, no other is answered.
    &[("9999999|LOG|2|0|0", "9999999|REF|1"), ("9999999|GOOD", "9999999|REF|7")],
];

/// These sheets as bytes, and their answers.
pub fn not_rising() -> Vec<(Vec<u8>, Vec<u8>)> {
    let written = |text: &str| {
        let text = text.replace("GOOD", "EXP|40|0|0|281474976710656|0");
        tabs(&text.replace("DONE", "EXP|40|281474976710656|0|0|0|0|2128"))
    };
    let sheet = |lines: &&[(&str, &str)]| {
        let (asked, answers): (Vec<_>, Vec<_>) = lines.iter().copied().unzip();
        let answer = format!("BKM|48\n{}\n", answers.join("\n"));
        (written(&format!("{}\n", asked.join("\n"))), written(&answer))
    };
    NOT_RISING.iter().map(sheet).collect()
}

/// A refusal number, and the line of each sheet that it is due to, or 0.
pub type Stopped = (i64, [usize; 2]);

/// Two sheets, their lines parted by a comma, and what they are merged into, or the refusal
/// number (02, E4) with the lines of both sheets that it is due to. a, b and so on are the numbers 1, 2 and so on with the line GOOD, capitals the
/// same numbers with another line, and ! is malformed.
const MERGES: [(&str, &str, Result<&str, Stopped>); 36] = [
    ("", "", Ok("")),
    ("a", "", Ok("a")),
    ("", "a", Ok("a")),
    ("a,c,e", "b,d", Ok("a,b,c,d,e")),
    ("b,d", "a,c,e", Ok("a,b,c,d,e")),
    // The rest of one sheet follows as a whole.
    ("a,b", "c,d,e", Ok("a,b,c,d,e")),
    ("c,d,e", "a,b", Ok("a,b,c,d,e")),
    // Of equal lines one is written.
    ("a", "a", Ok("a")),
    ("a,b,d", "b,c,d", Ok("a,b,c,d")),
    ("a,B,c", "a,B,c", Ok("a,B,c")),
    // 5: malformed, in either sheet, at the top, later, and in the rest.
    ("!", "", Err((5, [1, 0]))),
    ("", "!", Err((5, [0, 1]))),
    ("a,!", "b", Err((5, [2, 0]))),
    ("a", "b,!", Err((5, [0, 2]))),
    ("a", "b,c,!,d", Err((5, [0, 3]))),
    // 7: falling or repeated within a sheet, in the rest too; a line passed by counts.
    ("b,a", "c", Err((7, [2, 0]))),
    ("c", "b,b", Err((7, [0, 2]))),
    ("a,c,b", "", Err((7, [3, 0]))),
    ("a", "b,c,c", Err((7, [0, 3]))),
    ("b,b", "b", Err((7, [2, 0]))),
    ("b,a", "b,c", Err((7, [2, 0]))),
    // 8: one number with two differing lines.
    ("a", "A", Err((8, [1, 1]))),
    ("a,b,c", "B", Err((8, [2, 1]))),
    ("c,d", "a,b,D", Err((8, [2, 3]))),
    // The pair met first decides.
    ("a,!", "b,B", Err((5, [2, 0]))),
    ("a,A", "b,!", Err((7, [2, 0]))),
    ("a,!", "A,A", Err((8, [1, 1]))),
    ("c,!", "a,d,b", Err((5, [2, 0]))),
    ("c,b", "a,d,!", Err((7, [2, 0]))),
    ("a,c,!", "b,d", Err((5, [3, 0]))),
    // At one pair: 5 on either side, then 7, then 8.
    ("!", "!", Err((5, [1, 1]))),
    ("!", "b,!", Err((5, [1, 0]))),
    ("b,a", "b,!", Err((7, [2, 0]))),
    ("a,b,B", "a,b", Err((7, [3, 0]))),
    ("b,b", "b,B", Err((7, [2, 0]))),
    ("a,a", "c,!", Err((7, [2, 0]))),
];

/// These merges: two sheets, and what the second implementation and the product must give.
pub fn merges() -> Vec<(Vec<u8>, Vec<u8>, Result<Vec<u8>, Stopped>)> {
    let line = |name: &str| match name.as_bytes()[0] {
        b'!' => "1|LOG|40|1".to_string(),
        name @ b'a'..=b'z' => format!("{}|EXP|40|0|0|281474976710656|0", name - b'a' + 1),
        name => format!("{}|LOG|40|0|0", name - b'A' + 1),
    };
    let sheet = |names: &str| {
        let lines = names.split(',').filter(|name| !name.is_empty());
        tabs(&lines.map(|name| line(name) + "\n").collect::<String>())
    };
    MERGES.iter().map(|(one, other, given)| (sheet(one), sheet(other), given.map(sheet))).collect()
}

/// A text with bars as bytes with tabs.
pub fn tabs(text: &str) -> Vec<u8> {
    text.replace('|', "\t").into_bytes()
}

/// The longest line of the form: 116 bytes.
pub fn longest_line() -> Vec<u8> {
    let least = i64::MIN;
    tabs(&format!("9999999|EXP|{least}|{least}|{least}|{least}|{least}"))
}

/// A line with each byte taken out, and with every byte put in and put instead at each place;
/// a newline makes it two lines.
pub fn every_damage(line: &[u8]) -> Vec<Vec<u8>> {
    let mut damaged = Vec::new();
    for place in 0..=line.len() {
        let (before, behind) = line.split_at(place);
        for byte in 0..=u8::MAX {
            damaged.push([before, &[byte], behind].concat());
            if let Some((_, behind)) = behind.split_first() {
                damaged.push([before, &[byte], behind].concat());
            }
        }
        if let Some((_, behind)) = behind.split_first() {
            damaged.push([before, behind].concat());
        }
    }
    damaged
}
