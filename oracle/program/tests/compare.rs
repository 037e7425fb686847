//! which terms of two rolls differ, by cases that are worked out from the papers by hand and by
//! what holds of every two rolls.

mod shared;

use oracle::compare_rolls;
use oracle::parse::{write_roll, LONGEST_LINE};
use oracle::random::Random;
use oracle::second::{compared, moved, Form, Side};
use oracle::{form2_rolls, rust_side};
use std::collections::BTreeMap;
use shared::ask;

/// Digits with blanks between the parts of a roll.
fn joined(digits: &str) -> String {
    match digits {
        "-" => "-".to_string(),
        _ => digits.split(' ').collect(),
    }
}

fn hex(roll: &[u8]) -> String {
    let mut text = Vec::new();
    write_roll(&mut text, roll);
    String::from_utf8(text).expect("digits are text")
}

fn asked(left: &str, right: &str) -> String {
    ask(&format!("compare {} {}", joined(left), joined(right)))
}

/// Overlap Ax1 Bx1, [0,1] [7], in both forms.
const ONE: &str = "00 010000010000 02 0100020001 01000107";
const TWO: &str = "10 010000010000 02 010000020001 0100000107";

#[test]
fn two_boards_that_disagree() {
    let other = "00 010000020000 03 0100020001 01000106 0100020006";
    let other2 = "10 010000020000 03 010000020001 0100000106 010000020006";
    let there = "compared 2 differ|orders 1 0 0 1 0 0 / 1 0 0 2 0 0|terms 2 / 3|\
                 2: 1 0: 7 / 1 0: 6|3: right 1 0: 0 6|";
    let back = "compared 2 differ|orders 1 0 0 2 0 0 / 1 0 0 1 0 0|terms 3 / 2|\
                2: 1 0: 6 / 1 0: 7|3: left 1 0: 0 6|";
    for one in [ONE, TWO] {
        for other in [other, other2] {
            assert_eq!(asked(one, other), there);
            assert_eq!(asked(other, one), back);
        }
    }
}

#[test]
fn equal_rolls() {
    for left in [ONE, TWO] {
        for right in [ONE, TWO] {
            assert_eq!(asked(left, right), "compared 0 differ|");
        }
    }
}

/// What is said of two rolls that read.
const SAID: [(&str, &str, &str); 19] = [
    // The header alone: the kind, the orders, both.
    (
        "00 000000000000 01 010000",
        "01 000000000000 01 010000",
        "0 differ|kind 0 / 1|",
    ),
    (
        "00 010000000000 01 01000100",
        "00 000000010000 01 01000100",
        "0 differ|orders 1 0 0 0 0 0 / 0 0 0 1 0 0|",
    ),
    (
        "00 000000000000 01 010000",
        "12 060000000000 01 01000000",
        "0 differ|kind 0 / 2|orders 0 0 0 0 0 0 / 6 0 0 0 0 0|",
    ),
    // The orders that a kind uses: another number of them is other orders.
    (
        "00 000000000000 01 010000",
        "03 000000000000000000 01 010000",
        "0 differ|kind 0 / 3|orders 0 0 0 0 0 0 / 0 0 0 0 0 0 0 0 0|",
    ),
    (
        "04 000000000000000000000000 01 010000",
        "03 000000000000000000 01 010000",
        "0 differ|kind 4 / 3|orders 0 0 0 0 0 0 0 0 0 0 0 0 / 0 0 0 0 0 0 0 0 0|",
    ),
    (
        "14 000000000000000000000100 01 01000000",
        "04 000000000000000000000001 01 010000",
        "0 differ|orders 0 0 0 0 0 0 0 0 0 0 1 0 / 0 0 0 0 0 0 0 0 0 0 0 1|",
    ),
    // A reading with no prefactors ends in its colon.
    (
        "00 010000000000 01 010000",
        "00 010000000000 01 01000100",
        "1 differ|1: 1 0: / 1 0: 0|",
    ),
    (
        "00 010000000000 01 01000100",
        "10 010000000000 01 01000000",
        "1 differ|1: 1 0: 0 / 1 0:|",
    ),
    (
        "00 000000000000 01 010000",
        "00 000000000000 02 010000 020000",
        "1 differ|terms 1 / 2|2: right 2 0:|",
    ),
    // The scale, the Boys order, the prefactors, their order, their number.
    (
        "00 000000000000 01 80a0fc8d08 0000",
        "00 000000000000 01 010000",
        "1 differ|1: 2176782336 0: / 1 0:|",
    ),
    (
        "02 010000000000 01 01000100",
        "02 010000000000 01 01010100",
        "1 differ|1: 1 0: 0 / 1 1: 0|",
    ),
    (
        "00 020000000000 01 0100020006",
        "00 020000000000 01 0100020600",
        "1 differ|1: 1 0: 0 6 / 1 0: 6 0|",
    ),
    (
        "00 020000000000 01 0100020000",
        "00 020000000000 01 01000100",
        "1 differ|1: 1 0: 0 0 / 1 0: 0|",
    ),
    // All of it at once.
    (
        "00 010000000000 02 01000100 01000101",
        "12 000000000001 01 0301000106",
        "2 differ|kind 0 / 2|orders 1 0 0 0 0 0 / 0 0 0 0 0 1|terms 2 / 1|\
         1: 1 0: 0 / 3 1: 6|2: left 1 0: 1|",
    ),
    // A term left out: what follows stands at other numbers.
    (
        "00 010000000000 03 01000100 01000101 01000102",
        "00 010000000000 02 01000101 01000102",
        "3 differ|terms 3 / 2|1: 1 0: 0 / 1 0: 1|2: 1 0: 1 / 1 0: 2|3: left 1 0: 2|",
    ),
    // Equal terms on both sides at other numbers are no reason to be silent.
    (
        "00 010000000000 02 01000100 01000101",
        "10 010000000000 02 0100000101 0100000100",
        "2 differ|1: 1 0: 0 / 1 0: 1|2: 1 0: 1 / 1 0: 0|",
    ),
    // In form 2 an equal writing may be another term, and an equal term another writing.
    (
        "10 010000000000 02 0100000100 01000100",
        "10 010000000000 02 0100000101 01000100",
        "2 differ|1: 1 0: 0 / 1 0: 1|2: 1 0: 0 / 1 0: 1|",
    ),
    (
        "10 010000000000 02 0100000100 01000100",
        "10 010000000000 02 0100000101 0100000100",
        "1 differ|1: 1 0: 0 / 1 0: 1|",
    ),
    // Numbers of two digits; those on one side come last.
    (
        "00 000000000000 0b 010000 010000 010000 010000 010000 010000 010000 010000 010000 020000 030000",
        "00 000000000000 09 010000 010000 010000 010000 010000 010000 010000 010000 040000",
        "3 differ|terms 11 / 9|9: 1 0: / 4 0:|10: left 2 0:|11: left 3 0:|",
    ),
];

#[test]
fn what_differs() {
    for (left, right, expected) in SAID {
        let expected = format!("compared {}", expected);
        assert_eq!(asked(left, right), expected, "{} {}", left, right);
        assert_eq!(asked(right, left), exchanged(&expected), "{}", left);
    }
}

/// What is said with the sides exchanged.
fn exchanged(text: &str) -> String {
    let line = |line: &str| {
        if let Some((left, right)) = line.split_once(" / ") {
            // The words before the reading: a header's name, or a number and its colon.
            let (name, left) = left.split_once(' ').expect("a line has words");
            return format!("{} {} / {}", name, right, left);
        }
        match line.split_once(": left ") {
            Some((number, reading)) => format!("{}: right {}", number, reading),
            None => line.replacen(": right ", ": left ", 1),
        }
    };
    text.split('|').map(line).collect::<Vec<_>>().join("|")
}

#[test]
fn refusals() {
    // Bad rolls of either form or none, and their refusals.
    let bad = [
        ("-", "14 at 0"),
        ("80", "14 at 0"),
        ("8000", "7 at 0"),
        ("05", "7 at 0"),
        ("0f", "7 at 0"),
        ("15", "7 at 0"),
        ("9000", "7 at 0"),
        ("0007", "7 at 1"),
        ("1007", "7 at 1"),
        ("10", "14 at 1"),
        ("00 010000010000 00", "7 at 7"),
        ("00 010000010000", "14 at 7"),
        ("00 010000010000 02 0100020001", "14 at 13"),
        ("00 010000010000 02 0100020001 010001", "14 at 16"),
        ("00 010000010000 02 0100020001 01000108", "7 at 16"),
        ("00 010000010000 01 0100020001 01000107", "7 at 13"),
        ("00 010000010000 02 0100020001 01000107 00", "7 at 17"),
        ("10 010000010000 02 010000020001 01000001", "14 at 18"),
        ("10 010000010000 02 010000020001 0100000100", "7 at 18"),
        ("10 010000010000 02 010000020001 01000300", "7 at 16"),
        ("10 010000010000 02 010000020001 01000201 07", "7 at 17"),
        ("10 010000010000 02 010000020001 0100000107 00", "7 at 19"),
        // The terms of one form after the first number of the other.
        ("10 010000010000 02 0100020001 01000107", "7 at 10"),
        ("00 010000010000 02 010000020001 0100000107", "7 at 15"),
    ];
    for (roll, expected) in bad {
        for good in [ONE, TWO] {
            assert_eq!(asked(roll, good), format!("refused {} left", expected));
            assert_eq!(asked(good, roll), format!("refused {} right", expected));
        }
        // Where neither reads, the left one is refused.
        for (other, _) in bad {
            assert_eq!(asked(roll, other), format!("refused {} left", expected));
        }
    }
}

#[test]
fn lines_that_are_no_question() {
    let lines = [
        "compare",
        "compare ",
        "compare -",
        "compare - ",
        "compare -  -",
        "compare  - -",
        "compare - - ",
        "compare - - -",
        "compare - - 0 0",
        "compare - 0",
        "compare 0 -",
        "compare - 0A",
        "compare 0A -",
        "compare - /",
        "compare2 - -",
    ];
    for line in lines {
        assert_eq!(ask(line), "?", "{:?}", line);
    }
    assert_eq!(ask("compare - -"), "refused 14 at 0 left");
}

/// The listing of a roll of either form that reads, line by line; None where it is too long for one.
fn listed(roll: &[u8]) -> Option<Vec<String>> {
    let roll = match Form::of(roll) {
        Form::One => roll.to_vec(),
        Form::Two => moved(Form::One, roll).expect("it reads").1,
    };
    let listing = ask(&format!("list {}", hex(&roll)));
    let text = listing.strip_prefix("listing ")?;
    let lines = text.strip_suffix('|')?.split('|');
    Some(lines.map(String::from).collect())
}

/// The comparison of two listings: a line of text differs or not.
fn by_listings(left: &[String], right: &[String]) -> String {
    // `kind K orders o.. terms T` in three, and each term as number and reading.
    let header = |line: &str| -> Vec<String> {
        let (kind, rest) = line.split_once(" orders ").expect("a header");
        let (orders, terms) = rest.split_once(" terms ").expect("a header");
        let kind = kind.strip_prefix("kind ").expect("a header");
        [kind, orders, terms].map(String::from).to_vec()
    };
    let reading = |line: &String| -> String {
        let (_, reading) = line.split_once(' ').expect("a term has a number");
        reading.to_string()
    };
    let mut text = String::new();
    let names = ["kind", "orders", "terms"];
    for (name, (left, right)) in names
        .iter()
        .zip(header(&left[0]).iter().zip(header(&right[0])))
    {
        if *left != right {
            text += &format!("{} {} / {}|", name, left, right);
        }
    }
    let (mut both, mut single) = (BTreeMap::new(), BTreeMap::new());
    for number in 1..left.len().max(right.len()) {
        match (
            left.get(number).map(reading),
            right.get(number).map(reading),
        ) {
            (Some(left), Some(right)) if left == right => {}
            (Some(left), Some(right)) => {
                both.insert(number, format!("{}: {} / {}|", number, left, right));
            }
            (Some(left), None) => {
                single.insert(number, format!("{}: left {}|", number, left));
            }
            (_, right) => {
                let right = right.expect("one of the two is there");
                single.insert(number, format!("{}: right {}|", number, right));
            }
        }
    }
    let count = both.len() + single.len();
    let lines = both.into_values().chain(single.into_values());
    format!(
        "compared {} differ|{}{}",
        count,
        text,
        lines.collect::<String>()
    )
}

/// What holds of any two rolls: the refusal of the first that does not read, with its side; else what
/// their listings say. Some where they are compared.
fn held(left: &[u8], right: &[u8]) -> Option<bool> {
    let answer = ask(&format!("compare {} {}", hex(left), hex(right)));
    for (roll, side) in [(left, "left"), (right, "right")] {
        let word = match Form::of(roll) {
            Form::One => "check",
            Form::Two => "check2",
        };
        let judged = ask(&format!("{} {}", word, hex(roll)));
        if judged.starts_with("refused") {
            assert_eq!(answer, format!("{} {}", judged, side));
            return None;
        }
    }
    let (left_lines, right_lines) = (listed(left)?, listed(right)?);
    assert!(
        answer == by_listings(&left_lines, &right_lines),
        "{}",
        answer
    );
    let back = ask(&format!("compare {} {}", hex(right), hex(left)));
    assert!(back == exchanged(&answer), "{}", answer);
    assert_eq!(answer == "compared 0 differ|", left_lines == right_lines);
    Some(left_lines == right_lines)
}

#[test]
fn what_holds_of_any_two_rolls() {
    let mut random = Random::new(31);
    let (mut equal, mut differ) = (0, 0);
    for _ in 0..20_000 {
        let (left, right) = compare_rolls::any(&mut random);
        if 2 * (left.len() + right.len()) + 10 > LONGEST_LINE {
            continue;
        }
        match held(&left, &right) {
            Some(true) => equal += 1,
            Some(false) => differ += 1,
            None => {}
        }
    }
    assert!(equal > 2_000 && differ > 6_000, "{} {}", equal, differ);
}

#[test]
fn what_holds_of_those_tried_one_by_one() {
    for (left, right) in compare_rolls::tried_one_by_one() {
        held(&left, &right);
    }
}

/// A roll beside itself, in the same form and in the other.
#[test]
fn nothing_differs_from_itself() {
    let mut random = Random::new(32);
    for at in 0..5_000 {
        let roll = match at % 2 {
            0 => form2_rolls::legal(&mut random, Form::One),
            _ => form2_rolls::fresh(&mut random),
        };
        let form = Form::of(&roll);
        let other = moved(form.other(), &roll).expect("it reads").1;
        for (left, right) in [(&roll, &roll), (&roll, &other), (&other, &roll)] {
            assert_eq!(compared(left, right), Ok("0 differ\n".to_string()));
        }
    }
}

/// Every line ends in a line feed.
#[test]
fn the_text_itself() {
    let s = rust_side::roll(0, &[0; 12]);
    let t = rust_side::roll(1, &[0; 12]);
    let text = "0 differ\nkind 0 / 1\n".to_string();
    assert_eq!(compared(&s, &t), Ok(text));
    let refused = compared(&s, &[]).expect_err("nothing is no roll");
    assert_eq!((refused.0.number, refused.1), (14, Side::Right));
}

/// Rolls that fill a line: some 21 MB and 22 MB of text.
#[test]
fn as_much_as_a_line_holds() {
    for (pair, is_one_sided) in [
        (compare_rolls::of_long_lines(), false),
        (compare_rolls::of_one_side(), true),
    ] {
        let question = format!("compare {} {}", hex(&pair.0), hex(&pair.1));
        assert!((LONGEST_LINE - 20..=LONGEST_LINE).contains(&question.len()));
        let answer = ask(&question);
        assert!(answer.starts_with("compared "));
        let lines: Vec<&str> = answer.trim_end_matches('|').split('|').collect();
        let count = lines[0].split(' ').nth(1).expect("it has a count");
        let listed = lines.iter().filter(|line| line.contains(": ")).count();
        assert_eq!(count, listed.to_string());
        assert!(answer.len() > 20_000_000, "{}", answer.len());
        let last = lines.last().expect("it has lines");
        assert_eq!(last.contains("right"), is_one_sided, "{}", last);
    }
}
