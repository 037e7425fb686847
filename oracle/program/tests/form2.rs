//! form 2 of a roll, by cases that are worked out from documents 01 and 02 by hand.

mod shared;

use oracle::second::{Form, Term, BEFORE, NOW};
use std::collections::HashSet;
use shared::ask;

/// Digits with blanks between the parts of a roll.
fn joined(digits: &str) -> String {
    digits.split(' ').collect()
}

fn bytes(digits: &str) -> Vec<u8> {
    let digits = joined(digits);
    let two = (0..digits.len()).step_by(2).map(|at| &digits[at..at + 2]);
    two.map(|two| u8::from_str_radix(two, 16).expect("digits"))
        .collect()
}

/// The requests whose terms 01 prints: the orders, the roll, and the same roll in form 2.
const PRINTED: [(&str, &str, &str); 10] = [
    // []
    (
        "0 0 0 0 0 0 0 0 0 0 0 0 0",
        "00 000000000000 01 010000",
        "10 000000000000 01 01000000",
    ),
    // [0,1] [7]
    (
        "0 1 0 0 1 0 0 0 0 0 0 0 0",
        "00 010000010000 02 0100020001 01000107",
        "10 010000010000 02 010000020001 0100000107",
    ),
    // [0,0] [6]
    (
        "0 2 0 0 0 0 0 0 0 0 0 0 0",
        "00 020000000000 02 0100020000 01000106",
        "10 020000000000 02 010000020000 0100000106",
    ),
    // [0,0,0] [0,6] 2[6,0]
    (
        "0 3 0 0 0 0 0 0 0 0 0 0 0",
        "00 030000000000 03 010003000000 0100020006 0200020600",
        "10 030000000000 03 01000003000000 0100010106 020000020600",
    ),
    // [0] [8,0]
    (
        "1 1 0 0 0 0 0 0 0 0 0 0 0",
        "01 010000000000 02 01000100 0100020800",
        "11 010000000000 02 0100000100 010000020800",
    ),
    // [0,0] [0,8,0] [6] [8,0,0] [8,6] [9]
    (
        "1 2 0 0 0 0 0 0 0 0 0 0 0",
        "01 020000000000 06 0100020000 010003000800 01000106 010003080000 0100020806 01000109",
        "11 020000000000 06 010000020000 010001020800 0100000106 01000003080000 0100010106 0100000109",
    ),
    // [0] [6]o1
    (
        "2 1 0 0 0 0 0 0 0 0 0 0 0",
        "02 010000000000 02 01000100 01010106",
        "12 010000000000 02 0100000100 0101000106",
    ),
    // [6,6] [9]
    (
        "3 0 0 0 0 0 0 2 0 0 0 0 0",
        "03 000000000000020000 02 0100020606 01000109",
        "13 000000000000020000 02 010000020606 0100000109",
    ),
    // [0,6] [11]
    (
        "3 1 0 0 0 0 0 1 0 0 0 0 0",
        "03 010000000000010000 02 0100020006 0100010b",
        "13 010000000000010000 02 010000020006 010000010b",
    ),
    // [0,2] [0,5]o1 [4,2]o1 [4,5]o2 [22]o1
    (
        "4 1 0 0 0 0 0 1 0 0 0 0 0",
        "04 010000000000010000000000 05 0100020002 0101020005 0101020402 0102020405 01010116",
        "14 010000000000010000000000 05 010000020002 0101010105 010100020402 0102010105 0101000116",
    ),
];

/// The answer that has such a roll; a term is a part of its own after the header's three.
fn rolled(roll: &str) -> String {
    let count = roll.split(' ').count() - 3;
    let roll = joined(roll);
    format!("roll {} terms {} {}", roll.len() / 2, count, roll)
}

#[test]
fn the_requests_that_01_prints() {
    for (request, form1, form2) in PRINTED {
        assert_eq!(ask(&format!("expand {}", request)), rolled(form1));
        assert_eq!(ask(&format!("expand2 {}", request)), rolled(form2));
        let (form1_line, form2_line) = (joined(form1), joined(form2));
        assert_eq!(ask(&format!("form2 {}", form1_line)), rolled(form2));
        assert_eq!(ask(&format!("form1 {}", form2_line)), rolled(form1));
        let opened = ask(&format!("check {}", form1_line));
        assert!(opened.starts_with("opened"));
        for word in ["open2", "check2"] {
            assert_eq!(ask(&format!("{} {}", word, form2_line)), opened);
        }
    }
}

#[test]
fn each_form_refuses_the_other_at_0() {
    let centre = " 3ff0000000000000".repeat(4) + " 1";
    let floats = centre.repeat(4) + " 3ff0000000000000";
    for (_, form1, form2) in PRINTED {
        let (form1, form2) = (joined(form1), joined(form2));
        for word in ["open2", "check2", "form1"] {
            assert_eq!(ask(&format!("{} {}", word, form1)), "refused 7 at 0");
        }
        for word in ["open", "check", "list", "form2"] {
            assert_eq!(ask(&format!("{} {}", word, form2)), "refused 7 at 0");
        }
        assert_eq!(ask(&format!("eval {}{}", form2, floats)), "refused 7 at 0");
        let before = BEFORE.check(&bytes(&form2)).expect_err("no form of before");
        assert_eq!((before.number, before.place), (7, 0));
    }
}

#[test]
fn the_first_number() {
    for first in 0..=255 {
        let roll = format!("{:02x}{}", first, "00".repeat(12));
        let opened = ask(&format!("open2 {}", roll));
        match first {
            // The count of terms is 0.
            16..=18 => assert_eq!(opened, "refused 7 at 7"),
            19 => assert_eq!(opened, "refused 7 at 10"),
            20 => assert_eq!(opened, "refused 14 at 13"),
            _ => assert_eq!(opened, "refused 7 at 0", "{}", first),
        }
    }
    let cases = [
        ("-", "14 at 0"),
        ("90", "14 at 0"),
        ("9000", "7 at 0"),
        ("ffffffff90", "7 at 0"),
        ("10", "14 at 1"),
        ("1005", "14 at 2"),
        ("1007", "7 at 1"),
        ("10 020203 00000001", "7 at 3"),
        ("10 000000000000", "14 at 7"),
        ("10 000000000000 00", "7 at 7"),
        ("10 000000000000 80", "14 at 7"),
        ("10 000000000000 808040", "7 at 7"),
    ];
    for (roll, expected) in cases {
        for word in ["open2", "check2", "form1"] {
            let answer = ask(&format!("{} {}", word, joined(roll)));
            assert_eq!(answer, format!("refused {}", expected), "{}", roll);
        }
    }
    let most = "10 060000000000 ffff3f";
    let opened = "opened 0 6 1048575 6 0 0 0 0 0 place 10";
    assert_eq!(ask(&format!("open2 {}", joined(most))), opened);
}

/// Overlap Ax3, its terms [0,0,0] [0,6] 2[6,0]; they begin at 8, 15 and 20, and the roll ends at 26.
const HEAD: &str = "10 030000000000 03";
const FIRST: &str = "01000003000000";
const SECOND: &str = "0100010106";
const THIRD: &str = "020000020600";

/// What the reader says of these terms after that header: how the last of the three goes on, or the
/// refusal. The move back says the same, and so does the cursor at the term that is refused.
fn judged(terms: &[&str]) -> String {
    let roll = joined(HEAD) + &joined(&terms.join(" "));
    let checked = ask(&format!("check2 {}", roll));
    let moved = ask(&format!("form1 {}", roll));
    if checked.starts_with("refused") {
        assert_eq!(moved, checked);
        assert_eq!(stepped(&roll).1, checked);
        return checked;
    }
    assert_eq!(checked, "opened 0 3 3 3 0 0 0 0 0 place 8");
    let form1 = moved.rsplit(' ').next().expect("an answer has words");
    let listing = ask(&format!("list {}", form1));
    let (steps, end) = stepped(&roll);
    assert_eq!(end, "end");
    assert_eq!(steps.len(), 3);
    let lines: Vec<&str> = listing.split('|').collect();
    for (at, step) in steps.iter().enumerate() {
        // A listing's line is the term's number, scale, Boys order and a colon.
        assert_eq!(lines[at + 1], format!("{} {}", at + 1, step));
    }
    lines[2..4].join("|")
}

/// The terms that the cursor comes to, written as a listing does, and what it answers then.
fn stepped(roll: &str) -> (Vec<String>, String) {
    let (mut place, mut left) = ("8".to_string(), "3".to_string());
    let (mut before, mut steps) = (String::new(), Vec::new());
    loop {
        let answer = ask(&format!(
            "next2 0 3 {} {}{} / {}",
            left, place, before, roll
        ));
        let words: Vec<&str> = answer.split(' ').collect();
        if words[0] != "term" {
            return (steps, answer);
        }
        let next = words.iter().position(|&word| word == "next");
        let next = next.expect("a term has a next place");
        let prefactors = words[3..next].iter().map(|p| format!(" {}", p));
        before = prefactors.collect();
        steps.push(format!("{} {}:{}", words[1], words[2], before));
        place = words[next + 1].to_string();
        left = words[next + 2].to_string();
    }
}

#[test]
fn shared_lengths_that_read() {
    let cases = [
        (SECOND, THIRD, "2 1 0: 0 6|3 2 0: 6 0"),
        // Nothing is shared, and nothing could be.
        ("0100000106", "0100000107", "2 1 0: 6|3 1 0: 7"),
        // Two are shared, then one differs; then all three.
        ("0100020106", "01000300", "2 1 0: 0 0 6|3 1 0: 0 0 6"),
        // A beginning of the term before, and a beginning of that.
        ("01000200", "01000100", "2 1 0: 0 0|3 1 0: 0"),
        ("01000000", "01000000", "2 1 0:|3 1 0:"),
        // After a term with none all are further ones.
        ("01000000", "01000003000000", "2 1 0:|3 1 0: 0 0 0"),
        // The whole term before is shared, and it goes on.
        ("01000100", "010001020007", "2 1 0: 0|3 1 0: 0 0 7"),
        // As many as there may be, by the number of further ones.
        ("010001020600", "0100020107", "2 1 0: 0 6 0|3 1 0: 0 6 7"),
        // A further prefactor equals the one before it, not one of the term before.
        ("0100010206 06", "0100000206 06", "2 1 0: 0 6 6|3 1 0: 6 6"),
    ];
    for (second, third, expected) in cases {
        assert_eq!(judged(&[FIRST, second, third]), expected);
    }
}

#[test]
fn the_faults_of_form_2() {
    let cases: &[(&[&str], &str)] = &[
        // A shared length beyond the term before: the first has none before it.
        (&["0100010200 00"], "7 at 10"),
        (&["01000100"], "7 at 10"),
        (&[FIRST, "01000400"], "7 at 17"),
        (&[FIRST, "0100ffffffff0f00"], "7 at 17"),
        (&[FIRST, "01000200", "01000300"], "7 at 21"),
        (&[FIRST, "0100000106", "0100020107"], "7 at 22"),
        // More prefactors than L, at the number of further ones.
        (&["010000 04 00000000"], "7 at 11"),
        (&[FIRST, "010001 03 060000"], "7 at 18"),
        (&[FIRST, "010003 01 06"], "7 at 18"),
        (&[FIRST, "010001 ffffffff0f"], "7 at 18"),
        // A shared length that isn't the longest, at the first further prefactor.
        (&[FIRST, "010000 02 0006"], "7 at 19"),
        (&[FIRST, "010000 01 00"], "7 at 19"),
        (&[FIRST, "010001 02 0006"], "7 at 19"),
        (&[FIRST, "010000 03 000006"], "7 at 19"),
        (&[FIRST, "010002 01 00"], "7 at 19"),
        (&[FIRST, SECOND, "010001 01 06"], "7 at 24"),
        // A prefactor not below the table size, the first or a later one.
        (&["010000 01 08"], "7 at 12"),
        (&[FIRST, "010001 01 08"], "7 at 19"),
        (&[FIRST, "010001 02 0608"], "7 at 20"),
        // Scale and Boys order as in form 1.
        (&["000000 00"], "7 at 8"),
        (&[FIRST, "81a0fc8d08 000000"], "7 at 15"),
        (&[FIRST, "01010000"], "7 at 16"),
        // Not the shortest form of a number, or one too large.
        (&[FIRST, "0100810001 06"], "7 at 17"),
        (&[FIRST, "010001810006"], "7 at 18"),
        (&[FIRST, "0100010186 00"], "7 at 19"),
        (&[FIRST, "0100ffffffff10"], "7 at 17"),
        // Bytes after the last term.
        (&[FIRST, SECOND, THIRD, "00"], "7 at 26"),
        // Where two hold, the first in reading order.
        (&[FIRST, "000004 00"], "7 at 15"),
        (&[FIRST, "010104 00"], "7 at 16"),
        (&[FIRST, "010004 04 00000000"], "7 at 17"),
        (&[FIRST, "010000 04 00000000"], "7 at 18"),
        (&[FIRST, "010001 03 00"], "7 at 18"),
        (&[FIRST, "010000 02 0008"], "7 at 19"),
        (&[FIRST, "010000 02 0800"], "7 at 19"),
        // A number that is missing or cut.
        (&[], "14 at 8"),
        (&["01"], "14 at 9"),
        (&["0100"], "14 at 10"),
        (&["010000"], "14 at 11"),
        (&["01000003"], "14 at 12"),
        (&[FIRST], "14 at 15"),
        (&[FIRST, "0100"], "14 at 17"),
        (&[FIRST, "010080"], "14 at 17"),
        (&[FIRST, "010000"], "14 at 18"),
        (&[FIRST, "010000 02"], "14 at 19"),
        (&[FIRST, "010000 02 80"], "14 at 19"),
        (&[FIRST, "010001 01 ff"], "14 at 19"),
        (&[FIRST, "0100020106"], "14 at 20"),
        // A number that is whole and wrong stays so where the roll ends with it.
        (&[FIRST, "010004"], "7 at 17"),
        (&[FIRST, "010001 03"], "7 at 18"),
    ];
    for (terms, expected) in cases {
        assert_eq!(
            judged(terms),
            format!("refused {}", expected),
            "{:?}",
            terms
        );
    }
}

/// Kinetic may have one prefactor more than L, shared or not. L is 1 here.
#[test]
fn the_limit_of_kinetic() {
    let head = joined("11 010000000000 02");
    let cases = [
        ("0100000208 00 01000200", "opened 1 1 2 1 0 0 0 0 0 place 8"),
        (
            "01000001 08 010001 01 00",
            "opened 1 1 2 1 0 0 0 0 0 place 8",
        ),
        ("010000 03 080000", "refused 7 at 11"),
        ("0100000208 00 010001 02 0708", "refused 7 at 17"),
        ("0100000208 00 010002 01 07", "refused 7 at 17"),
    ];
    for (terms, expected) in cases {
        let roll = head.clone() + &joined(terms);
        assert_eq!(ask(&format!("check2 {}", roll)), expected, "{}", terms);
    }
    // Of Coulomb, with L at its most: 24 are shared, and the Boys order is 24.
    let orders = "06000006000006000006 0000";
    let all = "16".repeat(24);
    let roll = joined(&format!("14 {} 02 0118 0018 {} 0100 1800", orders, all));
    let opened = "opened 4 24 2 6 0 0 6 0 0 6 0 0 6 0 0 place 14";
    assert_eq!(ask(&format!("check2 {}", roll)), opened);
    let above = joined(&format!("14 {} 02 0118 0018 {} 0100 180116", orders, all));
    assert_eq!(ask(&format!("check2 {}", above)), "refused 7 at 45");
}

#[test]
fn cursors() {
    let roll = joined(&[HEAD, FIRST, SECOND, THIRD].join(" "));
    let most = " 22".repeat(24);
    let cases = [
        ("0 3 3 8 /", "term 1 0 0 0 0 next 15 2"),
        ("0 3 2 15 0 0 0 /", "term 1 0 0 6 next 20 1"),
        ("0 3 1 20 0 6 /", "term 2 0 6 0 next 26 0"),
        ("0 3 0 26 6 0 /", "end"),
        ("0 3 0 26 /", "end"),
        ("0 3 4294967295 20 /", "term 2 0 6 0 next 26 4294967294"),
        // Another term before, one that could stand there.
        ("0 3 2 15 /", "refused 7 at 17"),
        ("0 3 2 15 0 6 /", "refused 7 at 19"),
        ("0 3 2 15 7 /", "term 1 0 7 6 next 20 1"),
        ("0 3 2 15 7 7 7 /", "term 1 0 7 6 next 20 1"),
        ("0 3 1 20 6 /", "refused 7 at 24"),
        // The place says where the term begins, not the count.
        ("0 3 1 15 0 0 0 /", "term 1 0 0 6 next 20 0"),
        ("0 3 0 20 0 6 /", "refused 7 at 20"),
        ("0 3 1 26 6 0 /", "refused 14 at 26"),
        // 01's three checks.
        ("5 3 0 26 /", "refused 7 at 26"),
        ("16 3 0 26 /", "refused 7 at 26"),
        ("0 13 0 26 /", "refused 7 at 26"),
        ("0 12 0 26 /", "end"),
        ("0 3 0 27 /", "refused 7 at 27"),
        (
            "0 3 1 18446744073709551615 /",
            "refused 7 at 18446744073709551615",
        ),
        // A forged term before: too many prefactors, or one not below the table size.
        ("0 3 0 26 0 0 0 0 /", "refused 7 at 26"),
        ("0 3 0 26 0 0 0 /", "end"),
        ("1 3 0 26 0 0 0 0 /", "end"),
        ("1 3 0 26 0 0 0 0 0 /", "refused 7 at 26"),
        ("0 3 0 26 8 /", "refused 7 at 26"),
        ("0 3 0 26 0 0 255 /", "refused 7 at 26"),
        ("1 3 0 26 10 /", "end"),
        ("1 3 0 26 11 /", "refused 7 at 26"),
        ("3 3 0 26 11 /", "end"),
        ("3 3 0 26 12 /", "refused 7 at 26"),
        ("4 3 0 26 22 /", "end"),
        ("4 3 0 26 23 /", "refused 7 at 26"),
        ("0 0 0 26 0 /", "refused 7 at 26"),
        ("1 0 0 26 8 /", "end"),
        // It comes before a term is read, and before no term is left.
        ("0 3 1 26 8 /", "refused 7 at 26"),
        ("0 3 1 26 0 0 0 0 /", "refused 7 at 26"),
        ("0 3 3 8 8 /", "refused 7 at 8"),
        ("0 3 3 8 0 0 0 0 /", "refused 7 at 8"),
        ("0 3 0 27 8 /", "refused 7 at 27"),
    ];
    for (cursor, expected) in cases {
        let answer = ask(&format!("next2 {} {}", cursor, roll));
        assert_eq!(answer, expected, "{}", cursor);
    }
    let full = |more: &str| ask(&format!("next2 4 24 0 26{}{} / {}", most, more, roll));
    assert_eq!(full(""), "end");
    assert_eq!(full(" 22"), "?");
    assert_eq!(ask("next2 0 0 1 0 / -"), "refused 14 at 0");
    assert_eq!(ask("next2 0 0 0 0 / -"), "end");
}

#[test]
fn room_for_a_move() {
    let (form1, form2) = (joined(PRINTED[3].1), joined(PRINTED[3].2));
    assert_eq!((form1.len() / 2, form2.len() / 2), (24, 26));
    let cases = [
        ("form2", &form1, "26 0", "roll 26"),
        ("form2", &form1, "25 0", "refused 6"),
        ("form2", &form1, "100 74", "roll 26"),
        ("form2", &form1, "100 75", "refused 6"),
        ("form2", &form1, "100 100", "refused 6"),
        ("form2", &form1, "100 101", "refused 5"),
        ("form2", &form1, "0 18446744073709551615", "refused 5"),
        ("form1", &form2, "24 0", "roll 24"),
        ("form1", &form2, "23 0", "refused 6"),
        ("form1", &form2, "16777216 16777192", "roll 24"),
        ("form1", &form2, "16777216 16777193", "refused 6"),
        ("form1", &form2, "0 0", "refused 6"),
        ("form1", &form2, "0 1", "refused 5"),
    ];
    for (word, roll, room, expected) in cases {
        let answer = ask(&format!("{} {} {}", word, roll, room));
        assert!(answer.starts_with(expected), "{} {}", word, room);
    }
    // The refusals of reading come first.
    for word in ["form1", "form2"] {
        assert_eq!(ask(&format!("{} 8000 0 1", word)), "refused 7 at 0");
        assert_eq!(ask(&format!("{} - 0 1", word)), "refused 14 at 0");
        assert_eq!(ask(&format!("{} 05 0 0", word)), "refused 7 at 0");
    }
    let wrong = joined(&[HEAD, FIRST, "010000 01 00"].join(" "));
    assert_eq!(ask(&format!("form1 {} 0 1", wrong)), "refused 7 at 19");
    assert_eq!(
        ask(&format!("form1 {} 0 0", &form2[..50])),
        "refused 14 at 25"
    );
    assert_eq!(ask(&format!("form2 {}00 0 0", form1)), "refused 7 at 24");
}

/// 1, 2, 3, 5, 4, 6.
#[test]
fn refusals_of_expand2() {
    let cases = [
        ("5 7 0 0 0 0 0 1 0 0 0 0 0 0 1", "refused 1"),
        ("16 0 0 0 0 0 0 0 0 0 0 0 0", "refused 1"),
        ("0 7 0 0 0 0 0 1 0 0 0 0 0 0 1", "refused 2"),
        ("0 6 0 0 0 0 0 9 0 0 0 0 0 0 1", "refused 3"),
        ("4 6 0 0 6 0 0 6 0 0 6 0 0 0 1", "refused 5"),
        ("4 6 0 0 6 0 0 6 0 0 6 0 0 0 0", "refused 4"),
        ("4 6 0 0 6 0 0 6 0 0 6 0 0", "refused 4"),
        ("0 0 0 0 0 0 0 0 0 0 0 0 0 11 0", "refused 6"),
        ("0 0 0 0 0 0 0 0 0 0 0 0 0 20 20", "refused 6"),
        ("0 0 0 0 0 0 0 0 0 0 0 0 0 20 21", "refused 5"),
        ("0 0 0 0 0 0 0 0 0 0 0 0 0 20 9", "refused 6"),
    ];
    for (request, expected) in cases {
        assert_eq!(ask(&format!("expand2 {}", request)), expected);
    }
    let whole = ask("expand2 0 0 0 0 0 0 0 0 0 0 0 0 0");
    assert_eq!(ask("expand2 0 0 0 0 0 0 0 0 0 0 0 0 0 12 0"), whole);
    assert_eq!(ask("expand2 0 0 0 0 0 0 0 0 0 0 0 0 0 20 8"), whole);
}

#[test]
fn lines_that_are_no_question() {
    let lines = [
        "expand2",
        "expand2 0 0 0 0 0 0 0 0 0 0 0 0",
        "expand2 0 0 0 0 0 0 0 0 0 0 0 0 0 12",
        "expand2 0 0 0 0 0 0 0 0 0 0 0 0 0 16777217 0",
        "open2",
        "open2 1",
        "open2 10 ",
        "check2 1A",
        "next2 0 0 0 0 -",
        "next2 0 0 0 0 /",
        "next2 0 0 0 0 / ",
        "next2 0 0 0 / -",
        "next2 0 0 0 0 /-",
        "next2 0 0 0 0  / -",
        "next2 0 0 0 0 / / -",
        "next2 0 0 0 0 / - 0",
        "next2 0 0 0 0 00 / -",
        "next2 0 0 0 0 256 / -",
        "next2 0 0 0 0 0 0",
        "next 0 0 0 0 / -",
        "form2",
        "form2 - 0",
        "form2 - 0 0 0",
        "form1 - 16777217 0",
        "form1 - 0 18446744073709551616",
        "form 00",
        "form3 00",
        "form1  00",
    ];
    for line in lines {
        assert_eq!(ask(line), "?", "{:?}", line);
    }
    assert_eq!(ask("form1 - 16777216 0"), "refused 14 at 0");
    assert_eq!(ask("next2 0 0 4294967295 0 255 / -"), "refused 7 at 0");
}

/// Hands out every string of so many letters.
fn each_string(letters: &[u8], length: usize, of: &mut dyn FnMut(&[u8])) {
    let mut string = vec![letters[0]; length];
    for mut number in 0..letters.len().pow(length as u32) {
        for byte in string.iter_mut() {
            *byte = letters[number % letters.len()];
            number /= letters.len();
        }
        of(&string);
    }
}

/// Of all bytes of so many letters after a beginning, the number of those that read in a form. No
/// two of them say the same.
fn read(form: Form, beginning: &str, letters: &[u8], most: usize) -> usize {
    let beginning = bytes(beginning);
    let mut said: HashSet<(u8, [u8; 12], Vec<(u32, u8, Vec<u8>)>)> = HashSet::new();
    let plain = |term: Term| (term.scale, term.boys, term.prefactors);
    let mut roll = Vec::new();
    for length in 0..=most {
        each_string(letters, length, &mut |string| {
            roll.clear();
            roll.extend_from_slice(&beginning);
            roll.extend_from_slice(string);
            if let Ok((header, terms)) = NOW.check_in(form, &roll) {
                let terms: Vec<_> = terms.into_iter().map(plain).collect();
                assert_eq!(terms.len(), header.count as usize);
                assert!(
                    said.insert((header.kind, header.orders, terms)),
                    "{:?}",
                    roll
                );
            }
        });
    }
    said.len()
}

/// The same terms read in both forms, each in one writing; how many there are is counted by hand.
#[test]
fn one_writing_of_each_meaning() {
    let letters = [0, 1, 2];
    for (form, first, most) in [(Form::One, "00", 10), (Form::Two, "10", 12)] {
        // L = 1: [], [0], [1] and [2], of scale 1 or 2; two such terms.
        let head = format!("{} 010000000000", first);
        assert_eq!(read(form, &format!("{} 01", head), &letters, 5), 8);
        assert_eq!(read(form, &format!("{} 02", head), &letters, 10), 8 * 8);
        // L = 2: 1 + 3 + 9 lists of prefactors, of scale 1 or 2; two such terms.
        let head = format!("{} 020000000000 02", first);
        assert_eq!(read(form, &head, &letters, most), 26 * 26);
    }
    // Nuclear with L = 1: scale 1 or 2, Boys order 0 or 1, the four lists.
    for (form, first) in [(Form::One, "02"), (Form::Two, "12")] {
        let head = format!("{} 010000000000 02", first);
        assert_eq!(read(form, &head, &letters, 10), 16 * 16);
    }
}

/// The header's bytes are not given either. Each of the six orders is 0 or 1, there is one term, and
/// its scale is 1 or 16. It has no prefactor, or where L allows it one, which is 0 or 1.
#[test]
fn one_writing_with_any_header() {
    let letters = [0x00, 0x01, 0x10];
    let (overlap, kinetic) = (64 * 2 + 63 * 4, 64 * 2 + 64 * 4);
    assert_eq!(read(Form::One, "", &letters, 13), overlap + kinetic);
    assert_eq!(read(Form::Two, "", &letters, 13), overlap);
    assert_eq!(read(Form::Two, "11", &letters, 12), kinetic);
}
