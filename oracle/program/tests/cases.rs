//! Document 01's cases, those of 02, and the lines that are no question.

mod shared;

use oracle::rolls;
use oracle::second::{read_number, Unread, NOW};
use shared::ask;

/// Expands, then lists the roll: the terms as the listing writes them.
fn terms(request: &str) -> String {
    let expanded = ask(&format!("expand {}", request));
    let roll = expanded.rsplit(' ').next().expect("an answer has words");
    let listing = ask(&format!("list {}", roll));
    let after_header = listing.find('|').expect("a listing has a first line") + 1;
    listing[after_header..].to_string()
}

#[test]
fn rolls_that_01_prints() {
    assert_eq!(
        ask("expand 0 0 0 0 0 0 0 0 0 0 0 0 0"),
        "roll 11 terms 1 0000000000000001010000"
    );
    assert_eq!(
        ask("expand 0 1 0 0 1 0 0 0 0 0 0 0 0"),
        "roll 17 terms 2 0001000001000002010002000101000107"
    );
}

#[test]
fn terms_that_01_prints() {
    let cases = [
        ("0 0 0 0 0 0 0 0 0 0 0 0 0", "1 1 0:|"),
        ("0 1 0 0 1 0 0 0 0 0 0 0 0", "1 1 0: 0 1|2 1 0: 7|"),
        ("0 2 0 0 0 0 0 0 0 0 0 0 0", "1 1 0: 0 0|2 1 0: 6|"),
        (
            "0 3 0 0 0 0 0 0 0 0 0 0 0",
            "1 1 0: 0 0 0|2 1 0: 0 6|3 2 0: 6 0|",
        ),
        ("1 1 0 0 0 0 0 0 0 0 0 0 0", "1 1 0: 0|2 1 0: 8 0|"),
        (
            "1 2 0 0 0 0 0 0 0 0 0 0 0",
            "1 1 0: 0 0|2 1 0: 0 8 0|3 1 0: 6|4 1 0: 8 0 0|5 1 0: 8 6|6 1 0: 9|",
        ),
        ("2 1 0 0 0 0 0 0 0 0 0 0 0", "1 1 0: 0|2 1 1: 6|"),
        ("3 0 0 0 0 0 0 2 0 0 0 0 0", "1 1 0: 6 6|2 1 0: 9|"),
        ("3 1 0 0 0 0 0 1 0 0 0 0 0", "1 1 0: 0 6|2 1 0: 11|"),
        (
            "4 1 0 0 0 0 0 1 0 0 0 0 0",
            "1 1 0: 0 2|2 1 1: 0 5|3 1 1: 4 2|4 1 2: 4 5|5 1 1: 22|",
        ),
    ];
    for (request, expected) in cases {
        assert_eq!(terms(request), expected, "{}", request);
    }
}

#[test]
fn two_histories_with_equal_terms() {
    let text = terms("4 1 0 0 0 0 0 1 0 0 1 0 0");
    let equal = text.split('|').filter(|line| line.ends_with(" 1 2: 22 5"));
    assert_eq!(equal.count(), 2);
}

#[test]
fn the_listing_that_01_prints() {
    assert_eq!(
        ask("list 0001000001000002010002000101000107"),
        "listing kind 0 orders 1 0 0 1 0 0 terms 2|1 1 0: 0 1|2 1 0: 7|"
    );
}

#[test]
fn shells() {
    assert_eq!(
        ask("shell 2"),
        "shell 18 020000010100010001000200000101000002"
    );
    assert_eq!(ask("shell 2 18 0"), ask("shell 2"));
    assert_eq!(ask("shell 2 18 18"), "refused 6");
    assert_eq!(ask("shell 2 18 19"), "refused 5");
    assert_eq!(ask("shell 2 17 0"), "refused 6");
    assert!(ask("shell 6").starts_with("shell 84 060000050100"));
    assert_eq!(ask("shell 6 84 0"), ask("shell 6"));
    assert_eq!(ask("shell 6 83 0"), "refused 6");
    assert_eq!(ask("shell 7 0 1"), "refused 2");
    assert_eq!(ask("component 1 1 1"), "component 010000000100");
    assert_eq!(
        ask("component 4 4 4 4 50624"),
        "component 000004000004000004000004"
    );
    assert_eq!(
        ask("component 6 6 6 6 614655"),
        "component 000006000006000006000006"
    );
    assert_eq!(ask("component 6 6 6 6 614656"), "refused 13");
    assert_eq!(ask("component 7 6 6 6 614656"), "refused 2");
}

#[test]
fn refusals_of_a_request() {
    let cases = [
        ("4 4 0 0 4 0 0 4 0 0 4 0 0", "refused 4"),
        ("4 6 0 0 6 0 0 6 0 0 6 0 0", "refused 4"),
        ("4 6 0 0 6 0 0 6 0 0 6 0 0 0 0", "refused 4"),
        ("4 6 0 0 6 0 0 6 0 0 6 0 0 0 1", "refused 5"),
        ("0 7 0 0 0 0 0 0 0 0 0 0 0", "refused 2"),
        ("0 2 2 3 0 0 0 0 0 0 0 0 0", "refused 2"),
        ("0 255 255 2 0 0 0 0 0 0 0 0 0", "refused 2"),
        ("0 0 0 0 0 0 0 9 0 0 0 0 0", "refused 3"),
        ("3 0 0 0 0 0 0 0 0 0 0 0 1", "refused 3"),
        ("5 9 0 0 0 0 0 0 0 0 0 0 0", "refused 1"),
        ("0 0 0 0 0 0 0 0 0 0 0 0 0 20 20", "refused 6"),
        ("0 0 0 0 0 0 0 0 0 0 0 0 0 20 21", "refused 5"),
        ("0 0 0 0 0 0 0 0 0 0 0 0 0 20 10", "refused 6"),
    ];
    for (request, expected) in cases {
        assert_eq!(ask(&format!("expand {}", request)), expected, "{}", request);
    }
    assert!(ask("expand 0 6 0 0 0 0 0 0 0 0 0 0 0").starts_with("roll"));
    assert!(ask("expand 0 0 0 0 0 0 0 0 0 0 0 0 0 20 9").starts_with("roll"));
}

/// Q-6: the length and the terms of what `expand` writes, with its refusals but for the buffer's.
#[test]
fn measuring() {
    let cases = [
        ("0 0 0 0 0 0 0 0 0 0 0 0 0", "measured 11 terms 1"),
        ("0 1 0 0 1 0 0 0 0 0 0 0 0", "measured 17 terms 2"),
        ("2 6 0 0 6 0 0 0 0 0 0 0 0", "measured 4665226 terms 380480"),
        ("4 6 0 0 6 0 0 6 0 0 6 0 0", "refused 4"),
        ("4 6 0 0 6 0 0 6 0 0 6 0 1", "refused 2"),
        ("3 6 0 0 6 0 0 6 0 0 0 0 1", "refused 3"),
        ("0 7 0 0 0 0 0 1 0 0 0 0 0", "refused 2"),
        ("5 7 0 0 0 0 0 1 0 0 0 0 0", "refused 1"),
        ("4 6 0 0 6 0 0 6 0 0 6 0 0 0 0", "?"),
        ("0 0 0 0 0 0 0 0 0 0 0 0", "?"),
    ];
    for (request, expected) in cases {
        assert_eq!(ask(&format!("measure {}", request)), expected);
    }
}

/// Q-6: the buffer that is lent where none is named holds the longest roll.
#[test]
fn the_longest_roll_fits() {
    let expanded = ask("expand 4 1 1 0 4 0 1 1 3 0 3 0 0");
    assert!(expanded.starts_with("roll 15001920 terms 1048096 "));
}

#[test]
fn reading() {
    let cases = [
        ("open 8000", "refused 7 at 0"),
        ("check 8000", "refused 7 at 0"),
        ("list 8000", "refused 7 at 0"),
        ("open -", "refused 14 at 0"),
        ("open 05", "refused 7 at 0"),
        ("open 0000000000000001", "opened 0 0 1 0 0 0 0 0 0 place 8"),
        ("check 0000000000000001", "refused 14 at 8"),
        (
            "check 0000000000000001010000",
            "opened 0 0 1 0 0 0 0 0 0 place 8",
        ),
        ("check 000000000000000101000000", "refused 7 at 11"),
        ("open 0002020300000001", "refused 7 at 3"),
        (
            "open 00060000000000ffff3f",
            "opened 0 6 1048575 6 0 0 0 0 0 place 10",
        ),
        ("open 00060000000000808040", "refused 7 at 7"),
        ("check 0000000000000001010100", "refused 7 at 9"),
        ("check 01000000000000010100020808", "refused 7 at 10"),
        (
            "check 010000000000000101000108",
            "opened 1 0 1 0 0 0 0 0 0 place 8",
        ),
        (
            "check 000000000000000180a0fc8d080000",
            "opened 0 0 1 0 0 0 0 0 0 place 8",
        ),
        ("check 000000000000000181a0fc8d080000", "refused 7 at 8"),
        ("next 0 0 1 8 0000000000000001010000", "term 1 0 next 11 0"),
        ("next 0 0 0 11 0000000000000001010000", "end"),
        ("next 0 0 0 10 0000000000000001010000", "refused 7 at 10"),
        ("next 0 0 1 11 0000000000000001010000", "refused 14 at 11"),
        ("next 0 0 1 12 0000000000000001010000", "refused 7 at 12"),
        ("next 0 0 0 12 0000000000000001010000", "refused 7 at 12"),
        ("next 5 0 0 11 0000000000000001010000", "refused 7 at 11"),
        ("next 0 12 0 11 0000000000000001010000", "end"),
        ("next 0 13 0 11 0000000000000001010000", "refused 7 at 11"),
        ("next 3 18 0 11 0000000000000001010000", "end"),
        ("next 3 19 0 11 0000000000000001010000", "refused 7 at 11"),
        ("next 4 24 0 11 0000000000000001010000", "end"),
        ("next 4 25 0 11 0000000000000001010000", "refused 7 at 11"),
    ];
    for (question, expected) in cases {
        assert_eq!(ask(question), expected, "{}", question);
    }
}

/// Q-5: the three things that the reader of one number tells apart.
#[test]
fn the_reader_of_one_number() {
    let large = [0xff, 0xff, 0xff, 0xff];
    let with = |fifth: &[u8]| [&large[..], fifth].concat();
    let cases = [
        (vec![], Err(Unread::Ended)),
        (vec![0x80], Err(Unread::Ended)),
        (large.to_vec(), Err(Unread::Ended)),
        (vec![0x80, 0], Err(Unread::NotShortest)),
        (vec![0x80, 0x80, 0x80, 0x80, 0], Err(Unread::NotShortest)),
        (with(&[15]), Ok((u32::MAX, 5))),
        (with(&[16]), Err(Unread::TooLarge)),
        (with(&[0x80]), Err(Unread::TooLarge)),
        (with(&[0x90]), Err(Unread::TooLarge)),
        (with(&[0x90, 0]), Err(Unread::TooLarge)),
        (vec![0x80, 1, 0xff], Ok((128, 2))),
    ];
    for (bytes, expected) in cases {
        assert_eq!(read_number(&bytes), expected, "{:?}", bytes);
    }
}

/// Q-5: everything that reads a roll says 14 where the input ended, 7 else, at the same place.
#[test]
fn cut_or_wrong() {
    let centre = " 3ff0000000000000".repeat(4) + " 1";
    let floats = centre.repeat(4) + " 3ff0000000000000";
    let whole = "0000000000000001010000";
    let cases = [
        ("-", "14 at 0"),
        ("80", "14 at 0"),
        ("8000", "7 at 0"),
        ("ffffffff", "14 at 0"),
        ("ffffffff90", "7 at 0"),
        ("ffffffff80", "7 at 0"),
        ("ffffffff0f", "7 at 0"),
        ("05", "7 at 0"),
        ("0001", "14 at 2"),
        ("0000000000000081", "14 at 7"),
        ("0000000000000080808000", "7 at 7"),
    ];
    for (roll, expected) in cases {
        let expected = format!("refused {}", expected);
        for word in ["open", "check", "list"] {
            assert_eq!(ask(&format!("{} {}", word, roll)), expected, "{}", roll);
        }
        assert_eq!(ask(&format!("eval {}{}", roll, floats)), expected);
    }
    // What follows a whole roll stays 7, and so does a term's number beyond its limit.
    let terms = [
        (format!("{}80", whole), "7 at 11"),
        (whole[..20].to_string(), "14 at 10"),
        (format!("{}8080", &whole[..16]), "14 at 8"),
        (format!("{}808000", &whole[..16]), "7 at 8"),
        (format!("{}ffffffff90", &whole[..16]), "7 at 8"),
        (format!("{}02", &whole[..20]), "7 at 10"),
    ];
    for (roll, expected) in terms {
        let expected = format!("refused {}", expected);
        assert!(ask(&format!("open {}", roll)).starts_with("opened"));
        for word in ["check", "list"] {
            assert_eq!(ask(&format!("{} {}", word, roll)), expected, "{}", roll);
        }
        assert_eq!(ask(&format!("eval {}{}", roll, floats)), expected);
    }
    assert_eq!(ask("next 0 0 1 0 -"), "refused 14 at 0");
    assert_eq!(ask("next 0 0 1 0 80"), "refused 14 at 0");
    assert_eq!(ask("next 0 0 1 0 8000"), "refused 7 at 0");
    assert_eq!(ask("next 0 0 1 1 -"), "refused 7 at 1");
    assert_eq!(ask("next 5 0 1 0 -"), "refused 7 at 0");
    assert_eq!(ask("next 0 0 1 1 0101"), "refused 14 at 2");
}

/// A roll that reads is refused by 14 at each cut, where the number begins that the cut leaves out
/// or parts.
#[test]
fn each_cut_of_a_good_roll_is_14() {
    let mut good = 0;
    for roll in rolls::to_be_cut() {
        if NOW.check(&roll).is_err() {
            continue;
        }
        good += 1;
        for cut in 0..roll.len() {
            let refused = NOW
                .check(&roll[..cut])
                .expect_err("a cut roll does not read");
            let parted = roll[..cut].iter().rev().take_while(|&&b| b > 127).count();
            let expected = (14, (cut - parted) as u64);
            assert_eq!((refused.number, refused.place), expected, "{:?}", roll);
        }
    }
    assert_eq!(good, 160);
}

#[test]
fn numbers() {
    let one = "3ff0000000000000";
    let centre = |z: &str| format!("0 0 0 {} 1", z);
    let (good, minus_zero) = (centre(one), centre("8000000000000000"));
    let roll = "0000000000000001010000";
    let eval = |a: &str, rest: &str| {
        ask(&format!(
            "eval {} {} {} 0 0 0 0 1 7ff0000000000000 0 0 0 1 {}",
            roll, a, good, rest
        ))
    };
    assert_eq!(eval(&good, one), "value 3ff0000000000000");
    assert_eq!(eval(&minus_zero, one), "refused 9");
    assert_eq!(eval(&minus_zero, "7ff0000000000000"), "refused 8");
    assert_eq!(eval(&good, "3ff0000000000000 0"), "refused 10");
    assert_eq!(
        eval(&good, "3ff0000000000000 fff0000000000000"),
        "refused 8"
    );
    assert_eq!(ask("jk 0"), "refused 12");
    assert_eq!(ask("jk 17"), "refused 12");
    assert_eq!(
        ask("jk 1 4000000000000000 4008000000000000"),
        "J 4018000000000000 K 4018000000000000"
    );
    assert_eq!(ask("jkl 1 1 1 1 2 0 0"), "refused 12");
    assert_eq!(ask("jkl 1 1 1 1 1 0 7ff0000000000000"), "refused 8");
    assert_eq!(ask("jk 1 7fefffffffffffff 7fefffffffffffff"), "refused 11");
    let table = ask(&format!("table 0 {} {} 0 0 0 0 1 0 0 0 0 1", good, good));
    assert_eq!(table.split(' ').count(), 24);
    assert_eq!(
        ask(&format!("table 5 {} {} 0 0 0 0 1 0 0 0 0 1", good, good)),
        "refused 1"
    );
}

#[test]
fn lines_that_are_no_question() {
    let lines = [
        "shell",
        "shell ",
        " shell 2",
        "shell  2",
        "shell\t2",
        "shell 2\r",
        "\r",
        " ",
        "shell 02",
        "shell +2",
        "shell -2",
        "shell 256",
        "shell 2 16777217 0",
        "shell 2 0",
        "shell 2 0 0 0",
        "shell 2 0 18446744073709551616",
        "SHELL 2",
        "component 1 1",
        "component 1 1 1 1",
        "component 1 1 4294967296",
        "component 1 1 1 1 1 1",
        "open",
        "open 0",
        "open 0A",
        "open --",
        "open 00 ",
        "next 0 0 4294967296 0 -",
        "expand 0 0 0 0 0 0 0 0 0 0 0 0",
        "expand 0 0 0 0 0 0 0 0 0 0 0 0 0 0",
        "expand 0 0 0 0 0 0 0 0 0 0 0 0 0 16777217 0",
        "jk 0 0",
        "jk 1 0",
        "jk 1 0 0 0",
        "jk 1 0 3FF0000000000000",
        "jk 1 0 00000000000000000",
        "jkl 0 65538 0 0 0",
        "jkl 0 0 0 0 1025",
        "jkl 0 1 0 0 0",
        "answer",
    ];
    for line in lines {
        assert_eq!(ask(line), "?", "{:?}", line);
    }
    for line in ["", "# shell 2", "#"] {
        assert_eq!(ask(line), line);
    }
    let long = "#".repeat(2_097_152);
    assert_eq!(ask(&long), long);
    assert_eq!(ask(&(long + "#")), "?");
}
