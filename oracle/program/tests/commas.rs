//! Q-14: the comma-separated export and import, by cases that are worked out from the papers by hand and by
//! what holds of every roll and every text.

mod shared;

use oracle::parse::write_roll;
use oracle::random::Random;
use oracle::second::{exported, imported, NOW};
use oracle::{form2_rolls, rolls, texts};
use shared::ask;

fn joined(digits: &str) -> String {
    digits.split(' ').collect()
}

fn hex(bytes: &[u8]) -> String {
    let mut text = Vec::new();
    write_roll(&mut text, bytes);
    String::from_utf8(text).expect("digits are text")
}

/// The import of a text that has bars in the place of line feeds.
fn import(text: &str) -> String {
    ask(&format!(
        "import {}",
        hex(text.replace('|', "\n").as_bytes())
    ))
}

/// Rolls and their texts: 01's cases and some that no expansion gives.
const BOTH_WAYS: [(&str, usize, &str); 9] = [
    ("00 000000 000000 01 010000", 1, "0,0,0,0,0,0,0,1|1,0|"),
    (
        "00 010000 010000 02 0100020001 01000107",
        2,
        "0,1,0,0,1,0,0,2|1,0,0,1|1,0,7|",
    ),
    (
        "00 030000 000000 03 010003000000 0100020006 0200020600",
        3,
        "0,3,0,0,0,0,0,3|1,0,0,0,0|1,0,0,6|2,0,6,0|",
    ),
    (
        "01 010000 000000 02 01000100 0100020800",
        2,
        "1,1,0,0,0,0,0,2|1,0,0|1,0,8,0|",
    ),
    (
        "02 010000 000000 02 01000100 01010106",
        2,
        "2,1,0,0,0,0,0,2|1,0,0|1,1,6|",
    ),
    (
        "03 010000 000000 010000 02 0100020006 0100010b",
        2,
        "3,1,0,0,0,0,0,1,0,0,2|1,0,0,6|1,0,11|",
    ),
    (
        "04 010000 000000 010000 000000 05 0100020002 0101020005 0101020402 0102020405 01010116",
        5,
        "4,1,0,0,0,0,0,1,0,0,0,0,0,5|1,0,0,2|1,1,0,5|1,1,4,2|1,2,4,5|1,1,22|",
    ),
    // The largest scale, 128 and 16,384; kinetic with L + 1 prefactors; no prefactors and all of them.
    (
        "01 010000 000000 03 80a0fc8d0800020a0a 80010000 808001000100",
        3,
        "1,1,0,0,0,0,0,3|2176782336,0,10,10|128,0|16384,0,0|",
    ),
    (
        "04 000006 000000 000000 000000 02 0106061616161616 16 010000",
        2,
        "4,0,0,6,0,0,0,0,0,0,0,0,0,2|1,6,22,22,22,22,22,22|1,0|",
    ),
];

#[test]
fn out_and_in() {
    for (roll, count, text) in BOTH_WAYS {
        let roll = joined(roll);
        let said = format!("text {} {}", text.len(), text);
        assert_eq!(ask(&format!("export {}", roll)), said);
        let said = format!("roll {} terms {} {}", roll.len() / 2, count, roll);
        assert_eq!(import(text), said, "{}", text);
    }
}

#[test]
fn an_export_refuses_as_reading_does() {
    for (roll, said) in [
        ("-", "14 at 0"),
        ("05", "7 at 0"),
        ("8000", "7 at 0"),
        // Form 2.
        ("1000000000000001010000", "7 at 0"),
        ("10 000000 000000 01 01000000", "7 at 0"),
        ("00 010000 010000 02 0100020001 010001", "14 at 16"),
        ("00 010000 010000 02 0100020001 01000108", "7 at 16"),
        ("00 010000 010000 02 0100020001 01000107 00", "7 at 17"),
        ("00 010000 010000 00", "7 at 7"),
        ("00 010600 000000 01 010000", "7 at 2"),
    ] {
        let roll = joined(roll);
        assert_eq!(
            ask(&format!("export {}", roll)),
            format!("refused {}", said)
        );
        // Before 5 and 6.
        assert_eq!(
            ask(&format!("export {} 0 1", roll)),
            format!("refused {}", said)
        );
    }
}

#[test]
fn the_room_of_both() {
    // A text of 20 bytes and a roll of 11.
    let (roll, text) = ("0000000000000001010000", "0,0,0,0,0,0,0,1\n1,0\n");
    let out = "text 20 0,0,0,0,0,0,0,1|1,0|";
    let back = format!("roll 11 terms 1 {}", roll);
    for (room, said) in [
        ("20 0", out),
        ("23 3", out),
        ("3145728 3145708", out),
        ("3145728 3145709", "refused 6"),
        ("19 0", "refused 6"),
        ("23 4", "refused 6"),
        ("23 23", "refused 6"),
        ("23 24", "refused 5"),
        ("0 0", "refused 6"),
        ("0 1", "refused 5"),
        ("3145728 18446744073709551615", "refused 5"),
        ("3145729 0", "?"),
        ("16777216 0", "?"),
        ("20", "?"),
        ("20 18446744073709551616", "?"),
    ] {
        assert_eq!(ask(&format!("export {} {}", roll, room)), said, "{}", room);
    }
    for (room, said) in [
        ("11 0", &back[..]),
        ("14 3", &back),
        ("16777216 16777205", &back),
        ("16777216 16777206", "refused 6"),
        ("10 0", "refused 6"),
        ("14 4", "refused 6"),
        ("14 14", "refused 6"),
        ("14 15", "refused 5"),
        ("0 0", "refused 6"),
        ("0 1", "refused 5"),
        ("16777217 0", "?"),
        ("11", "?"),
    ] {
        let question = format!("import {} {}", hex(text.as_bytes()), room);
        assert_eq!(ask(&question), said, "{}", room);
    }
    // 21 and 22 come before 5 and 6.
    assert_eq!(ask("import - 0 1"), "refused 21 line 1");
    let wrong = hex(b"5,0,0,0,0,0,0,1\n1,0\n");
    assert_eq!(ask(&format!("import {} 0 1", wrong)), "refused 22 line 1");
    for line in [
        "import",
        "import ",
        "import 0",
        "import 30 0a",
        "import 3A",
        "export",
        "export 0",
    ] {
        assert_eq!(ask(line), "?");
    }
}

/// Texts that are refused, and how.
const REFUSED: [(&str, &str); 100] = [
    // Nothing, or nothing that is a line.
    ("", "21 line 1"),
    ("|", "21 line 1"),
    ("0", "21 line 1"),
    (",|", "21 line 1"),
    ("0,0,0,0,0,0,0,1", "21 line 1"),
    // By shape the first line has 8, 11 or 14 numbers.
    ("0|", "21 line 1"),
    ("0,1|", "21 line 1"),
    ("0,0,0,0,0,0,1|1,0|", "21 line 1"),
    ("0,0,0,0,0,0,0,0,1|1,0|", "21 line 1"),
    ("0,0,0,0,0,0,0,0,0,1|1,0|", "21 line 1"),
    ("4,0,0,0,0,0,0,0,0,0,0,0,1|1,0|", "21 line 1"),
    ("4,0,0,0,0,0,0,0,0,0,0,0,0,0,1|1,0|", "21 line 1"),
    // Shape before numbers: a kind of 5 in nine numbers, and a fault in the last number.
    ("5,0,0,0,0,0,0,0,1|1,0|", "21 line 1"),
    ("5,0,0,0,0,0,0,01|1,0|", "21 line 1"),
    ("5,9,9,9,9,9,9,x|1,0|", "21 line 1"),
    // Leading zeros, signs, blanks, points, quotes, empty words.
    ("00,0,0,0,0,0,0,1|1,0|", "21 line 1"),
    ("0,0,0,0,0,0,0,01|1,0|", "21 line 1"),
    ("+0,0,0,0,0,0,0,1|1,0|", "21 line 1"),
    ("-0,0,0,0,0,0,0,1|1,0|", "21 line 1"),
    (" 0,0,0,0,0,0,0,1|1,0|", "21 line 1"),
    ("0, 0,0,0,0,0,0,1|1,0|", "21 line 1"),
    ("0,0,0,0,0,0,0,1 |1,0|", "21 line 1"),
    ("0,0,0,0,0,0,0,1,|1,0|", "21 line 1"),
    (",0,0,0,0,0,0,1|1,0|", "21 line 1"),
    ("0,0,,0,0,0,0,1|1,0|", "21 line 1"),
    ("0,0,0,0,0,0,0,1.0|1,0|", "21 line 1"),
    ("\"0\",0,0,0,0,0,0,1|1,0|", "21 line 1"),
    ("0;0;0;0;0;0;0;1|1;0|", "21 line 1"),
    ("0,0,0,0,0,0,0,1\r|1,0\r|", "21 line 1"),
    ("0,0,0,0,0,0,0,1|1,0\r|", "21 line 2"),
    ("0,0,0,0,0,0,0,1\r1,0\r", "21 line 1"),
    ("\u{feff}0,0,0,0,0,0,0,1|1,0|", "21 line 1"),
    ("kind,x,y,z,x,y,z,count|", "21 line 1"),
    // The first line's numbers: the kind, the count of orders, the order sums, the term count.
    ("5,0,0,0,0,0,0,1|1,0|", "22 line 1"),
    ("16,0,0,0,0,0,0,1|1,0|", "22 line 1"),
    ("256,0,0,0,0,0,0,1|1,0|", "22 line 1"),
    ("3,0,0,0,0,0,0,1|1,0|", "22 line 1"),
    ("4,0,0,0,0,0,0,1|1,0|", "22 line 1"),
    ("0,0,0,0,0,0,0,0,0,0,1|1,0|", "22 line 1"),
    ("4,0,0,0,0,0,0,0,0,0,1|1,0|", "22 line 1"),
    ("3,0,0,0,0,0,0,0,0,0,0,0,0,1|1,0|", "22 line 1"),
    ("0,7,0,0,0,0,0,1|1,0|", "22 line 1"),
    ("0,3,3,1,0,0,0,1|1,0|", "22 line 1"),
    ("0,0,0,0,0,6,1,1|1,0|", "22 line 1"),
    ("3,0,0,0,0,0,0,0,0,7,1|1,0|", "22 line 1"),
    ("0,256,0,0,0,0,0,1|1,0|", "22 line 1"),
    ("0,4294967296,0,0,0,0,0,1|1,0|", "22 line 1"),
    ("0,18446744073709551616,0,0,0,0,0,1|1,0|", "22 line 1"),
    ("0,18446744073709551615,1,0,0,0,0,1|1,0|", "22 line 1"),
    ("0,0,0,0,0,0,0,0|", "22 line 1"),
    ("0,0,0,0,0,0,0,1048576|1,0|", "22 line 1"),
    ("0,0,0,0,0,0,0,4294967297|1,0|", "22 line 1"),
    ("0,0,0,0,0,0,0,18446744073709551617|1,0|", "22 line 1"),
    // A missing line counts as the next.
    ("0,0,0,0,0,0,0,1|", "22 line 2"),
    ("0,0,0,0,0,0,0,2|1,0|", "22 line 3"),
    ("0,0,0,0,0,0,0,1048575|1,0|", "22 line 3"),
    ("0,1,0,0,1,0,0,3|1,0,0,1|1,0,7|", "22 line 4"),
    // A line beyond the count: 22 if its shape is right, whatever its numbers, else 21.
    ("0,0,0,0,0,0,0,1|1,0|1,0|", "22 line 3"),
    ("0,0,0,0,0,0,0,1|1,0|0,99,99|", "22 line 3"),
    ("0,0,0,0,0,0,0,1|1,0|1,0|1|", "22 line 3"),
    ("0,0,0,0,0,0,0,1|1,0||", "21 line 3"),
    ("0,0,0,0,0,0,0,1|1,0|1|", "21 line 3"),
    ("0,0,0,0,0,0,0,1|1,0|1,0", "21 line 3"),
    ("0,0,0,0,0,0,0,1|1,0|1,00|", "21 line 3"),
    ("0,0,0,0,0,0,0,1|1,0| ", "21 line 3"),
    ("0,0,0,0,0,0,0,1|1,0|\0", "21 line 3"),
    ("0,0,0,0,0,0,0,1|1,0|0,0,0,0,0,0,0,1|1,0|", "22 line 3"),
    // Any other line has two numbers or more, and a line feed.
    ("0,0,0,0,0,0,0,1|1|", "21 line 2"),
    ("0,0,0,0,0,0,0,1|0|", "21 line 2"),
    ("0,0,0,0,0,0,0,1||", "21 line 2"),
    ("0,0,0,0,0,0,0,1|1,|", "21 line 2"),
    ("0,0,0,0,0,0,0,1|1,0,|", "21 line 2"),
    ("0,0,0,0,0,0,0,1|1,0", "21 line 2"),
    ("0,0,0,0,0,0,0,1|01,0|", "21 line 2"),
    ("0,0,0,0,0,0,0,1|1,00|", "21 line 2"),
    ("0,0,0,0,0,0,0,1|1,-0|", "21 line 2"),
    ("0,0,0,0,0,0,0,1|1 0|", "21 line 2"),
    ("0,0,0,0,0,0,0,1|1/0|", "21 line 2"),
    ("0,0,0,0,0,0,0,1|1,:|", "21 line 2"),
    ("0,0,0,0,0,0,0,1||1,0|", "21 line 2"),
    // Its numbers: scale, order, count of prefactors, prefactors.
    ("0,0,0,0,0,0,0,1|0,0|", "22 line 2"),
    ("0,0,0,0,0,0,0,1|2176782337,0|", "22 line 2"),
    ("0,0,0,0,0,0,0,1|4294967297,0|", "22 line 2"),
    ("0,0,0,0,0,0,0,1|1,1|", "22 line 2"),
    ("0,0,0,0,0,0,0,1|1,0,0|", "22 line 2"),
    ("0,0,0,0,0,0,0,1|1,4294967296|", "22 line 2"),
    ("1,0,0,0,0,0,0,1|1,0,8,8|", "22 line 2"),
    ("0,1,0,0,0,0,0,1|1,0,8|", "22 line 2"),
    ("0,1,0,0,0,0,0,1|1,0,256|", "22 line 2"),
    ("1,1,0,0,0,0,0,1|1,0,11|", "22 line 2"),
    ("2,1,0,0,0,0,0,1|1,2,0|", "22 line 2"),
    ("3,1,0,0,0,0,0,0,0,0,1|1,1,0|", "22 line 2"),
    ("3,1,0,0,0,0,0,0,0,0,1|1,0,12|", "22 line 2"),
    ("4,1,0,0,0,0,0,0,0,0,0,0,0,1|1,0,23|", "22 line 2"),
    // From the first line on: the first fault alone is told.
    ("5,0,0,0,0,0,0,1|1,0|1,x|", "22 line 1"),
    ("0,0,0,0,0,0,0,3|0,0|1|", "22 line 2"),
    ("0,0,0,0,0,0,0,3|1,0|1|0,0|", "21 line 3"),
    ("0,0,0,0,0,0,0,3|1,0|0,0,x|", "21 line 3"),
    ("0,0,0,0,0,0,0,2|1,0|0,0", "21 line 3"),
    ("0,0,0,0,0,0,0,9|1,0|1,0", "21 line 3"),
];

#[test]
fn texts_that_are_refused() {
    for (text, said) in REFUSED {
        assert_eq!(import(text), format!("refused {}", said), "{:?}", text);
    }
}

/// A string of digits is 22 whatever its length, and 21 where it begins with 0.
#[test]
fn strings_of_digits() {
    for length in [1, 9, 10, 11, 19, 20, 21, 39, 40, 100, 1_000, 100_000] {
        let (large, zeros) = ("9".repeat(length), "0".repeat(length));
        let kind = import(&format!("{},0,0,0,0,0,0,1|1,0|", large));
        let count = import(&format!("0,0,0,0,0,0,0,1{}|1,0|", zeros));
        let prefactor = import(&format!("0,1,0,0,0,0,0,1|1,0,1{}|", zeros));
        assert_eq!(kind, "refused 22 line 1");
        let missing = if length < 7 {
            "refused 22 line 3"
        } else {
            "refused 22 line 1"
        };
        assert_eq!(count, missing);
        assert_eq!(prefactor, "refused 22 line 2");
        if length > 1 {
            let first = import(&format!("{},0,0,0,0,0,0,1|1,0|", zeros));
            let scale = import(&format!("0,0,0,0,0,0,0,1|0{},0|", large));
            assert_eq!(
                (&first[..], &scale[..]),
                ("refused 21 line 1", "refused 21 line 2")
            );
        }
    }
}

/// Out and in again, for every roll that reads.
#[test]
fn every_roll_comes_back() {
    let mut random = Random::new(1);
    let mut read = 0;
    for _ in 0..6_000 {
        let roll = form2_rolls::any_of_form_1(&mut random);
        match (exported(&roll), NOW.check(&roll)) {
            (Ok(text), Ok((header, _))) => {
                assert_eq!(imported(text.as_bytes()), Ok((header.count as usize, roll)));
                read += 1;
            }
            (text, read) => assert_eq!(text.err(), read.err()),
        }
    }
    assert!(read > 1_000);
}

/// What a text says where its words are taken for numbers as far as they can be, written as a roll.
fn taken_lightly(text: &[u8]) -> Option<Vec<u8>> {
    let text = std::str::from_utf8(text).ok()?;
    let mut list = Vec::new();
    for (at, line) in text.lines().enumerate() {
        let numbers: Result<Vec<u32>, _> =
            line.split(',').map(|word| word.trim().parse()).collect();
        let mut numbers = numbers.ok()?;
        if at > 0 {
            let count = numbers.len().checked_sub(2)?;
            numbers.insert(2, count as u32);
        }
        list.extend(numbers);
    }
    Some(rolls::write(&list))
}

/// Whatever the text: it is taken where it is the export of what it says, and of nothing else. A refusal has the
/// line of a text that says the same whatever follows that line, or of the one behind the last.
#[test]
fn exactly_the_texts_that_are_exported() {
    let mut random = Random::new(2);
    let mut all = texts::tried_one_by_one();
    all.extend((0..20_000).map(|_| texts::any(&mut random)));
    let (mut taken, mut refused) = (0, [0, 0, 0]);
    for text in all {
        let said = taken_lightly(&text).filter(|roll| {
            let again = exported(roll).map(String::into_bytes);
            again.as_ref() == Ok(&text)
        });
        let refusal = match (said, imported(&text)) {
            (Some(roll), Ok((count, imported))) => {
                assert_eq!(roll, imported);
                assert_eq!(
                    NOW.open(&roll).map(|header| header.count as usize),
                    Ok(count)
                );
                taken += 1;
                continue;
            }
            (None, Err(refusal)) => refusal,
            (said, imported) => panic!("{:?} {:?} {:?}", text, said, imported),
        };
        let line = refusal.place as usize;
        let lines: Vec<&[u8]> = text.split_inclusive(|&b| b == b'\n').collect();
        if line == lines.len() + 1 {
            // Nothing is there, or a line is missing.
            assert_eq!(refusal.number, if line == 1 { 21 } else { 22 });
            refused[2] += 1;
            continue;
        }
        refused[usize::from(refusal.number) - 21] += 1;
        let up_to = lines[..line].concat();
        assert_eq!(imported(&up_to), Err(refusal));
        if up_to.ends_with(b"\n") {
            assert_eq!(imported(&[&up_to[..], b"x"].concat()), Err(refusal));
            assert_eq!(imported(&[&up_to[..], b"1,0\n"].concat()), Err(refusal));
        }
    }
    assert!(taken > 5_000 && refused.iter().all(|&number| number > 500));
}

/// The longest text that a roll of one line gives fits what the short form lends, and a text of the most lines.
#[test]
fn the_longest() {
    let roll = texts::of_the_longest_text();
    let text = exported(&roll).expect("it reads");
    assert!(text.len() > 3_000_000 && text.len() <= 3_145_728);
    let question = format!("export {}", hex(&roll));
    assert!(question.len() <= 2_097_152);
    assert!(ask(&question).starts_with(&format!("text {} 4,6,0,0,6,0,0,", text.len())));
    let question = format!("import {}", hex(&texts::of_most_lines("1,0\n")));
    assert!((2_097_152 - 8..=2_097_152).contains(&question.len()));
    assert!(ask(&question).starts_with("roll "));
    let question = format!("import {}", hex(&texts::of_most_lines("1,0")));
    assert!(ask(&question).starts_with("refused 21 line 2621"));
}
