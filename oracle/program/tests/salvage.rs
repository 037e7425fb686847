//! what is left of a damaged roll, by cases that are worked out from the papers by hand and by
//! what holds of every roll.

mod shared;

use oracle::parse::{write_roll, Cursor, LONGEST_LINE};
use oracle::random::Random;
use oracle::salvage_rolls;
use oracle::second::{self, salvaged, Form, Header, Salvaged, Step, Term, NOW};
use oracle::{form2_rolls, requests, rust_side};
use shared::ask;

/// Digits with blanks between the parts of a roll.
fn joined(digits: &str) -> String {
    digits.split(' ').collect()
}

fn bytes(digits: &str) -> Vec<u8> {
    let two = (0..digits.len()).step_by(2).map(|at| &digits[at..at + 2]);
    two.map(|two| u8::from_str_radix(two, 16).expect("digits"))
        .collect()
}

fn hex(roll: &[u8]) -> String {
    let mut text = Vec::new();
    write_roll(&mut text, roll);
    String::from_utf8(text).expect("digits are text")
}

/// Overlap Ax3, [0,0,0] [0,6] 2[6,0], in both forms: a header without its count, the three terms, and
/// a roll's length.
type Parts = (&'static str, [&'static str; 3], usize);

const BOTH: [Parts; 2] = [
    (
        "00 030000000000",
        ["010003000000", "0100020006", "0200020600"],
        24,
    ),
    (
        "10 030000000000",
        ["01000003000000", "0100010106", "020000020600"],
        26,
    ),
];

/// The answer for such a roll: what it says after its length and count.
fn told(form: Form, said: &str) -> String {
    let (header, terms, length) = BOTH[form as usize];
    let fresh = joined(&format!("{} 03 {}", header, terms.join(" ")));
    format!("salvaged {} terms 3 {} {}", length, said, fresh)
}

/// A count and what stands where the terms were. A digit from 1 to 3 is a term, all else bytes.
fn damaged(form: Form, count: &str, parts: &str) -> String {
    let (header, terms, _) = BOTH[form as usize];
    let mut roll = joined(header) + count;
    for part in parts.split(' ') {
        match part {
            "1" | "2" | "3" => roll += terms[usize::from(part.as_bytes()[0] - b'1')],
            _ => roll += part,
        }
    }
    roll
}

/// What is said of a roll that has this count and these parts, the same in both forms.
const SAID: [(&str, &str, &str); 42] = [
    // Undamaged.
    ("03", "1 2 3", "kept 3 anew 0 count same after none"),
    // Another count, too low or too high: the terms are read all the same.
    ("01", "1 2 3", "kept 3 anew 0 count other after none"),
    ("02", "1 2 3", "kept 3 anew 0 count other after none"),
    ("04", "1 2 3", "kept 3 anew 0 count other after none"),
    ("7f", "1 2 3", "kept 3 anew 0 count other after none"),
    ("8001", "1 2 3", "kept 3 anew 0 count other after none"),
    ("ffff3f", "1 2 3", "kept 3 anew 0 count other after none"),
    // Bytes after the last term, whatever they are.
    ("03", "1 2 3 00", "kept 3 anew 0 count same after bytes"),
    ("03", "1 2 3 ff", "kept 3 anew 0 count same after bytes"),
    ("03", "1 2 3 3", "kept 3 anew 0 count same after bytes"),
    ("03", "1 2 3 1 2 3", "kept 3 anew 0 count same after bytes"),
    ("04", "1 2 3 3", "kept 3 anew 0 count other after bytes"),
    ("02", "1 2 3 00", "kept 3 anew 0 count other after bytes"),
    // Terms cut off, with the count of all, of those that are there, and another.
    ("03", "", "kept 0 anew 3 count same after unknown"),
    ("01", "", "kept 0 anew 3 count other after unknown"),
    ("03", "1", "kept 1 anew 2 count same after unknown"),
    ("01", "1", "kept 1 anew 2 count other after unknown"),
    ("03", "1 2", "kept 2 anew 1 count same after unknown"),
    ("02", "1 2", "kept 2 anew 1 count other after unknown"),
    ("01", "1 2", "kept 2 anew 1 count other after unknown"),
    // A term cut within.
    ("03", "1 01", "kept 1 anew 2 count same after unknown"),
    ("03", "1 0100", "kept 1 anew 2 count same after unknown"),
    ("03", "1 2 02", "kept 2 anew 1 count same after unknown"),
    // A number that is no number, or beyond its limit.
    ("03", "80", "kept 0 anew 3 count same after unknown"),
    ("03", "8100", "kept 0 anew 3 count same after unknown"),
    ("03", "00 1 2 3", "kept 0 anew 3 count same after unknown"),
    ("03", "1 00 2 3", "kept 1 anew 2 count same after unknown"),
    (
        "03",
        "1 ffffffff10 2 3",
        "kept 1 anew 2 count same after unknown",
    ),
    ("03", "1 0101", "kept 1 anew 2 count same after unknown"),
    // Bytes lost at the front.
    ("03", "2 3", "kept 0 anew 3 count same after unknown"),
    ("02", "2 3", "kept 0 anew 3 count other after unknown"),
    ("03", "3", "kept 0 anew 3 count same after unknown"),
    // In the middle: what follows is not looked for further on.
    ("03", "1 3", "kept 1 anew 2 count same after unknown"),
    ("02", "1 3", "kept 1 anew 2 count other after unknown"),
    // Exchanged: those that stand where they belong after a wrong one are written anew too.
    ("03", "2 1 3", "kept 0 anew 3 count same after unknown"),
    ("03", "3 2 1", "kept 0 anew 3 count same after unknown"),
    ("03", "1 3 2", "kept 1 anew 2 count same after unknown"),
    // Doubled.
    ("03", "1 1 2 3", "kept 1 anew 2 count same after unknown"),
    ("04", "1 1 2 3", "kept 1 anew 2 count other after unknown"),
    ("04", "1 2 2 3", "kept 2 anew 1 count other after unknown"),
    // The last term is wrong, and bytes follow: nothing is said of them.
    ("03", "1 2 1 00", "kept 2 anew 1 count same after unknown"),
    ("03", "1 2 00", "kept 2 anew 1 count same after unknown"),
];

#[test]
fn what_is_said_of_overlap_ax3() {
    for form in [Form::One, Form::Two] {
        for (count, parts, expected) in SAID {
            // A term of form 2 depends on the one before, so that an exchanged one may not read.
            let answer = ask(&format!("salvage {}", damaged(form, count, parts)));
            assert_eq!(answer, told(form, expected), "{} {}", count, parts);
        }
    }
}

/// Terms that read and are others: the scale, the prefactors, their number.
#[test]
fn a_term_that_reads_and_is_another() {
    let cases = [
        (Form::One, "020003000000 2 3", 0),
        (Form::One, "010003000001 2 3", 0),
        (Form::One, "0100020000 2 3", 0),
        (Form::One, "1 0200020006 3", 1),
        (Form::One, "1 0100020007 3", 1),
        (Form::One, "1 010003000600 3", 1),
        (Form::One, "1 2 0100020600", 2),
        (Form::One, "1 2 02000106", 2),
        (Form::Two, "02000003000000 2 3", 0),
        (Form::Two, "01000003000001 2 3", 0),
        (Form::Two, "1 0200010106 3", 1),
        (Form::Two, "1 0100010107 3", 1),
        (Form::Two, "1 0100020106 3", 1),
        (Form::Two, "1 010001020600 3", 1),
        // The same prefactors with a shared length that isn't the longest don't read.
        (Form::Two, "1 010000020006 3", 1),
        (Form::Two, "1 2 0200000106", 2),
        (Form::Two, "1 2 0200010107", 2),
    ];
    for (form, parts, kept) in cases {
        let answer = ask(&format!("salvage {}", damaged(form, "03", parts)));
        let said = format!("kept {} anew {} count same after unknown", kept, 3 - kept);
        assert_eq!(answer, told(form, &said), "{}", parts);
    }
    // A Boys order: nuclear Ax1, [0] [6]o1.
    let answer = ask(&format!(
        "salvage {}",
        joined("02 010000000000 02 01000100 01000106")
    ));
    let fresh = joined("02 010000000000 02 01000100 01010106");
    let said = "salvaged 16 terms 2 kept 1 anew 1 count same after unknown";
    assert_eq!(answer, format!("{} {}", said, fresh));
}

/// The count says 3, and the next term reads and equals the fresh fourth.
#[test]
fn the_count_does_not_limit_the_reading() {
    // Kinetic Ax2: [0,0] [0,8,0] [6] [8,0,0] [8,6] [9].
    let terms = "0100020000 010003000800 01000106 010003080000";
    let rest = "0100020806 01000109";
    let damaged = joined(&format!("01 020000000000 03 {}", terms));
    let fresh = joined(&format!("01 020000000000 06 {} {}", terms, rest));
    let said = "terms 6 kept 4 anew 2 count other after unknown";
    let expected = format!("salvaged {} {} {}", fresh.len() / 2, said, fresh);
    assert_eq!(ask(&format!("salvage {}", damaged)), expected);
}

/// Equal terms are the same in either's place: Coulomb Ax1 Cx1 Dx1 has [22,5]o2 twice.
#[test]
fn equal_terms() {
    let orders = [1, 0, 0, 0, 0, 0, 1, 0, 0, 1, 0, 0];
    let terms = rust_side::terms(4, &orders);
    let is_twice = |term: &Term| term.prefactors == [22, 5] && term.boys == 2;
    let places: Vec<usize> = (0..terms.len())
        .filter(|&at| is_twice(&terms[at]))
        .collect();
    assert_eq!(places.len(), 2);
    for form in [Form::One, Form::Two] {
        let kept = |list: &[Term]| {
            let roll = second::write_roll_in(form, 4, &orders, list);
            let header = NOW.open_in(form, &roll).expect("it is a roll");
            salvaged(form, &roll, &header, &terms).kept
        };
        let mut exchanged = terms.clone();
        exchanged.swap(places[0], places[1]);
        assert_eq!(kept(&exchanged), terms.len());
        // What lies between the two is lost: the second is kept in the place of the first.
        let lost = [&terms[..places[0]], &terms[places[1]..]].concat();
        assert_eq!(kept(&lost), places[0] + 1);
    }
}

/// 16 to 20 begin form 2. All else is read as form 1, and refused at 0 but for 0 to 4.
#[test]
fn the_first_byte() {
    for first in 0..=255 {
        let roll = format!("{:02x}{}", first, "00".repeat(13));
        let answer = ask(&format!("salvage {}", roll));
        match first {
            // The count of terms is 0.
            0..=2 | 16..=18 => assert_eq!(answer, "refused 7 at 7"),
            3 | 19 => assert_eq!(answer, "refused 7 at 10"),
            4 | 20 => assert_eq!(answer, "refused 7 at 13"),
            _ => assert_eq!(answer, "refused 7 at 0", "{}", first),
        }
    }
}

#[test]
fn refusals_of_the_header() {
    let cases = [
        ("-", "14 at 0"),
        ("80", "14 at 0"),
        ("90", "14 at 0"),
        ("9000", "7 at 0"),
        ("8000", "7 at 0"),
        ("ffffffff10", "7 at 0"),
        ("05", "7 at 0"),
        ("0f", "7 at 0"),
        ("15", "7 at 0"),
        ("00", "14 at 1"),
        ("10", "14 at 1"),
        ("0007", "7 at 1"),
        ("1007", "7 at 1"),
        ("00 8000", "7 at 1"),
        ("00 020203 000000 01 010000", "7 at 3"),
        ("10 020203 000000 01 01000000", "7 at 3"),
        ("03 000000 000000 010107 01", "7 at 9"),
        ("00 000000000000", "14 at 7"),
        ("10 000000000000", "14 at 7"),
        ("00 000000000000 00 010000", "7 at 7"),
        ("10 000000000000 00 01000000", "7 at 7"),
        ("00 000000000000 80", "14 at 7"),
        ("00 000000000000 ffff", "14 at 7"),
        ("00 000000000000 8100 010000", "7 at 7"),
        ("00 000000000000 808040 010000", "7 at 7"),
        ("10 000000000000 808040 01000000", "7 at 7"),
        ("00 000000000000 ffffffff0f", "7 at 7"),
        ("00 000000000000 ffffffff10", "7 at 7"),
        ("04 000000000000000000000000", "14 at 13"),
        ("14 000000000000000000000000", "14 at 13"),
    ];
    for (roll, expected) in cases {
        let expected = format!("refused {}", expected);
        // They come before 5 and 6.
        for room in ["", " 0 0", " 0 1", " 16777216 18446744073709551615"] {
            let answer = ask(&format!("salvage {}{}", joined(roll), room));
            assert_eq!(answer, expected, "{}{}", roll, room);
        }
    }
    // The highest count, and no refusal of what follows the header.
    let most = joined("00 000000000000 ffff3f");
    let fresh = joined("00 000000000000 01 010000");
    let said = "salvaged 11 terms 1 kept 0 anew 1 count other after unknown";
    assert_eq!(
        ask(&format!("salvage {}", most)),
        format!("{} {}", said, fresh)
    );
}

/// 5, 4, 6, once the header reads.
#[test]
fn room_and_the_cap() {
    for form in [Form::One, Form::Two] {
        let length = BOTH[form as usize].2;
        let cut = damaged(form, "03", "1 0100");
        let good = told(form, "kept 1 anew 2 count same after unknown");
        let cases = [
            (length, 0, good.as_str()),
            (length - 1, 0, "refused 6"),
            (0, 0, "refused 6"),
            (0, 1, "refused 5"),
            (100, 100 - length, &good),
            (100, 101 - length, "refused 6"),
            (100, 100, "refused 6"),
            (100, 101, "refused 5"),
            (16_777_216, 16_777_216 - length, &good),
            (16_777_216, 16_777_217 - length, "refused 6"),
            (16_777_216, 16_777_216, "refused 6"),
            (16_777_216, 16_777_217, "refused 5"),
        ];
        for (buffer, start, expected) in cases {
            let answer = ask(&format!("salvage {} {} {}", cut, buffer, start));
            assert_eq!(answer, expected, "{} {}", buffer, start);
        }
        assert_eq!(
            ask(&format!("salvage {} 0 18446744073709551615", cut)),
            "refused 5"
        );
        // Beyond the cap there is nothing to write: 5 comes before, 6 after.
        let header = ["04", "14"][form as usize];
        let beyond = joined(&format!("{} 060000060000060000060000 01", header));
        for (room, expected) in [
            ("", "refused 4"),
            (" 0 0", "refused 4"),
            (" 0 1", "refused 5"),
            (" 16777216 16777217", "refused 5"),
        ] {
            let answer = ask(&format!("salvage {}{}", beyond, room));
            assert_eq!(answer, expected, "{}", room);
        }
    }
}

#[test]
fn lines_that_are_no_question() {
    let lines = [
        "salvage",
        "salvage ",
        "salvage 0",
        "salvage 0A",
        "salvage - 0",
        "salvage - 0 0 0",
        "salvage - 16777217 0",
        "salvage - 0 18446744073709551616",
        "salvage - 00 0",
        "salvage  -",
        "salvage - ",
        "salvage --",
        "salvage2 -",
        "Salvage -",
    ];
    for line in lines {
        assert_eq!(ask(line), "?", "{:?}", line);
    }
    assert_eq!(ask("salvage - 16777216 0"), "refused 14 at 0");
}

/// The places where the terms of a roll end, the header's end first.
fn ends(form: Form, roll: &[u8]) -> Vec<usize> {
    let header = NOW.open_in(form, roll).expect("a fresh roll reads");
    let mut cursor = Cursor {
        kind: header.kind,
        l: header.l,
        left: header.count,
        place: header.place as u64,
    };
    let (mut ends, mut before) = (vec![header.place], Vec::new());
    while let Ok(Step::Term(term, after)) = NOW.next_in(form, cursor, &before, roll) {
        ends.push(after.place as usize);
        cursor = after;
        if form == Form::Two {
            before = term.prefactors;
        }
    }
    ends
}

/// What is said of a roll by its bytes alone. Since every term has one writing within a form, the
/// leading terms that read and equal the fresh ones are those whose fresh bytes follow the header.
fn by_bytes(roll: &[u8], header: &Header, fresh: &[u8]) -> Salvaged {
    let ends = ends(Form::of(roll), fresh);
    let all = ends.len() - 1;
    let (stored, terms) = (&roll[header.place..], &fresh[ends[0]..]);
    let equal = terms.iter().zip(stored).take_while(|(x, y)| x == y).count();
    let kept = ends[1..]
        .iter()
        .filter(|&end| end - ends[0] <= equal)
        .count();
    Salvaged {
        kept,
        anew: all - kept,
        is_other_count: header.count as usize != all,
        bytes_follow: Some(stored.len() > terms.len()).filter(|_| kept == all),
    }
}

/// What holds of the answer for any roll: it is refused as the header is, its roll is the expansion,
/// and its numbers are those that the bytes tell. They and the fresh roll, where it is salvaged.
fn held(roll: &[u8]) -> Option<(Salvaged, Vec<u8>)> {
    let answer = ask(&format!("salvage {}", hex(roll)));
    let (open, expand) = match roll.first() {
        Some(16..=20) => ("open2", "expand2"),
        _ => ("open", "expand"),
    };
    let opened = ask(&format!("{} {}", open, hex(roll)));
    if opened.starts_with("refused") {
        assert_eq!(answer, opened);
        return None;
    }
    let header = NOW.open_in(Form::of(roll), roll).expect("it is opened");
    let orders = header.orders.map(|order| order.to_string()).join(" ");
    let expanded = ask(&format!("{} {} {}", expand, header.kind, orders));
    if answer.starts_with("refused") {
        assert_eq!([answer, expanded], ["refused 4", "refused 4"]);
        return None;
    }
    // `roll LENGTH terms COUNT HEX`: what is said stands before the digits.
    let (front, digits) = expanded.rsplit_once(' ').expect("it has words");
    let fresh = bytes(digits);
    let told = by_bytes(roll, &header, &fresh);
    let front = front.replacen("roll", "salvaged", 1);
    assert!(answer == format!("{} {} {}", front, said(&told), digits));
    Some((told, fresh))
}

fn said(told: &Salvaged) -> String {
    let count = if told.is_other_count { "other" } else { "same" };
    let after = match told.bytes_follow {
        None => "unknown",
        Some(true) => "bytes",
        Some(false) => "none",
    };
    format!(
        "kept {} anew {} count {} after {}",
        told.kept, told.anew, count, after
    )
}

/// All is kept, with the right count and nothing after, exactly where the roll is the fresh one.
#[test]
fn what_holds_of_any_roll() {
    let mut random = Random::new(21);
    let (mut salvaged, mut whole) = (0, 0);
    for _ in 0..6_000 {
        let roll = salvage_rolls::any(&mut random);
        if let Some((told, fresh)) = held(&roll) {
            let is_whole =
                told.anew == 0 && !told.is_other_count && told.bytes_follow == Some(false);
            assert_eq!(is_whole, roll == fresh);
            salvaged += 1;
            whole += u32::from(is_whole);
        }
    }
    assert!(salvaged > 5_000 && whole > 500, "{} {}", salvaged, whole);
}

#[test]
fn what_holds_of_those_tried_one_by_one() {
    for roll in salvage_rolls::tried_one_by_one() {
        held(&roll);
    }
    for roll in form2_rolls::tried_one_by_one().iter().step_by(20) {
        held(roll);
    }
}

/// What is written is kept whole when it is salvaged once more.
#[test]
fn salvaged_twice() {
    let mut random = Random::new(22);
    let mut twice = 0;
    for _ in 0..3_000 {
        let answer = ask(&format!(
            "salvage {}",
            hex(&salvage_rolls::any(&mut random))
        ));
        let (front, fresh) = answer.rsplit_once(' ').expect("an answer has words");
        let question = format!("salvage {}", fresh);
        if !front.starts_with("salvaged") || question.len() > LONGEST_LINE {
            continue;
        }
        let (front, _) = front.split_once(" kept").expect("it tells what is kept");
        let count = front.rsplit(' ').next().expect("it has words");
        let said = format!("kept {} anew 0 count same after none", count);
        assert!(ask(&question) == format!("{} {} {}", front, said, fresh));
        twice += 1;
    }
    assert!(twice > 2_000, "{}", twice);
}

/// Cut at each place a roll keeps the terms that end before the cut.
#[test]
fn each_cut() {
    let mut random = Random::new(23);
    for at in 0..200 {
        let (form, kind) = ([Form::One, Form::Two][at % 2], (at % 5) as u8);
        let orders = requests::small(&mut random, kind);
        let terms = rust_side::terms(kind, &orders);
        let roll = second::write_roll_in(form, kind, &orders, &terms);
        let header = NOW.open_in(form, &roll).expect("a fresh roll reads");
        let mut kept_before = 0;
        for cut in header.place..=roll.len() {
            let told = salvaged(form, &roll[..cut], &header, &terms);
            assert!(told.kept == kept_before || told.kept == kept_before + 1);
            assert_eq!(told.kept == terms.len(), cut == roll.len());
            kept_before = told.kept;
        }
    }
}

/// Hands out every string of at most so many letters.
fn each_string(letters: &[u8], most: usize, of: &mut dyn FnMut(&[u8])) {
    for length in 0..=most {
        let mut string = vec![letters[0]; length];
        for mut number in 0..letters.len().pow(length as u32) {
            for byte in string.iter_mut() {
                *byte = letters[number % letters.len()];
                number /= letters.len();
            }
            of(&string);
        }
    }
}

/// A form, a kind, its order on Ax, the places after the header where its terms end, and letters.
type Strings = (Form, u8, u8, &'static [u32], &'static [u8]);

const STRINGS: [Strings; 5] = [
    // []: 01 00 00, with a shared length 01 00 00 00.
    (Form::One, 0, 0, &[3], &[0, 1, 2, 128]),
    (Form::Two, 0, 0, &[4], &[0, 1, 2, 128]),
    // [0]: 01 00 01 00, with a shared length 01 00 00 01 00.
    (Form::One, 0, 1, &[4], &[0, 1, 2]),
    (Form::Two, 0, 1, &[5], &[0, 1, 2]),
    // Nuclear, [0] [6]o1: 01 00 01 00 and 01 01 01 06.
    (Form::One, 2, 1, &[4, 8], &[0, 1, 6]),
];

/// Every string of few letters after a header: how many of them keep how many terms is counted by
/// hand. Of the strings of at most n letters those that begin with b bytes are as many as the strings
/// of at most n - b letters.
#[test]
fn every_string_after_a_header() {
    for (form, kind, order, ends, letters) in STRINGS {
        let mut orders = [0; 12];
        orders[0] = order;
        let terms = rust_side::terms(kind, &orders);
        let fresh = rust_side::roll_in(form, kind, &orders);
        assert_eq!(terms.len(), ends.len());
        let most = if letters.len() == 4 { 6 } else { 9 };
        let begin = |bytes: u32| -> u32 {
            let strings = (0..=most - bytes).map(|n| (letters.len() as u32).pow(n));
            strings.sum()
        };
        let mut at_least = vec![begin(0)];
        at_least.extend(ends.iter().map(|&end| begin(end)));
        at_least.push(0);
        let exactly: Vec<u32> = at_least.windows(2).map(|two| two[0] - two[1]).collect();
        for count in 1..=3 {
            let mut header = vec![kind + form.added()];
            header.extend(&orders[..6]);
            header.push(count);
            let opened = NOW.open_in(form, &header).expect("a header");
            let (mut kept, mut after) = (vec![0; ends.len() + 1], [0, 0]);
            each_string(letters, most as usize, &mut |string| {
                let roll = [&header[..], string].concat();
                let told = salvaged(form, &roll, &opened, &terms);
                assert_eq!(told, by_bytes(&roll, &opened, &fresh));
                assert_eq!(told.is_other_count, usize::from(count) != terms.len());
                kept[told.kept] += 1;
                if let Some(bytes) = told.bytes_follow {
                    after[usize::from(bytes)] += 1;
                }
            });
            assert_eq!(kept, exactly);
            assert_eq!(after, [1, exactly[ends.len()] - 1]);
        }
    }
}

/// The roll of the most terms that the cap lets through fits the usual buffer in both forms.
#[test]
fn the_most_terms() {
    for form in [Form::One, Form::Two] {
        let answer = ask(&format!(
            "salvage {}",
            hex(&salvage_rolls::of_the_most_terms(form))
        ));
        let words: Vec<&str> = answer.splitn(13, ' ').collect();
        assert_eq!(
            words[2..12].join(" "),
            "terms 1048572 kept 100 anew 1048472 count same after unknown"
        );
        assert_eq!(
            words[12].len(),
            2 * words[1].parse::<usize>().expect("a length")
        );
    }
}
