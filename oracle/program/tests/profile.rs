//! the small cabinet's profile and the confirming of rolls, by cases that are worked out from the
//! papers by hand and by what holds of every roll.

mod shared;

use oracle::parse::write_roll;
use oracle::random::Random;
use oracle::second::{self, Form};
use oracle::{confirm_rolls, runs, rust_side, small_rolls};
use shared::ask;
use std::collections::BTreeSet;

/// Digits with blanks between the parts of a roll.
fn joined(digits: &str) -> String {
    digits.split(' ').collect()
}

fn hex(roll: &[u8]) -> String {
    let mut text = Vec::new();
    write_roll(&mut text, roll);
    String::from_utf8(text).expect("digits are text")
}

fn bytes(digits: &str) -> Vec<u8> {
    let two = (0..digits.len()).step_by(2).map(|at| &digits[at..at + 2]);
    two.map(|two| u8::from_str_radix(two, 16).expect("digits"))
        .collect()
}

/// A question about a roll whose digits have blanks.
fn asked(word: &str, digits: &str) -> String {
    ask(&format!("{} {}", word, joined(digits)))
}

/// Rolls of overlap and Coulomb that are the profile's expansions, and what is said of them: those of
/// 01's cases.
const ACCEPTED: [(&str, &str); 4] = [
    ("00 000000 000000 01 010000", "0 0 1 0 0 0 0 0 0 place 8"),
    (
        "00 010000 010000 02 0100020001 01000107",
        "0 2 2 1 0 0 1 0 0 place 8",
    ),
    (
        "04 000000 000000 000000 000000 01 010000",
        "4 0 1 0 0 0 0 0 0 0 0 0 0 0 0 place 14",
    ),
    (
        "04 010000 000000 010000 000000 05 0100020002 0101020005 0101020402 0102020405 01010116",
        "4 2 5 1 0 0 0 0 0 1 0 0 0 0 0 place 14",
    ),
];

#[test]
fn expansions_are_accepted() {
    for (roll, said) in ACCEPTED {
        assert_eq!(asked("small", roll), format!("opened {}", said));
        assert_eq!(asked("confirm", roll), format!("confirmed {}", said));
    }
}

/// Rolls of the profile that read and are not the expansion, and the first byte that differs.
const NOT_THE_EXPANSION: [(&str, u64); 17] = [
    // Overlap s,s: a scale of 2, of 128 and the largest; a count of 2 with the term twice.
    ("00 000000 000000 01 020000", 8),
    ("00 000000 000000 01 80010000", 8),
    ("00 000000 000000 01 80a0fc8d080000", 8),
    ("00 000000 000000 02 010000 010000", 7),
    // Overlap Ax1 Bx1: exchanged, the second lost, the first lost, doubled, [0,1] as [1,0], [7] as [6], [7]
    // with a scale of 2, no prefactors, one more, one less.
    ("00 010000 010000 02 01000107 0100020001", 10),
    ("00 010000 010000 01 0100020001", 7),
    ("00 010000 010000 01 01000107", 7),
    ("00 010000 010000 03 0100020001 01000107 01000107", 7),
    ("00 010000 010000 02 0100020100 01000107", 11),
    ("00 010000 010000 02 0100020001 01000106", 16),
    ("00 010000 010000 02 0100020001 02000107", 13),
    ("00 010000 010000 02 0100020001 010000", 15),
    ("00 010000 010000 02 0100020001 0100020700", 15),
    ("00 010000 010000 02 01000100 01000107", 10),
    // Other orders, or the order on the other centre, before terms that belong to Ax1.
    ("00 000000 010000 01 01000100", 11),
    ("00 010000 000000 01 01000101", 11),
    // Coulomb Ax1 Cx1: the second and third exchanged.
    (
        "04 010000 000000 010000 000000 05 0100020002 0101020402 0101020005 0102020405 01010116",
        22,
    ),
];

#[test]
fn the_first_byte_that_differs() {
    for (roll, place) in NOT_THE_EXPANSION {
        let said = format!("refused 20 at {}", place);
        assert_eq!(asked("small", roll), said, "{}", roll);
        assert_eq!(asked("confirm", roll), said, "{}", roll);
    }
}

/// Rolls of the profile that don't read: the terms are judged before the bytes are compared.
#[test]
fn rolls_that_do_not_read() {
    let refused = [
        ("-", "14 at 0"),
        ("80", "14 at 0"),
        ("8000", "7 at 0"),
        ("05", "7 at 0"),
        ("0f", "7 at 0"),
        ("15", "7 at 0"),
        ("00 01", "14 at 2"),
        ("00 07", "7 at 1"),
        ("00 010600", "7 at 2"),
        ("00 010000 010000", "14 at 7"),
        ("00 010000 010000 00", "7 at 7"),
        ("00 010000 010000 80", "14 at 7"),
        ("00 010000 010000 ffff3f", "14 at 10"),
        ("00 010000 010000 808040", "7 at 7"),
        // The count is that of the expansion, and a term is cut, wrong or followed by a byte.
        ("00 010000 010000 02 0100020001", "14 at 13"),
        ("00 010000 010000 02 0100020001 010001", "14 at 16"),
        ("00 010000 010000 02 0100020001 01000108", "7 at 16"),
        ("00 010000 010000 02 0100020001 01000107 00", "7 at 17"),
        ("00 010000 010000 02 0100030001 01000107", "7 at 10"),
        ("00 010000 010000 02 0101020001 01000107", "7 at 9"),
        ("00 010000 010000 02 0000020001 01000107", "7 at 8"),
        // A byte differs before the one at which the reading ends.
        ("00 010000 010000 02 0200020001 01000108", "7 at 16"),
        ("00 010000 010000 03 0100020001 01000107", "14 at 17"),
    ];
    for (roll, said) in refused {
        assert_eq!(
            asked("small", roll),
            format!("refused {}", said),
            "{}",
            roll
        );
        assert_eq!(
            asked("confirm", roll),
            format!("refused {}", said),
            "{}",
            roll
        );
    }
}

/// 19 comes right after the header: whatever follows is not looked at.
#[test]
fn outside_the_profile() {
    let headers = [
        // Form 2, also of the profile's own requests.
        "10 000000 000000 01",
        "10 010000 010000 02",
        "14 000000 000000 000000 000000 01",
        "11 000000 000000 01",
        // Kinds 1, 2 and 3.
        "01 000000 000000 01",
        "02 010000 000000 02",
        "03 000000 000000 010000 01",
        // A sum of 2 on any centre, on one axis or on two, and of 6.
        "00 020000 000000 02",
        "00 010100 000000 01",
        "00 000000 000101 01",
        "00 000006 000000 01",
        "04 000000 000000 000002 000000 01",
        "04 000000 000000 000000 010001 01",
    ];
    for header in headers {
        for after in ["", "010000", "00", "80", "ff"] {
            let roll = format!("{} {}", header, after);
            assert_eq!(asked("small", &roll), "refused 19", "{}", roll);
        }
    }
    // A header that does not read is 7 or 14 all the same.
    for (roll, said) in [
        ("10", "14 at 1"),
        ("01 000000 000000", "14 at 7"),
        ("01 000000 000000 00", "7 at 7"),
        ("10 000000 000000 00", "7 at 7"),
        ("00 020000 000000", "14 at 7"),
        ("00 020000 000700", "7 at 5"),
        ("03 000000 000000 0100", "14 at 9"),
        ("00 020000 000000 8000", "7 at 7"),
    ] {
        assert_eq!(
            asked("small", roll),
            format!("refused {}", said),
            "{}",
            roll
        );
    }
}

/// Every roll of 01's other kinds is confirmed, and every form 2 roll in its own form.
#[test]
fn confirmed_in_any_kind_and_form() {
    for (roll, said) in [
        (
            "01 010000 000000 02 01000100 0100020800",
            "1 1 2 1 0 0 0 0 0 place 8",
        ),
        (
            "02 010000 000000 02 01000100 01010106",
            "2 1 2 1 0 0 0 0 0 place 8",
        ),
        (
            "03 010000 000000 010000 02 0100020006 0100010b",
            "3 2 2 1 0 0 0 0 0 1 0 0 place 11",
        ),
        (
            "00 030000 000000 03 010003000000 0100020006 0200020600",
            "0 3 3 3 0 0 0 0 0 place 8",
        ),
        ("10 000000 000000 01 01000000", "0 0 1 0 0 0 0 0 0 place 8"),
        (
            "10 010000 010000 02 010000020001 0100000107",
            "0 2 2 1 0 0 1 0 0 place 8",
        ),
        (
            "10 030000 000000 03 01000003000000 0100010106 020000020600",
            "0 3 3 3 0 0 0 0 0 place 8",
        ),
        (
            "11 010000 000000 02 0100000100 010000020800",
            "1 1 2 1 0 0 0 0 0 place 8",
        ),
        (
            "14 010000 000000 010000 000000 05 010000020002 0101010105 010100020402 0102010105 0101000116",
            "4 2 5 1 0 0 0 0 0 1 0 0 0 0 0 place 14",
        ),
    ] {
        assert_eq!(asked("confirm", roll), format!("confirmed {}", said), "{}", roll);
    }
}

#[test]
fn not_confirmed_outside_the_profile() {
    for (roll, place) in [
        // Overlap Ax3: [0,6] and 2[6,0] made 3[0,6]; 2[6,0] made [6,0] twice; the last two exchanged.
        ("00 030000 000000 02 010003000000 0300020006", 7),
        (
            "00 030000 000000 04 010003000000 0100020006 0100020600 0100020600",
            7,
        ),
        ("00 030000 000000 03 010003000000 0200020600 0100020006", 14),
        // Kinetic Ax1 without [8,0]; with the terms of overlap.
        ("01 010000 000000 01 01000100", 7),
        // Nuclear Ax1 whose second term has the order 0.
        ("02 010000 000000 02 01000100 01000106", 13),
        // Form 2: exchanged; another term that shares nothing; a scale.
        ("10 010000 010000 02 0100000107 010000020001", 11),
        ("10 010000 010000 02 010000020001 0100000106", 18),
        ("10 010000 010000 02 010000020001 0200000107", 14),
        // Form 2: a term that shares where the fresh one doesn't.
        ("10 010000 010000 02 010000020001 01000100", 16),
    ] {
        let said = format!("refused 20 at {}", place);
        assert_eq!(asked("confirm", roll), said, "{}", roll);
    }
    // Read in its own form first: the second term shares [0], which is not written out.
    assert_eq!(
        asked("confirm", "10 030000 000000 02 01000003000000 010000020006"),
        "refused 7 at 19"
    );
}

/// More histories than the cap: after the reading of the whole roll, before any byte is compared.
#[test]
fn a_request_beyond_the_cap() {
    let header = "060000 060000 060000 060000";
    for (first, term) in [("04", "010000"), ("14", "01000000")] {
        let of = |count: &str, terms: &str| format!("{} {} {} {}", first, header, count, terms);
        assert_eq!(asked("confirm", &of("01", term)), "refused 4");
        assert_eq!(
            asked("confirm", &of("02", term)),
            format!("refused 14 at {}", 14 + term.len() / 2)
        );
        assert_eq!(asked("confirm", &of("01", "000000")), "refused 7 at 14");
        assert_eq!(asked("confirm", &of("00", term)), "refused 7 at 13");
        assert_eq!(asked("confirm", &of("01", "")), "refused 14 at 14");
        let followed = format!("{}00", term);
        assert_eq!(
            asked("confirm", &of("01", &followed)),
            format!("refused 7 at {}", 14 + term.len() / 2)
        );
        // The small cabinet says 19 of it.
        assert_eq!(asked("small", &of("01", term)), "refused 19");
    }
    // The fewest terms above the cap and the most within: 1,048,576 and 1,048,572.
    let over = "04 010100 020101 000004 000202 01 010000";
    let within = "04 020100 020002 010300 010002 01 010000";
    assert_eq!(asked("confirm", over), "refused 4");
    assert_eq!(asked("confirm", within), "refused 20 at 13");
}

/// 1, 2 and 3, then 19, then 5 and 6.
#[test]
fn small_expansions() {
    let two = "0001000001000002010002000101000107";
    for (question, said) in [
        (
            "0 1 0 0 1 0 0 0 0 0 0 0 0",
            format!("roll 17 terms 2 {}", two),
        ),
        (
            "0 1 0 0 1 0 0 0 0 0 0 0 0 17 0",
            format!("roll 17 terms 2 {}", two),
        ),
        (
            "0 1 0 0 1 0 0 0 0 0 0 0 0 20 3",
            format!("roll 17 terms 2 {}", two),
        ),
        (
            "0 1 0 0 1 0 0 0 0 0 0 0 0 16777216 16777199",
            format!("roll 17 terms 2 {}", two),
        ),
        ("0 1 0 0 1 0 0 0 0 0 0 0 0 16 0", "refused 6".into()),
        ("0 1 0 0 1 0 0 0 0 0 0 0 0 20 4", "refused 6".into()),
        ("0 1 0 0 1 0 0 0 0 0 0 0 0 20 20", "refused 6".into()),
        ("0 1 0 0 1 0 0 0 0 0 0 0 0 20 21", "refused 5".into()),
        ("0 1 0 0 1 0 0 0 0 0 0 0 0 0 0", "refused 6".into()),
        (
            "0 1 0 0 1 0 0 0 0 0 0 0 0 0 18446744073709551615",
            "refused 5".into(),
        ),
        // 19 for a kind and for a sum; before 5 and 6.
        ("1 0 0 0 0 0 0 0 0 0 0 0 0", "refused 19".into()),
        ("2 1 0 0 0 0 0 0 0 0 0 0 0 0 1", "refused 19".into()),
        ("3 0 0 0 0 0 0 1 0 0 0 0 0 0 0", "refused 19".into()),
        ("0 1 1 0 0 0 0 0 0 0 0 0 0 0 1", "refused 19".into()),
        ("0 0 0 0 2 0 0 0 0 0 0 0 0", "refused 19".into()),
        ("4 0 0 0 0 0 0 0 0 0 0 1 1", "refused 19".into()),
        ("4 6 0 0 6 0 0 6 0 0 6 0 0", "refused 19".into()),
        // 1, 2 and 3 before it.
        ("5 0 0 0 0 0 0 0 0 0 0 0 0", "refused 1".into()),
        ("16 0 0 0 0 0 0 0 0 0 0 0 0", "refused 1".into()),
        ("255 7 0 0 0 0 0 1 0 0 0 0 0 0 1", "refused 1".into()),
        ("1 7 0 0 0 0 0 0 0 0 0 0 0", "refused 2".into()),
        ("0 255 1 0 0 0 0 0 0 0 0 0 0", "refused 2".into()),
        ("0 7 0 0 0 0 0 1 0 0 0 0 0 0 1", "refused 2".into()),
        ("0 2 0 0 0 0 0 1 0 0 0 0 0", "refused 3".into()),
        ("2 0 0 0 0 0 0 0 0 0 0 0 9 0 1", "refused 3".into()),
        ("3 0 0 0 0 0 0 0 0 0 1 0 0", "refused 3".into()),
        // No such questions.
        ("256 0 0 0 0 0 0 0 0 0 0 0 0", "?".into()),
        ("0 0 0 0 0 0 0 0 0 0 0 0", "?".into()),
        ("0 0 0 0 0 0 0 0 0 0 0 0 0 0", "?".into()),
        ("0 0 0 0 0 0 0 0 0 0 0 0 0 16777217 0", "?".into()),
        (
            "0 0 0 0 0 0 0 0 0 0 0 0 0 1 18446744073709551616",
            "?".into(),
        ),
    ] {
        assert_eq!(
            ask(&format!("small-expand {}", question)),
            said,
            "{}",
            question
        );
    }
    for line in [
        "small",
        "small ",
        "small 0",
        "small 00 00",
        "confirm",
        "confirm  ",
        "confirm 0A",
        "small_expand 0",
    ] {
        assert_eq!(ask(line), "?");
    }
}

/// No request of the profile has more than 54 terms, and these have so many: four orders along one axis.
#[test]
fn at_most_54_terms() {
    let all = small_rolls::every_request();
    assert_eq!(all.len(), 16 + 256);
    let mut reached = BTreeSet::new();
    for (kind, orders) in &all {
        let numbers: Vec<String> = orders.iter().map(u8::to_string).collect();
        let said = ask(&format!("small-expand {} {}", kind, numbers.join(" ")));
        assert_eq!(said, ask(&format!("expand {} {}", kind, numbers.join(" "))));
        let count = said.split(' ').nth(3).expect("a roll");
        let count: u32 = count.parse().expect("a number");
        assert!(count <= 54);
        if count == 54 {
            reached.insert((*kind, *orders));
        }
        // The second reading expands to the same, and the cabinet takes it.
        let roll = rust_side::roll(*kind, orders);
        assert_eq!(roll, second::fresh_roll(Form::One, *kind, orders));
        let taken = ask(&format!("small {}", hex(&roll)));
        assert_eq!(taken, ask(&format!("check {}", hex(&roll))));
        assert!(taken.starts_with("opened "));
    }
    let along = |axis: usize| {
        let mut orders = [0; 12];
        (0..4).for_each(|centre| orders[3 * centre + axis] = 1);
        (4, orders)
    };
    assert_eq!(reached, (0..3).map(along).collect());
}

/// A roll that is one byte from an expansion is never taken for that request; each is asked once.
#[test]
fn rolls_one_byte_from_an_expansion() {
    let roll = bytes(&joined(ACCEPTED[1].0));
    let mut all = Vec::new();
    small_rolls::beside(&roll, &mut |roll| all.push(roll.to_vec()));
    let different: BTreeSet<&Vec<u8>> = all.iter().collect();
    // 17 bytes: itself, one changed, one more, one less; 14 runs of equal bytes.
    assert_eq!(all.len(), 1 + 17 * 255 + 17 * 255 + 256 + 14);
    assert_eq!(different.len(), all.len());
    let taken = |roll: &&Vec<u8>| ask(&format!("small {}", hex(roll))).starts_with("opened ");
    assert_eq!(all.iter().filter(taken).collect::<Vec<_>>(), [&roll]);
}

/// oracle/ask-both counts on this number.
#[test]
fn how_many_rolls_are_one_byte_from_an_expansion() {
    let mut number = 0;
    for (kind, orders) in small_rolls::every_request() {
        let roll = rust_side::roll(kind, &orders);
        let runs = 1 + roll.windows(2).filter(|two| two[0] != two[1]).count();
        number += 1 + 255 * roll.len() + 255 * roll.len() + 256 + runs;
    }
    assert_eq!(number, 13_464_881);
    let mut lines = Vec::new();
    runs::every_small(5, 10_007, &mut lines).expect("memory takes all");
    let lines = lines.split(|&b| b == b'\n').count() - 1;
    assert_eq!(lines, (13_464_881 - 5 + 10_006) / 10_007);
}

/// Whatever the roll: confirmed where it is the expansion of what its header says, 20 where the
/// expansion is the same up to the place and not at it, and else as its reading is.
#[test]
fn what_confirming_says_of_any_roll() {
    let mut random = Random::new(3);
    let (mut confirmed, mut others) = (0, 0);
    for _ in 0..6_000 {
        let roll = hex(&confirm_rolls::any(&mut random));
        let said = ask(&format!("confirm {}", roll));
        let form = if roll.starts_with('1') { "2" } else { "" };
        let read = ask(&format!("check{} {}", form, roll));
        let words: Vec<&str> = read.split(' ').collect();
        if words[0] != "opened" {
            assert_eq!(said, read);
            continue;
        }
        let used = words.len() - 6;
        let orders = words[4..4 + used].join(" ") + &" 0".repeat(12 - used);
        let fresh = ask(&format!("expand{} {} {}", form, words[1], orders));
        let fresh = match fresh.strip_prefix("roll ") {
            Some(roll) => roll.rsplit(' ').next().expect("digits"),
            None => {
                assert_eq!(said, fresh);
                continue;
            }
        };
        if said.starts_with("confirmed ") {
            assert_eq!(said, read.replace("opened", "confirmed"));
            assert_eq!(roll, fresh);
            confirmed += 1;
        } else {
            let place = said.strip_prefix("refused 20 at ").expect("not confirmed");
            let at = 2 * place.parse::<usize>().expect("a place");
            assert_eq!(roll[..at], fresh[..at]);
            assert_ne!(roll.get(at..at + 2), fresh.get(at..at + 2));
            others += 1;
        }
    }
    assert!(confirmed > 1_000 && others > 1_000);
}

/// Whatever the roll: 19 where its header reads and says other than the profile, else as it is confirmed.
#[test]
fn what_the_small_cabinet_says_of_any_roll() {
    let mut random = Random::new(4);
    let mut outside = 0;
    for _ in 0..6_000 {
        let roll = hex(&small_rolls::any(&mut random));
        let said = ask(&format!("small {}", roll));
        let form = if roll.starts_with('1') { "2" } else { "" };
        let opened = ask(&format!("open{} {}", form, roll));
        let words: Vec<&str> = opened.split(' ').collect();
        let is_inside = |kind: &str, orders: &[&str]| {
            let is_low =
                |centre: &[&str]| ["000", "100", "010", "001"].contains(&&centre.concat()[..]);
            form.is_empty() && (kind == "0" || kind == "4") && orders.chunks(3).all(is_low)
        };
        if words[0] != "opened" {
            assert_eq!(said, opened);
        } else if is_inside(words[1], &words[4..words.len() - 2]) {
            let confirmed = ask(&format!("confirm {}", roll));
            assert_eq!(said, confirmed.replace("confirmed", "opened"));
        } else {
            assert_eq!(said, "refused 19");
            outside += 1;
        }
    }
    assert!(outside > 1_000);
}
