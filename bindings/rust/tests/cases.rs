//! The binding's answers are those of documents 01 and 02.
use xewumbal::*;

const HEADER: &str = include_str!("../../../include/xewumbal.h");

/// Document 01's roll of overlap Ax1 Bx1, whose terms are [0,1] and [7].
const ROLL: [u8; 17] = [0, 1, 0, 0, 1, 0, 0, 2, 1, 0, 2, 0, 1, 1, 0, 1, 7];
const ROLL_ORDERS: [u8; ORDERS] = [1, 0, 0, 1, 0, 0, 0, 0, 0, 0, 0, 0];

/// Document 01's roll of overlap Ax3 in form 2: [0,0,0], then [0,6], which shares one prefactor, then 2[6,0].
const FORM2: [u8; 26] = [16, 3, 0, 0, 0, 0, 0, 3, 1, 0, 0, 3, 0, 0, 0, 1, 0, 1, 1, 6, 2, 0, 0, 2, 6, 0];
const FORM2_ORDERS: [u8; ORDERS] = [3, 0, 0, 0, 0, 0, 0, 0, 0, 0, 0, 0];

const UNIT: Centre = Centre { x: 0.0, y: 0.0, z: 0.0, exponent: 1.0, charge: 1 };
const UNTOUCHED: u8 = 0xa5;

fn one_at(places: &[usize]) -> [u8; ORDERS] {
    let mut orders = [0; ORDERS];
    places.iter().for_each(|&place| orders[place] = 1);
    orders
}

/// The terms of a roll, each as scale, Boys order and prefactors.
fn terms(roll: &[u8]) -> Vec<(u32, u8, Vec<u8>)> {
    let mut cursor = match check(roll) {
        Opened::Roll { cursor, .. } => cursor,
        refused => panic!("{refused:?}"),
    };
    let mut found = vec![];
    loop {
        match cursor.next(roll) {
            Step::Term { term, next } => {
                found.push((term.scale, term.boys, term.prefactors().to_vec()));
                cursor = next;
            }
            Step::End => return found,
            Step::Refused(refusal) => panic!("{refusal:?}"),
        }
    }
}

/// The roll of a request, in just the bytes that it measures.
fn expanded(kind: u8, orders: [u8; ORDERS]) -> Vec<u8> {
    let measured = measure(kind, &orders);
    let mut room = match measured {
        Expanded::Roll { length, .. } => vec![0; length],
        refused => panic!("{refused:?}"),
    };
    assert_eq!(expand(kind, &orders, &mut room, 0), measured);
    room
}

#[test]
fn the_roll_stands_where_it_was_asked_for() {
    let mut room = [UNTOUCHED; 20];
    assert_eq!(expand(OVERLAP, &ROLL_ORDERS, &mut room, 2), Expanded::Roll { length: 17, terms: 2 });
    assert_eq!(room[..2], [UNTOUCHED; 2]);
    assert_eq!(room[2..19], ROLL);
    assert_eq!(room[19], UNTOUCHED);
}

#[test]
fn a_roll_measured_and_not_written() {
    let measured = Expanded::Roll { length: 17, terms: 2 };
    assert_eq!(measure(OVERLAP, &ROLL_ORDERS), measured);
    let mut room = [UNTOUCHED; 17];
    assert_eq!(expand(OVERLAP, &ROLL_ORDERS, &mut room[..16], 0), Expanded::Refused(Refusal::NoRoom));
    assert_eq!(room, [UNTOUCHED; 17]);
    assert_eq!(expand(OVERLAP, &ROLL_ORDERS, &mut room, 0), measured);
    assert_eq!(room, ROLL);
}

#[test]
fn terms_of_the_printed_cases() {
    assert_eq!(terms(&ROLL), [(1, 0, vec![0, 1]), (1, 0, vec![7])]);
    let three = expanded(OVERLAP, [3, 0, 0, 0, 0, 0, 0, 0, 0, 0, 0, 0]);
    assert_eq!(terms(&three), [(1, 0, vec![0, 0, 0]), (1, 0, vec![0, 6]), (2, 0, vec![6, 0])]);
    assert_eq!(terms(&expanded(KINETIC, one_at(&[0]))), [(1, 0, vec![0]), (1, 0, vec![8, 0])]);
    assert_eq!(terms(&expanded(NUCLEAR, one_at(&[0]))), [(1, 0, vec![0]), (1, 1, vec![6])]);
    assert_eq!(terms(&expanded(MOMENT, one_at(&[0, 6]))), [(1, 0, vec![0, 6]), (1, 0, vec![11])]);
    let coulomb = [(1, 0, vec![0, 2]), (1, 1, vec![0, 5]), (1, 1, vec![4, 2]), (1, 2, vec![4, 5]), (1, 1, vec![22])];
    assert_eq!(terms(&expanded(COULOMB, one_at(&[0, 6]))), coulomb);
}

#[test]
fn the_form_2_roll_stands_where_it_was_asked_for() {
    let mut room = [UNTOUCHED; 29];
    assert_eq!(expand2(OVERLAP, &FORM2_ORDERS, &mut room, 2), Expanded::Roll { length: 26, terms: 3 });
    assert_eq!(room[..2], [UNTOUCHED; 2]);
    assert_eq!(room[2..28], FORM2);
    assert_eq!(room[28], UNTOUCHED);
    let mut room = [UNTOUCHED; 25];
    assert_eq!(expand2(OVERLAP, &FORM2_ORDERS, &mut room, 0), Expanded::Refused(Refusal::NoRoom));
    assert_eq!(expand2(OVERLAP, &FORM2_ORDERS, &mut room, 26), Expanded::Refused(Refusal::StartBeyondEnd));
    assert_eq!(expand2(5, &FORM2_ORDERS, &mut room, 0), Expanded::Refused(Refusal::Kind));
    assert_eq!(room, [UNTOUCHED; 25]);
}

#[test]
fn there_and_back() {
    let form1 = expanded(OVERLAP, FORM2_ORDERS);
    let mut room = [UNTOUCHED; 27];
    assert_eq!(to_form2(&form1, &mut room, 1), Moved::Roll { length: 26, terms: 3 });
    assert_eq!((room[0], &room[1..]), (UNTOUCHED, &FORM2[..]));
    let mut back = vec![UNTOUCHED; form1.len()];
    assert_eq!(to_form1(&FORM2, &mut back, 0), Moved::Roll { length: form1.len(), terms: 3 });
    assert_eq!(back, form1);
    assert_eq!(to_form1(&FORM2, &mut back[1..], 0), Moved::Refused(Refusal::NoRoom));
    assert_eq!(to_form2(&form1, &mut room, 28), Moved::Refused(Refusal::StartBeyondEnd));
    assert_eq!(to_form2(&form1[..23], &mut [], 1), Moved::Refused(Refusal::CutRoll { place: 23 }));
    assert_eq!((back, &room[1..]), (form1, &FORM2[..]));
}

#[test]
fn terms_of_a_form_2_roll() {
    let cursor = Cursor { place: 8, left: 3, kind: OVERLAP, l: 3 };
    let mut cursor = Cursor2 { cursor, ..Cursor2::default() };
    assert_eq!(check2(&FORM2), Opened2::Roll { cursor, orders: FORM2_ORDERS });
    assert_eq!(open2(&FORM2[..8]), check2(&FORM2));
    let mut found = vec![];
    while let Step2::Term { term, next } = cursor.next(&FORM2) {
        assert_eq!(next.earlier[..usize::from(next.count)], *term.prefactors());
        found.push((term.scale, term.boys, term.prefactors().to_vec()));
        cursor = next;
    }
    assert_eq!(cursor.next(&FORM2), Step2::End);
    assert_eq!(found, terms(&expanded(OVERLAP, FORM2_ORDERS)));
}

#[test]
fn each_form_refuses_the_other() {
    let (form1, wrong) = (expanded(OVERLAP, FORM2_ORDERS), Refusal::BadRoll { place: 0 });
    assert_eq!((open(&FORM2), check(&FORM2)), (Opened::Refused(wrong), Opened::Refused(wrong)));
    assert_eq!((open2(&form1), check2(&form1)), (Opened2::Refused(wrong), Opened2::Refused(wrong)));
    assert_eq!(to_form2(&FORM2, &mut [0; 99], 0), Moved::Refused(wrong));
    assert_eq!(to_form1(&form1, &mut [0; 99], 0), Moved::Refused(wrong));
}

/// Of the three terms of overlap Ax3 in form 2 the second one is damaged, then the count, then nothing but what follows.
#[test]
fn what_is_salvaged() {
    let told = |kept, miscounted, after| Salvaged::Roll { length: 26, terms: 3, kept, anew: 3 - kept, miscounted, after };
    let mut room = [UNTOUCHED; 28];
    let mut salvaged = |roll: &[u8]| {
        let answer = salvage(roll, &mut room, 1);
        assert_eq!((room[0], &room[1..27], room[27]), (UNTOUCHED, &FORM2[..], UNTOUCHED));
        answer
    };
    assert_eq!(salvaged(&FORM2), told(3, false, After::Nothing));
    let mut damaged = FORM2;
    damaged[15] ^= 1;
    assert_eq!(salvaged(&damaged), told(1, false, After::Unknown));
    assert_eq!(salvaged(&FORM2[..25]), told(2, false, After::Unknown));
    assert_eq!(salvaged(&FORM2[..8]), told(0, false, After::Unknown));
    let mut longer = [&FORM2[..], &[0]].concat();
    assert_eq!(salvaged(&longer), told(3, false, After::Bytes));
    longer[7] = 1;
    assert_eq!(salvaged(&longer[..26]), told(3, true, After::Nothing));
    let mut room = [UNTOUCHED; 25];
    assert_eq!(salvage(&FORM2, &mut room, 0), Salvaged::Refused(Refusal::NoRoom));
    assert_eq!(salvage(&FORM2, &mut room, 26), Salvaged::Refused(Refusal::StartBeyondEnd));
    assert_eq!(salvage(&FORM2[..7], &mut room, 26), Salvaged::Refused(Refusal::CutRoll { place: 7 }));
    assert_eq!(room, [UNTOUCHED; 25]);
}

/// The answer of a roll that is confirmed is that of `check`, in either form; a roll that reads may still be another.
#[test]
fn confirmed_or_only_readable() {
    assert!(matches!(confirm(&ROLL), Opened::Roll { orders: ROLL_ORDERS, .. }));
    assert_eq!(confirm(&ROLL), check(&ROLL));
    let cursor = Cursor { place: 8, left: 3, kind: OVERLAP, l: 3 };
    assert_eq!(confirm(&FORM2), Opened::Roll { cursor, orders: FORM2_ORDERS });
    let differs = |roll: &[u8], place| {
        assert!(matches!(
            (roll[0], check(roll), check2(roll)),
            (0, Opened::Roll { .. }, _) | (16, _, Opened2::Roll { .. })
        ));
        assert_eq!(confirm(roll), Opened::Refused(Refusal::NotTheExpansion { place }));
    };
    // Overlap Ax3: [0,6] and 2[6,0] merged into 3[0,6], in both forms; 2[6,0] parted; [0,6] lost.
    differs(&[0, 3, 0, 0, 0, 0, 0, 2, 1, 0, 3, 0, 0, 0, 3, 0, 2, 0, 6], 7);
    differs(&[16, 3, 0, 0, 0, 0, 0, 2, 1, 0, 0, 3, 0, 0, 0, 3, 0, 1, 1, 6], 7);
    differs(&[0, 3, 0, 0, 0, 0, 0, 4, 1, 0, 3, 0, 0, 0, 1, 0, 2, 0, 6, 1, 0, 2, 6, 0, 1, 0, 2, 6, 0], 7);
    differs(&[0, 3, 0, 0, 0, 0, 0, 2, 1, 0, 3, 0, 0, 0, 2, 0, 2, 6, 0], 7);
    // As many terms: the last two exchanged, a scale, a prefactor; the place is that of the byte, not of the term.
    differs(&[0, 3, 0, 0, 0, 0, 0, 3, 1, 0, 3, 0, 0, 0, 2, 0, 2, 6, 0, 1, 0, 2, 0, 6], 14);
    differs(&[0, 3, 0, 0, 0, 0, 0, 3, 1, 0, 3, 0, 0, 0, 1, 0, 2, 0, 6, 1, 0, 2, 6, 0], 19);
    differs(&[0, 1, 0, 0, 1, 0, 0, 2, 1, 0, 2, 0, 1, 1, 0, 1, 6], 16);
    differs(&[16, 3, 0, 0, 0, 0, 0, 3, 1, 0, 0, 3, 0, 0, 0, 1, 0, 1, 1, 6, 2, 0, 0, 2, 6, 1], 25);
    // Overlap Ay1 with the term of Ax1.
    differs(&[0, 0, 1, 0, 0, 0, 0, 1, 1, 0, 1, 0], 11);
}

#[test]
fn refusals_of_confirm() {
    assert_eq!(confirm(&[]), Opened::Refused(Refusal::CutRoll { place: 0 }));
    assert_eq!(confirm(&[5]), Opened::Refused(Refusal::BadRoll { place: 0 }));
    assert_eq!(confirm(&ROLL[..16]), Opened::Refused(Refusal::CutRoll { place: 16 }));
    assert_eq!(confirm(&FORM2[..25]), Opened::Refused(Refusal::CutRoll { place: 25 }));
    assert_eq!(confirm(&[&ROLL[..], &[0]].concat()), Opened::Refused(Refusal::BadRoll { place: 17 }));
    // A roll that reads, of a request with too many histories, in both forms; one that is cut is 14 first.
    let many = |first, term: &[u8]| [&[first, 6, 0, 0, 6, 0, 0, 6, 0, 0, 6, 0, 0, 1], term].concat();
    assert_eq!(confirm(&many(4, &[1, 0, 0])), Opened::Refused(Refusal::TooManyTerms));
    assert_eq!(confirm(&many(20, &[1, 0, 0, 0])), Opened::Refused(Refusal::TooManyTerms));
    assert_eq!(confirm(&many(4, &[1, 0])), Opened::Refused(Refusal::CutRoll { place: 16 }));
}

/// Document 01's terms of Coulomb Ax1 Cx1: [0,2] [0,5]o1 [4,2]o1 [4,5]o2 [22]o1.
const SMALL: [u8; 38] =
    [4, 1, 0, 0, 0, 0, 0, 1, 0, 0, 0, 0, 0, 5, 1, 0, 2, 0, 2, 1, 1, 2, 0, 5, 1, 1, 2, 4, 2, 1, 2, 2, 4, 5, 1, 1, 1, 22];

#[test]
fn rolls_of_the_profile() {
    let mut room = [UNTOUCHED; SMALL_ROLL];
    let orders = one_at(&[0, 6]);
    assert_eq!(small_expand(COULOMB, &orders, &mut room, 3), Expanded::Roll { length: 38, terms: 5 });
    assert_eq!((&room[..3], &room[3..41], &room[41..44]), (&[UNTOUCHED; 3][..], &SMALL[..], &[UNTOUCHED; 3][..]));
    let cursor = Cursor { place: 14, left: 5, kind: COULOMB, l: 2 };
    assert_eq!(small_check(&SMALL), Opened::Roll { cursor, orders });
    assert_eq!(small_check(&ROLL), check(&ROLL));
    // Each byte changed in each way: the roll is refused, and by 20 where it reads and its header is of the profile.
    for place in 0..SMALL.len() {
        for byte in (0..=255).filter(|&byte| byte != SMALL[place]) {
            let mut other = SMALL;
            other[place] = byte;
            let refusal = match small_check(&other) {
                Opened::Refused(refusal) => refusal,
                taken => panic!("{taken:?}"),
            };
            if place > 13 && matches!(check(&other), Opened::Roll { .. }) {
                assert_eq!(refusal, Refusal::NotTheExpansion { place });
            }
        }
    }
}

/// 7 or 14 of the header, then 19, then 7 or 14 of the rest.
#[test]
fn refusals_of_the_profile() {
    let refused = |roll: &[u8]| match small_check(roll) {
        Opened::Refused(refusal) => refusal,
        taken => panic!("{taken:?}"),
    };
    assert_eq!((refused(&[]), refused(&[5])), (Refusal::CutRoll { place: 0 }, Refusal::BadRoll { place: 0 }));
    assert_eq!((refused(&[21]), refused(&[16, 1])), (Refusal::BadRoll { place: 0 }, Refusal::CutRoll { place: 2 }));
    assert_eq!(refused(&FORM2), Refusal::OutsideProfile);
    assert_eq!(refused(&[16, 0, 0, 0, 0, 0, 0, 1]), Refusal::OutsideProfile); // form 2 of the profile, without its term
    assert_eq!(refused(&[1, 0, 0, 0, 0, 0, 0, 1]), Refusal::OutsideProfile); // kinetic
    assert_eq!(refused(&[0, 1, 1, 0, 0, 0, 0, 1]), Refusal::OutsideProfile); // a sum of 2
    assert_eq!(refused(&[4, 0, 0, 0, 0, 0, 0, 0, 0, 0, 0, 2, 0, 1]), Refusal::OutsideProfile);
    assert_eq!(refused(&SMALL[..13]), Refusal::CutRoll { place: 13 });
    assert_eq!(refused(&SMALL[..14]), Refusal::CutRoll { place: 14 });
    assert_eq!(refused(&[0, 0, 0, 0, 0, 0, 0, 1, 0]), Refusal::BadRoll { place: 8 });
    assert_eq!(refused(&[0, 0, 0, 0, 0, 0, 0, 1, 2, 0, 0]), Refusal::NotTheExpansion { place: 8 });
    let mut room = [UNTOUCHED; 10];
    let mut expanded = |kind, orders, start| match small_expand(kind, &orders, &mut room, start) {
        Expanded::Refused(refusal) => refusal,
        written => panic!("{written:?}"),
    };
    assert_eq!(expanded(5, [255; ORDERS], 11), Refusal::Kind);
    assert_eq!(expanded(KINETIC, [7; ORDERS], 11), Refusal::OrderSum);
    assert_eq!(expanded(KINETIC, one_at(&[6]), 11), Refusal::UnusedOrder);
    assert_eq!(expanded(KINETIC, [0; ORDERS], 11), Refusal::OutsideProfile);
    assert_eq!(expanded(COULOMB, one_at(&[0, 1]), 11), Refusal::OutsideProfile);
    assert_eq!(expanded(COULOMB, [6, 0, 0, 6, 0, 0, 6, 0, 0, 6, 0, 0], 0), Refusal::OutsideProfile);
    assert_eq!(expanded(COULOMB, [0; ORDERS], 11), Refusal::StartBeyondEnd);
    assert_eq!(expanded(COULOMB, [0; ORDERS], 10), Refusal::NoRoom);
    assert_eq!(room, [UNTOUCHED; 10]);
}

fn imported(text: &str) -> Imported {
    import(text.as_bytes(), &mut vec![UNTOUCHED; text.len()], 0)
}

/// The rolls of overlap Ax1 Bx1 and Coulomb Ax1 Cx1, of moment with the operator x2, and one that no expansion gives.
#[test]
fn there_and_back_by_text() {
    let moment: &[u8] = &[3, 0, 0, 0, 0, 0, 0, 2, 0, 0, 2, 1, 0, 2, 6, 6, 1, 0, 1, 9];
    let made_up: &[u8] = &[1, 0, 0, 0, 0, 0, 0, 2, 128, 128, 252, 141, 8, 0, 1, 10, 127, 0, 0];
    for (roll, text) in [
        (&ROLL[..], "0,1,0,0,1,0,0,2\n1,0,0,1\n1,0,7\n"),
        (&SMALL, "4,1,0,0,0,0,0,1,0,0,0,0,0,5\n1,0,0,2\n1,1,0,5\n1,1,4,2\n1,2,4,5\n1,1,22\n"),
        (moment, "3,0,0,0,0,0,0,2,0,0,2\n1,0,6,6\n1,0,9\n"),
        (made_up, "1,0,0,0,0,0,0,2\n2176778240,0,10\n127,0\n"),
    ] {
        assert!(matches!(check(roll), Opened::Roll { .. }));
        let (length, size) = (text.len(), roll.len());
        let mut room = vec![UNTOUCHED; length + 3];
        assert_eq!(export(roll, &mut room, 2), Exported::Text { length });
        assert_eq!(
            (&room[..2], &room[2..length + 2], room[length + 2]),
            (&[UNTOUCHED; 2][..], text.as_bytes(), UNTOUCHED)
        );
        let terms = text.lines().count() as u32 - 1;
        assert_eq!(import(text.as_bytes(), &mut room, 1), Imported::Roll { length: size, terms });
        assert_eq!((room[0], &room[1..=size], room[size + 1]), (UNTOUCHED, roll, text.as_bytes()[size - 1]));
        assert!(length <= 3 * size && size <= length);
        // Each cut of the text is 21 at its last line, or 22 at the line that is missing.
        for cut in 0..length {
            let lines = text[..cut].matches('\n').count() as u64;
            let whole = cut > 0 && text[..cut].ends_with('\n');
            let refusal =
                if whole { Refusal::LineNumbers { line: lines + 1 } } else { Refusal::LineShape { line: lines + 1 } };
            assert_eq!(imported(&text[..cut]), Imported::Refused(refusal), "{}", &text[..cut]);
        }
    }
}

#[test]
fn refusals_of_an_export() {
    let mut room = [UNTOUCHED; 29];
    let mut refused = |roll: &[u8], start| match export(roll, &mut room, start) {
        Exported::Refused(refusal) => refusal,
        written => panic!("{written:?}"),
    };
    assert_eq!((refused(&[], 30), refused(&FORM2, 30)), (Refusal::CutRoll { place: 0 }, Refusal::BadRoll { place: 0 }));
    assert_eq!(refused(&ROLL[..16], 0), Refusal::CutRoll { place: 16 });
    assert_eq!((refused(&ROLL, 30), refused(&ROLL, 29)), (Refusal::StartBeyondEnd, Refusal::NoRoom));
    assert_eq!(refused(&ROLL, 0), Refusal::NoRoom);
    assert_eq!(room, [UNTOUCHED; 29]);
}

/// 21, then 22, of the first line that is wrong; shape before numbers in each line; then 5 and 6.
#[test]
fn refusals_of_an_import() {
    let right = "0,1,0,0,1,0,0,2\n1,0,0,1\n1,0,7\n";
    assert_eq!(imported(right), Imported::Roll { length: 17, terms: 2 });
    let shape =
        |text: &str, line| assert_eq!(imported(text), Imported::Refused(Refusal::LineShape { line }), "{text:?}");
    let numbers =
        |text: &str, line| assert_eq!(imported(text), Imported::Refused(Refusal::LineNumbers { line }), "{text:?}");
    // The first line by its shape: empty, seven and nine numbers, a blank, a sign, a carriage return, a leading zero, no line feed.
    for first in [
        "",
        "\n",
        "0,1,0,0,1,0,2\n",
        "0,1,0,0,1,0,0,0,2\n",
        "0, 1,0,0,1,0,0,2\n",
        "0,+1,0,0,1,0,0,2\n",
        "0,1,0,0,1,0,0,2\r\n",
    ] {
        shape(&right.replacen("0,1,0,0,1,0,0,2\n", first, 1), 1);
    }
    shape("0,01,0,0,1,0,0,2\n1,0,0,1\n1,0,7\n", 1);
    shape("9,1,0,0,1,0,0,2", 1); // and its numbers are not looked at
                                 // By its numbers: a kind above 4, as many orders as another kind has, a sum above 6, counts; however many digits.
    numbers("5,1,0,0,1,0,0,2\n1,0,0,1\n1,0,7\n", 1);
    numbers("4,1,0,0,1,0,0,2\n1,0,0,1\n1,0,7\n", 1);
    numbers("0,1,0,0,1,0,0,0,0,0,2\n1,0,0,1\n1,0,7\n", 1);
    numbers("0,4,3,0,1,0,0,2\n1,0,0,1\n1,0,7\n", 1);
    numbers("0,1,0,0,1,0,0,0\n1,0,0,1\n1,0,7\n", 1);
    numbers("0,1,0,0,1,0,0,1048576\n1,0,0,1\n1,0,7\n", 1);
    numbers("0,18446744073709551617,0,0,1,0,0,2\n1,0,0,1\n1,0,7\n", 1);
    numbers("0,1,0,0,1,0,0,3\n1,0,0,1\n1,0,7\n", 4); // a line is missing
    numbers("0,1,0,0,1,0,0,1\n1,0,0,1\n1,0,7\n", 3); // one is too many
    shape("0,1,0,0,1,0,0,1\n1,0,0,1\n1;0,7\n", 3);
    // Other lines.
    let second = |line: &str| right.replacen("1,0,0,1\n", line, 1);
    for line in [
        "\n",
        "1\n",
        "1,\n",
        ",0\n",
        "1,,0\n",
        "1,0,0,1 \n",
        "1,0,\"0\",1\n",
        "1.0,0\n",
        "1,00\n",
        "1,-0\n",
        "1;0\n",
        "1,0,0,1\r\n",
    ] {
        shape(&second(line), 2);
    }
    for line in ["0,0,0,1\n", "2176782337,0,0,1\n", "4294967297,0,0,1\n", "1,1,0,1\n", "1,0,8\n", "1,0,0,0,0\n"] {
        numbers(&second(line), 2);
    }
    shape(&second("0,9,99,\n"), 2); // shape before numbers
    numbers(&second(&format!("1,0,{}\n", "9".repeat(1000))), 2);
    shape("0,1,0,0,1,0,0,2\n1,0,0,1\n1,0,7", 3);
    shape("0,1,0,0,1,0,0,2\n1,0,0,1\n1,0,7\n\n", 4);
    numbers("0,1,0,0,1,0,0,2\n0,0,0,1\n1;0,7\n", 2); // the first line that is wrong
    let mut room = [UNTOUCHED; 16];
    let mut refused = |text: &str, start| match import(text.as_bytes(), &mut room, start) {
        Imported::Refused(refusal) => refusal,
        written => panic!("{written:?}"),
    };
    assert_eq!(
        (refused("", 17), refused("9,9\n", 17)),
        (Refusal::LineShape { line: 1 }, Refusal::LineShape { line: 1 })
    );
    assert_eq!((refused(right, 17), refused(right, 16)), (Refusal::StartBeyondEnd, Refusal::NoRoom));
    assert_eq!(refused(right, 0), Refusal::NoRoom);
    assert_eq!(room, [UNTOUCHED; 16]);
}

/// Overlap Ax1 Bx1 beside overlap Ax3: three positions differ, of which the right roll alone has the third.
#[test]
fn what_differs() {
    let right = expanded(OVERLAP, FORM2_ORDERS);
    let mut found = vec![];
    for (a, b) in [(&ROLL[..], &right[..]), (&ROLL[..], &FORM2[..])] {
        let mut at = match compare(a, b) {
            Compared::Rolls { differ: 3, kinds: false, orders: true, terms: true, left, right, cursor } => {
                assert_eq!((left, right), (ROLL_ORDERS, FORM2_ORDERS));
                cursor
            }
            other => panic!("{other:?}"),
        };
        loop {
            match at.next(a, b) {
                Met::Both { number, left, right, next } => {
                    found.push((number, left.prefactors().to_vec(), right.prefactors().to_vec()));
                    at = next;
                }
                Met::One { side: Side::Right, number, term, next } => {
                    found.push((number, vec![], term.prefactors().to_vec()));
                    at = next;
                }
                Met::End => break,
                other => panic!("{other:?}"),
            }
        }
    }
    let once = [(1, vec![0, 1], vec![0, 0, 0]), (2, vec![7], vec![0, 6]), (3, vec![], vec![6, 0])];
    assert_eq!(found, [once.clone(), once].concat());
    let same = compare(&right, &FORM2);
    assert!(matches!(same, Compared::Rolls { differ: 0, kinds: false, orders: false, terms: false, .. }), "{same:?}");
    let cut = |place| Refusal::CutRoll { place };
    assert_eq!(compare(&ROLL[..9], &FORM2[..8]), Compared::Refused(Side::Left, cut(9)));
    assert_eq!(compare(&ROLL, &FORM2[..8]), Compared::Refused(Side::Right, cut(8)));
    let forged = Pair { number: 7, ..Pair::default() };
    assert_eq!(forged.next(&[5], &[]), Met::Refused(Side::Left, Refusal::BadRoll { place: 0 }));
}

/// Document 02's faults, each at its place.
#[test]
fn faults_of_form_2() {
    let with = |place: usize, byte: u8| {
        let mut roll = FORM2;
        roll[place] = byte;
        check2(&roll)
    };
    let wrong = |place| Opened2::Refused(Refusal::BadRoll { place });
    assert_eq!(with(10, 1), wrong(10)); // the first term shares nothing
    assert_eq!(with(17, 4), wrong(17)); // the term before has three prefactors
    assert_eq!(with(18, 3), wrong(18)); // one and three are more than L
    assert_eq!(with(19, 0), wrong(19)); // the one that follows in the term before
    for cut in 0..FORM2.len() {
        assert_eq!(check2(&FORM2[..cut]), Opened2::Refused(Refusal::CutRoll { place: cut }));
    }
}

#[test]
fn a_form_2_cursor_that_was_made_up() {
    let made_up = |count, prefactor| {
        let cursor = Cursor { place: 15, left: 2, kind: OVERLAP, l: 3 };
        Cursor2 { cursor, count, earlier: [prefactor; PREFACTORS] }.next(&FORM2)
    };
    let wrong = |place| Step2::Refused(Refusal::BadRoll { place });
    assert_eq!((made_up(4, 0), made_up(1, 8)), (wrong(15), wrong(15))); // no term has these
    assert_eq!((made_up(0, 0), made_up(2, 6)), (wrong(17), wrong(19)));
    match made_up(1, 7) {
        Step2::Term { term, .. } => assert_eq!(term.prefactors(), [7, 6]),
        other => panic!("{other:?}"),
    }
}

/// Document 02's examples, and that of a roll the scales add up to the same.
#[test]
fn totals_by_hand() {
    let mut three = [0; ORDERS];
    three[0] = 3;
    let mut two = [0; ORDERS];
    two[0] = 2;
    assert_eq!(scale_total(OVERLAP, &three), Total::Is(4));
    assert_eq!(roll_total(&expanded(OVERLAP, three)), Scales::Are(4));
    assert_eq!(scale_total(NUCLEAR, &two), Total::Is(6));
    assert_eq!(roll_total(&expanded(NUCLEAR, two)), Scales::Are(6));
    assert_eq!(scale_total(KINETIC, &two), Total::NotClaimed);
    assert_eq!(scale_total(COULOMB, &two), Total::NotClaimed);
    assert_eq!(scale_total(MOMENT, &[0, 0, 0, 0, 0, 0, 0, 0, 0, 1, 0, 0]), Total::Refused(Refusal::UnusedOrder));
    assert_eq!(roll_total(&[]), Scales::Refused(Refusal::CutRoll { place: 0 }));
}

#[test]
fn open_and_check() {
    let cursor = Cursor { place: 8, left: 2, kind: 0, l: 2 };
    assert_eq!(check(&ROLL), Opened::Roll { cursor, orders: ROLL_ORDERS });
    assert_eq!(open(&ROLL), check(&ROLL));
    assert_eq!(open(&ROLL[..16]), open(&ROLL));
    assert_eq!(check(&ROLL[..16]), Opened::Refused(Refusal::CutRoll { place: 16 }));
    assert_eq!(check(&[0x80, 0]), Opened::Refused(Refusal::BadRoll { place: 0 }));
}

/// Every byte of the roll is a number, so a cut roll is refused where it ends.
#[test]
fn each_cut_of_a_roll() {
    for cut in 0..ROLL.len() {
        let (roll, cut_there) = (&ROLL[..cut], Refusal::CutRoll { place: cut });
        assert_eq!(check(roll), Opened::Refused(cut_there));
        assert_eq!(evaluate(roll, UNIT, UNIT, UNIT, UNIT, 1.0, &[]), Value::Refused(cut_there));
        match open(roll) {
            Opened::Roll { mut cursor, .. } => {
                assert!(cut >= 8);
                while let Step::Term { next, .. } = cursor.next(roll) {
                    cursor = next;
                }
                assert_eq!(cursor.next(roll), Step::Refused(cut_there));
            }
            Opened::Refused(refusal) => assert_eq!((refusal, cut < 8), (cut_there, true)),
        }
    }
}

#[test]
fn cut_or_wrong() {
    let (cut, wrong) = (Refusal::CutRoll { place: 0 }, Refusal::BadRoll { place: 0 });
    let cases: [(&[u8], Refusal); 6] = [
        (&[], cut),
        (&[0x80], cut),
        (&[0x80, 0], wrong),
        (&[0xff; 4], cut),
        (&[0xff, 0xff, 0xff, 0xff, 0x90], wrong),
        (&[0xff; 6], wrong),
    ];
    for (roll, expected) in cases {
        assert_eq!(open(roll), Opened::Refused(expected), "{roll:?}");
        assert_eq!(check(roll), Opened::Refused(expected), "{roll:?}");
        assert_eq!(Cursor { place: 0, left: 1, kind: OVERLAP, l: 0 }.next(roll), Step::Refused(expected), "{roll:?}");
    }
    let too_many = [&ROLL[..], &[0x80]].concat();
    assert_eq!(check(&too_many), Opened::Refused(Refusal::BadRoll { place: 17 }));
}

#[test]
fn a_cursor_that_was_made_up() {
    let made_up = |place, left, kind| Cursor { place, left, kind, l: 2 }.next(&ROLL);
    assert_eq!(made_up(18, 1, OVERLAP), Step::Refused(Refusal::BadRoll { place: 18 }));
    assert_eq!(made_up(17, 1, OVERLAP), Step::Refused(Refusal::CutRoll { place: 17 }));
    assert_eq!(made_up(16, 0, OVERLAP), Step::Refused(Refusal::BadRoll { place: 16 }));
    assert_eq!(made_up(3, 1, 5), Step::Refused(Refusal::BadRoll { place: 3 }));
    assert_eq!(made_up(17, 0, OVERLAP), Step::End);
}

#[test]
fn shells() {
    let mut room = [UNTOUCHED; 19];
    assert_eq!(shell_list(2, &mut room, 0), Listed::Triples { length: 18, triples: 6 });
    assert_eq!(room[..18], [2, 0, 0, 1, 1, 0, 1, 0, 1, 0, 2, 0, 0, 1, 1, 0, 0, 2]);
    assert_eq!(room[18], UNTOUCHED);
    assert_eq!(shell2(1, 1, 1), Component::Orders([1, 0, 0, 0, 1, 0, 0, 0, 0, 0, 0, 0]));
    assert_eq!(shell4(0, 1, 0, 1, 5), Component::Orders([0, 0, 0, 0, 1, 0, 0, 0, 0, 0, 0, 1]));
    assert_eq!(shell4(4, 4, 4, 4, 50624), Component::Orders([0, 0, 4, 0, 0, 4, 0, 0, 4, 0, 0, 4]));
    assert_eq!(shell4(6, 6, 6, 6, 614655), Component::Orders([0, 0, 6, 0, 0, 6, 0, 0, 6, 0, 0, 6]));
}

#[test]
fn values() {
    let none = Centre::default();
    assert_eq!(evaluate(&ROLL, UNIT, UNIT, none, none, 1.0, &[]), Value::Is(0.25));
    let mut entries = [0.0; TABLE];
    (entries[6], entries[7]) = (0.25, 0.25);
    assert_eq!(prefactors(OVERLAP, UNIT, UNIT, none, none), Table::Entries(entries));
    let (mut j, mut k) = ([9.0], [9.0]);
    assert_eq!(jk(1, &[0.5], &[3.0], &mut j, &mut k), Matrices::Written);
    assert_eq!((j, k), ([1.5], [1.5]));
}

/// The bits of the roots of 2 and 3: 1.41421356.. and 1.73205080..
const ROOT_OF_2: u64 = 0x3ff6a09e667f3bcd;
const ROOT_OF_3: u64 = 0x3ffbb67ae8584caa;

#[test]
fn roots() {
    let of = |x| match root(x) {
        Root::Is(root) => root.to_bits(),
        refused => panic!("{refused:?}"),
    };
    assert_eq!(of(4.0), 2f64.to_bits());
    assert_eq!(of(2.0), ROOT_OF_2);
    assert_eq!(of(3.0), ROOT_OF_3);
    // The smallest subnormal is 2^-1074.
    assert_eq!(of(f64::from_bits(1)), f64::from_bits((1023 - 537) << 52).to_bits());
    assert_eq!(of(0.0), 0);
    assert_eq!(of(-0.0), 1 << 63);
    for below in [-1.0, -f64::from_bits(1), f64::MIN] {
        assert_eq!(root(below), Root::Refused(Refusal::BelowZero));
    }
    for odd in [f64::NAN, -f64::NAN, f64::INFINITY, f64::NEG_INFINITY] {
        assert_eq!(root(odd), Root::Refused(Refusal::InputNotFinite));
    }
}

/// The roll of Coulomb s,s,s,s: its one term has no prefactor, so the integral is F(0) times s, where s is aux divided by the
/// root of the sum of exponents.
const COULOMB_S: [u8; 17] = [4, 0, 0, 0, 0, 0, 0, 0, 0, 0, 0, 0, 0, 1, 1, 0, 0];

#[test]
fn aux_of_coulomb_is_divided_by_the_root() {
    let both = |exponents: [f64; 4], aux| {
        let [a, b, c, d] = exponents.map(|exponent| Centre { exponent, ..UNIT });
        let mut buffer = [UNTOUCHED; ENTRY];
        let value = evaluate(&COULOMB_S, a, b, c, d, aux, &[0.5]);
        assert_eq!(evaluate_grouped(&COULOMB_S, a, b, c, d, aux, &[0.5], &mut buffer), value);
        value
    };
    assert_eq!(both([1.0; 4], 3.0), Value::Is(0.75));
    assert_eq!(both([0.5; 4], 1.0), Value::Is(0.5 * (1.0 / f64::from_bits(ROOT_OF_2))));
    // Added one after the other these are 3; two by two they would be more, with another root.
    assert_eq!(both([3.0, f64::EPSILON, f64::EPSILON, f64::EPSILON], f64::from_bits(ROOT_OF_3)), Value::Is(0.5));
    // A sum that is not finite, and a quotient.
    assert_eq!(both([f64::MAX / 2.0; 4], 1.0), Value::Refused(Refusal::ResultNotFinite));
    assert_eq!(both([1e-300; 4], f64::MAX), Value::Refused(Refusal::ResultNotFinite));
}

/// The roll of nuclear s,s: its one term has no prefactor, so the integral is aux times F(0).
const NUCLEAR_S: [u8; 11] = [2, 0, 0, 0, 0, 0, 0, 1, 1, 0, 0];

/// Nothing of it may be looked at.
const ODD: Centre = Centre { x: f64::NAN, y: f64::INFINITY, z: f64::NAN, exponent: -1.0, charge: u32::MAX };

/// A list at UNIT's place: the nuclei have an exponent that is not finite, and beyond them stand others.
fn nuclei(charges: &[u32]) -> Nuclei {
    let mut list = Nuclei { centres: [ODD; MOST_NUCLEI], count: charges.len() as u32 };
    for (centre, &charge) in list.centres.iter_mut().zip(charges) {
        *centre = Centre { exponent: f64::NAN, charge, ..UNIT };
    }
    list
}

/// The bits of a value.
fn bits(value: Value) -> u64 {
    match value {
        Value::Is(value) => value.to_bits(),
        refused => panic!("{refused:?}"),
    }
}

#[test]
fn lists_of_nuclei() {
    let total = |charges: &[u32], boys: &[f64]| nuclear(&NUCLEAR_S, UNIT, UNIT, nuclei(charges), 1.5, boys);
    assert_eq!(total(&[8], &[0.5]), Value::Is(6.0));
    assert_eq!(total(&[8, 1], &[0.5, 0.25]), Value::Is(6.375));
    assert_eq!(total(&[MOST_CHARGE; MOST_NUCLEI], &[0.5; MOST_NUCLEI]), Value::Is(2832.0));
    // From 0.0 in list order: 0.75 is lost beside 1.5e17 and stays beside 0.0.
    assert_eq!(total(&[1; 3], &[0.5, 1e17, -1e17]), Value::Is(0.0));
    assert_eq!(total(&[1; 3], &[1e17, -1e17, 0.5]), Value::Is(0.75));
}

/// A total is that of all but the last nucleus plus the last one's value, and that of one nucleus 0.0 plus its value.
#[test]
fn a_list_beside_its_nuclei_one_by_one() {
    let (roll, [a, b, mut c, d]) = (expanded(NUCLEAR, one_at(&[0, 3])), CENTRES);
    let mut list = Nuclei { centres: [ODD; MOST_NUCLEI], count: 0 };
    let boys: Vec<f64> = (0..96).map(|n| 0.8 / f64::from(2 * n + 1)).collect();
    let mut sum = 0.0;
    for charge in [8, 1, 0, 118, 92] {
        (c.x, c.charge) = (c.x + 0.3, charge);
        let from = 3 * list.count as usize;
        list.centres[list.count as usize] = Centre { exponent: f64::NAN, ..c };
        list.count += 1;
        sum += f64::from_bits(bits(evaluate(&roll, a, b, c, d, 1.5, &boys[from..from + 3])));
        assert_eq!(bits(nuclear(&roll, a, b, list, 1.5, &boys[..from + 3])), sum.to_bits());
    }
}

/// Charge 0 times an integral below 0 is -0.0, and 0.0 plus that is 0.0.
#[test]
fn charge_0() {
    let single = evaluate(&NUCLEAR_S, UNIT, UNIT, Centre { charge: 0, ..UNIT }, ODD, -1.5, &[0.5]);
    assert_eq!(bits(single), (-0.0_f64).to_bits());
    assert_eq!(bits(nuclear(&NUCLEAR_S, UNIT, UNIT, nuclei(&[0]), -1.5, &[0.5])), 0.0_f64.to_bits());
    assert_eq!(bits(nuclear(&NUCLEAR_S, UNIT, UNIT, nuclei(&[0; 2]), -1.5, &[0.5; 2])), 0.0_f64.to_bits());
    // An infinity times 0 is no number.
    let infinite = evaluate(&NUCLEAR_S, UNIT, UNIT, Centre { charge: 0, ..UNIT }, ODD, f64::MAX, &[f64::MAX]);
    assert_eq!(infinite, Value::Refused(Refusal::ResultNotFinite));
}

#[test]
fn the_charge_of_a_nucleus_alone_is_looked_at() {
    let [a, b, c, d] = CENTRES;
    let any = |centre| Centre { charge: u32::MAX, ..centre };
    let (boys, mut buffer) = ([0.8, 0.4, 0.2], [UNTOUCHED; 200]);
    for kind in 0..KINDS {
        let (nucleus, boys) = match kind {
            NUCLEAR => (c, &boys[..]),
            COULOMB => (any(c), &boys[..]),
            _ => (any(c), &[][..]),
        };
        let roll = expanded(kind, one_at(&[0, if kind == COULOMB { 6 } else { 3 }]));
        let value = evaluate(&roll, a, b, c, d, 1.5, boys);
        assert!(matches!(value, Value::Is(_)), "{value:?}");
        assert_eq!(evaluate(&roll, any(a), any(b), nucleus, any(d), 1.5, boys), value);
        assert_eq!(grouped(&roll, [any(a), any(b), nucleus, any(d)], boys, &mut buffer), value);
        assert_eq!(prefactors(kind, any(a), any(b), any(c), any(d)), prefactors(kind, a, b, c, d));
    }
    let list = nuclei(&[7]);
    assert_eq!(nuclear(&NUCLEAR_S, any(a), any(b), list, 1.5, &[0.8]), nuclear(&NUCLEAR_S, a, b, list, 1.5, &[0.8]));
}

/// Each refusal of a list, with every later one beside it: 7, 1, 17, 8, 9, 10, 11.
#[test]
fn refusals_of_a_list() {
    let refused = |roll: &[u8], a: Centre, list: Nuclei, boys: &[f64]| match nuclear(roll, a, UNIT, list, 1.5, boys) {
        Value::Refused(refusal) => refusal,
        other => panic!("{other:?}"),
    };
    let below = Centre { exponent: -1.0, ..UNIT };
    let (mut two, mut none) = (nuclei(&[8, 119]), nuclei(&[]));
    two.centres[0].x = f64::NAN;
    none.centres[0].charge = 119;
    assert_eq!(refused(&[5], below, none, &[]), Refusal::BadRoll { place: 0 });
    assert_eq!(refused(&NUCLEAR_S[..10], below, none, &[]), Refusal::CutRoll { place: 10 });
    assert_eq!(refused(&ROLL, below, none, &[]), Refusal::Kind);
    assert_eq!(refused(&expanded(COULOMB, [0; ORDERS]), UNIT, nuclei(&[1]), &[1.0]), Refusal::Kind);
    for count in [0, 33, 257, u32::MAX] {
        assert_eq!(refused(&NUCLEAR_S, below, Nuclei { count, ..nuclei(&[1; 32]) }, &[]), Refusal::Nuclei);
    }
    // The second nucleus is refused 17 before the first one 8.
    assert_eq!(refused(&NUCLEAR_S, below, two, &[]), Refusal::Nuclei);
    two.centres[1].charge = 118;
    assert_eq!(refused(&NUCLEAR_S, below, two, &[]), Refusal::InputNotFinite);
    assert_eq!(refused(&NUCLEAR_S, below, nuclei(&[8, 1]), &[f64::NAN]), Refusal::InputNotFinite);
    assert_eq!(refused(&NUCLEAR_S, below, nuclei(&[8, 1]), &[]), Refusal::Exponent);
    // Ten reads against the total.
    for boys in [&[][..], &[f64::MAX; 1], &[f64::MAX; 3], &[f64::MAX; 4]] {
        assert_eq!(refused(&NUCLEAR_S, UNIT, nuclei(&[8, 1]), boys), Refusal::BoysCount);
    }
    assert_eq!(refused(&NUCLEAR_S, UNIT, nuclei(&[8, 1]), &[f64::MAX; 2]), Refusal::ResultNotFinite);
    // Each value is finite, and their sum is not.
    assert_eq!(refused(&NUCLEAR_S, UNIT, nuclei(&[1, 1]), &[f64::MAX / 2.0; 2]), Refusal::ResultNotFinite);
}

/// The roll of overlap s,s: its one term has no prefactor, so the value of a pair is its host number.
const OVERLAP_S: [u8; 11] = [0, 0, 0, 0, 0, 0, 0, 1, 1, 0, 0];

fn primitive(centre: Centre, norm: f64, coefficient: f64) -> Primitive {
    Primitive { centre, norm, coefficient }
}

/// A function of these primitives; beyond them stand others.
fn contraction(primitives: &[Primitive]) -> Contraction {
    let odd = primitive(ODD, f64::NAN, f64::INFINITY);
    let mut function = Contraction { primitives: [odd; MOST_PRIMITIVES], count: primitives.len() as u32 };
    function.primitives[..primitives.len()].copy_from_slice(primitives);
    function
}

/// Primitives at UNIT's place, each a norm and a coefficient.
fn units(factors: &[[f64; 2]]) -> Contraction {
    let primitives: Vec<_> = factors.iter().map(|&[norm, coefficient]| primitive(UNIT, norm, coefficient)).collect();
    contraction(&primitives)
}

/// 1.0 for each norm and coefficient: the value of the pair itself.
#[test]
fn one_primitive_each() {
    let [a, b, c, d] = CENTRES;
    let alone = |centre| contraction(&[primitive(centre, 1.0, 1.0)]);
    for kind in [OVERLAP, KINETIC] {
        for orders in [[0; ORDERS], one_at(&[0, 3]), one_at(&[0, 1, 5])] {
            let roll = expanded(kind, orders);
            let value = evaluate(&roll, a, b, c, d, 1.5, &[]);
            assert_eq!(bits(contracted(&roll, alone(a), alone(b), &[1.5])), bits(value));
        }
    }
    assert_eq!(contracted(&OVERLAP_S, units(&[[2.0, 5.0]]), units(&[[3.0, 7.0]]), &[0.5]), Value::Is(105.0));
}

/// The right function is outer: the host numbers are those of the first right primitive with both left ones, then of the second.
#[test]
fn two_by_two() {
    let (left, right) = (units(&[[2.0, 3.0], [5.0, 7.0]]), units(&[[11.0, 13.0], [17.0, 19.0]]));
    let host = [1.0, 10.0, 100.0, 1000.0];
    let first = 13.0 * (3.0 * (22.0 * host[0]) + 7.0 * (55.0 * host[1]));
    let second = 19.0 * (3.0 * (34.0 * host[2]) + 7.0 * (85.0 * host[3]));
    assert_eq!(contracted(&OVERLAP_S, left, right, &host), Value::Is(first + second));
    // Left norm times right norm, then the value, then the left coefficient: 0.1 * 0.2, 0.3, 0.7 round otherwise in other orders.
    let (left, right) = (units(&[[0.1, 0.7], [0.3, 0.9]]), units(&[[0.2, 1.1], [0.6, 1.3]]));
    let host = [0.3, 0.31, 0.37, 0.41];
    let inner = |right: f64, v: [f64; 2]| (0.0 + 0.7 * ((0.1 * right) * v[0])) + 0.9 * ((0.3 * right) * v[1]);
    let element = (0.0 + 1.1 * inner(0.2, [host[0], host[1]])) + 1.3 * inner(0.6, [host[2], host[3]]);
    assert_eq!(bits(contracted(&OVERLAP_S, left, right, &host)), element.to_bits());
    // In order within each sum: 1.0 is lost beside 1e17 and stays beside 0.0.
    let ones = units(&[[1.0, 1.0]; 3]);
    for (host, element) in [([1.0, 1e17, -1e17], 0.0), ([1e17, -1e17, 1.0], 1.0)] {
        assert_eq!(contracted(&OVERLAP_S, ones, units(&[[1.0, 1.0]]), &host), Value::Is(element));
        assert_eq!(contracted(&OVERLAP_S, units(&[[1.0, 1.0]]), ones, &host), Value::Is(element));
    }
}

/// Both functions with centres of their own, beside a loop over [`evaluate`].
#[test]
fn an_element_beside_its_pairs() {
    let [a, b, c, d] = CENTRES;
    let roll = expanded(KINETIC, one_at(&[0, 3]));
    let left = [primitive(a, 0.7, 0.15), primitive(c, 1.3, -0.53), primitive(d, 0.4, 0.44)];
    let right = [primitive(b, 0.9, -0.33), primitive(a, 1.1, 0.21)];
    let host: Vec<f64> = (0..6).map(|n| 0.8 / f64::from(2 * n + 1)).collect();
    let mut element = 0.0;
    for (r, hosts) in right.iter().zip(host.chunks(3)) {
        let mut inner = 0.0;
        for (l, &aux) in left.iter().zip(hosts) {
            let value = f64::from_bits(bits(evaluate(&roll, l.centre, r.centre, ODD, ODD, aux, &[])));
            inner += l.coefficient * ((l.norm * r.norm) * value);
        }
        element += r.coefficient * inner;
    }
    assert_eq!(bits(contracted(&roll, contraction(&left), contraction(&right), &host)), element.to_bits());
}

/// Sums begin at 0.0: an element is never -0.0.
#[test]
fn zeros() {
    let (zero, below) = (units(&[[1.0, 0.0]]), units(&[[1.0, -1.0]]));
    assert_eq!(bits(contracted(&OVERLAP_S, zero, below, &[1.0])), 0.0_f64.to_bits());
    assert_eq!(bits(contracted(&OVERLAP_S, below, zero, &[1.0])), 0.0_f64.to_bits());
}

#[test]
fn charges_of_primitives_are_not_looked_at() {
    let [a, b, ..] = CENTRES;
    let roll = expanded(OVERLAP, one_at(&[0, 3]));
    let element = |charge| {
        let one = |centre: Centre| contraction(&[primitive(Centre { charge, ..centre }, 0.7, 0.15); 2]);
        bits(contracted(&roll, one(a), one(b), &[0.5; 4]))
    };
    assert_eq!(element(0), element(1));
    assert_eq!(element(119), element(1));
    assert_eq!(element(u32::MAX), element(1));
}

/// Each refusal of an element, with every later one beside it: 15, 16, 7, 1, 8, 9, 11.
#[test]
fn refusals_of_an_element() {
    let refused = |roll: &[u8], left, right, host: &[f64]| match contracted(roll, left, right, host) {
        Value::Refused(refusal) => refusal,
        other => panic!("{other:?}"),
    };
    let below = Centre { exponent: -1.0, ..UNIT };
    // The first pair is refused 9, the last one 8.
    let left = contraction(&[primitive(below, 1.0, 1.0), primitive(UNIT, 1.0, 1.0)]);
    let right = contraction(&[primitive(UNIT, 1.0, 1.0), primitive(Centre { z: f64::NAN, ..UNIT }, 1.0, 1.0)]);
    for count in [0, 11, 256, 257, u32::MAX] {
        let other = |function| Contraction { count, ..function };
        assert_eq!(refused(&[5], other(left), right, &[]), Refusal::PrimitiveCount);
        assert_eq!(refused(&[5], left, other(right), &[]), Refusal::PrimitiveCount);
    }
    for count in [0, 1, 2, 3, 5, 8, 100] {
        assert_eq!(refused(&[5], left, right, &[f64::NAN; 100][..count]), Refusal::HostCount);
    }
    assert_eq!(refused(&[5], left, right, &[f64::NAN; 4]), Refusal::BadRoll { place: 0 });
    assert_eq!(refused(&[2, 0, 0], left, right, &[f64::NAN; 4]), Refusal::CutRoll { place: 3 });
    for kind in [NUCLEAR, MOMENT, COULOMB] {
        assert_eq!(refused(&expanded(kind, [0; ORDERS]), left, right, &[f64::NAN; 4]), Refusal::Kind);
    }
    // The last pair is refused 8 before the first one 9.
    assert_eq!(refused(&OVERLAP_S, left, right, &[1.0; 4]), Refusal::InputNotFinite);
    let ones = units(&[[1.0, 1.0]; 2]);
    for odd in [f64::NAN, f64::INFINITY, f64::NEG_INFINITY] {
        assert_eq!(refused(&OVERLAP_S, left, ones, &[1.0, 1.0, 1.0, odd]), Refusal::InputNotFinite);
        assert_eq!(refused(&OVERLAP_S, left, units(&[[1.0, 1.0], [odd, 1.0]]), &[1.0; 4]), Refusal::InputNotFinite);
        assert_eq!(refused(&OVERLAP_S, left, units(&[[1.0, 1.0], [1.0, odd]]), &[1.0; 4]), Refusal::InputNotFinite);
    }
    // The last pair is refused 9 before the first one 11, whose squared distance is not finite.
    let far = contraction(&[primitive(Centre { x: 1e155, ..UNIT }, 1.0, 1.0), primitive(UNIT, 1.0, 1.0)]);
    let last_below = contraction(&[primitive(UNIT, 1.0, 1.0), primitive(below, 1.0, 1.0)]);
    assert_eq!(refused(&OVERLAP_S, far, last_below, &[1.0; 4]), Refusal::Exponent);
    assert_eq!(refused(&OVERLAP_S, far, ones, &[1.0; 4]), Refusal::ResultNotFinite);
    // Each value is finite; a product, an inner sum or the outer sum is not, also where it is then multiplied by 0.0.
    let (large, zeros) = (units(&[[1e200, 1.0]]), units(&[[1e200, 0.0]]));
    assert_eq!(refused(&OVERLAP_S, large, large, &[0.5]), Refusal::ResultNotFinite);
    assert_eq!(refused(&OVERLAP_S, zeros, zeros, &[0.0]), Refusal::ResultNotFinite);
    assert_eq!(refused(&OVERLAP_S, ones, units(&[[1.0, 0.0]]), &[f64::MAX; 2]), Refusal::ResultNotFinite);
    assert_eq!(refused(&OVERLAP_S, units(&[[1.0, 1.0]]), ones, &[f64::MAX; 2]), Refusal::ResultNotFinite);
}

/// Document 01's roll of Coulomb Ax1 Cx1: [0,2] [0,5]o1 [4,2]o1 [4,5]o2 [22]o1.
const COULOMB_ORDERS: [u8; ORDERS] = [1, 0, 0, 0, 0, 0, 1, 0, 0, 0, 0, 0];

/// Its grouping: the group of Boys order 0 has term 1, that of 1 terms 2, 3 and 5, that of 2 term 4. An entry is the
/// number, then scale, Boys order, prefactor count and prefactors.
const GROUPING: [u8; 29] = [1, 1, 0, 2, 0, 2, 2, 1, 1, 2, 0, 5, 3, 1, 1, 2, 4, 2, 5, 1, 1, 1, 22, 4, 1, 2, 2, 4, 5];

const CENTRES: [Centre; 4] = [
    Centre { x: 0.1, y: -0.2, z: 0.3, exponent: 1.1, charge: 1 },
    Centre { x: 0.7, y: 0.4, z: -0.5, exponent: 0.9, charge: 1 },
    Centre { x: -0.6, y: 0.8, z: 0.2, exponent: 1.7, charge: 1 },
    Centre { x: 0.5, y: -0.9, z: 1.3, exponent: 0.6, charge: 1 },
];

fn grouped(roll: &[u8], [a, b, c, d]: [Centre; 4], boys: &[f64], buffer: &mut [u8]) -> Value {
    evaluate_grouped(roll, a, b, c, d, 1.5, boys, buffer)
}

/// A Coulomb roll in a buffer of 40 bytes a term and one byte more, then one less: the value has the bits of `evaluate`,
/// each number gives the roll's term, and what stands behind the grouping is as it was.
fn in_forty_a_term(orders: [u8; ORDERS], room: usize) {
    let (roll, [a, b, c, d]) = (expanded(COULOMB, orders), CENTRES);
    let l = orders.iter().sum();
    let boys: Vec<f64> = (0..=l).map(|n| 0.8 / f64::from(2 * n + 1)).collect();
    let listed = terms(&roll);
    assert_eq!(room, ENTRY * listed.len());
    let mut buffer = vec![UNTOUCHED; room + 1];
    let value = grouped(&roll, CENTRES, &boys, &mut buffer[..room]);
    match (value, evaluate(&roll, a, b, c, d, 1.5, &boys)) {
        (Value::Is(ours), Value::Is(plain)) => assert_eq!(ours.to_bits(), plain.to_bits()),
        both => panic!("{both:?}"),
    }
    for (number, term) in (1..).zip(&listed) {
        match grouped_term(&buffer, l, listed.len() as u32, number) {
            Restored::Term(t) => assert_eq!((t.scale, t.boys, t.prefactors().to_vec()), *term),
            refused => panic!("{number}: {refused:?}"),
        }
    }
    // The terms follow the kind, twelve orders and the count; here each number of an entry is one byte.
    let size = roll.len() - 14 + listed.len();
    assert!(buffer[size..].iter().all(|&byte| byte == UNTOUCHED));
    let mut less = vec![UNTOUCHED; room - 1];
    assert_eq!(grouped(&roll, CENTRES, &boys, &mut less), Value::Refused(Refusal::NoRoom));
    assert!(less.iter().all(|&byte| byte == UNTOUCHED));
}

#[test]
fn grouped_in_forty_bytes_a_term() {
    in_forty_a_term([0; ORDERS], 40);
    in_forty_a_term(COULOMB_ORDERS, 200);
    in_forty_a_term(one_at(&[0, 3, 6, 9]), 2160);
}

#[test]
fn the_grouping_stays_beside_later_refusals() {
    let roll = expanded(COULOMB, COULOMB_ORDERS);
    let with = |change: fn(&mut Centre)| {
        let mut centres = CENTRES;
        change(&mut centres[0]);
        centres
    };
    let three = [0.8; 3];
    let cases: [(Refusal, [Centre; 4], &[f64]); 4] = [
        (Refusal::InputNotFinite, with(|a| (a.x, a.exponent) = (f64::NAN, 0.0)), &[]),
        (Refusal::Exponent, with(|a| a.exponent = 0.0), &[]),
        (Refusal::BoysCount, with(|a| a.x = 1e200), &[]),
        (Refusal::ResultNotFinite, with(|a| a.x = 1e200), &three),
    ];
    for (refusal, centres, boys) in cases {
        let mut buffer = [UNTOUCHED; 203];
        assert_eq!(grouped(&roll, centres, boys, &mut buffer), Value::Refused(refusal));
        assert_eq!((&buffer[..29], &buffer[29..]), (&GROUPING[..], &[UNTOUCHED; 174][..]));
        let mut short = [UNTOUCHED; 199];
        assert_eq!(grouped(&roll, centres, boys, &mut short), Value::Refused(Refusal::NoRoom));
        let mut bad = roll.clone();
        bad[13] = 0; // its term count
        assert_eq!(grouped(&bad, centres, boys, &mut short), Value::Refused(Refusal::BadRoll { place: 13 }));
        assert_eq!(grouped(&roll[..20], centres, boys, &mut short), Value::Refused(Refusal::CutRoll { place: 20 }));
        assert_eq!(short, [UNTOUCHED; 199]);
    }
}

/// For other kinds the buffer is not looked at.
#[test]
fn other_kinds_are_not_grouped() {
    let mut buffer = [UNTOUCHED; 100];
    assert_eq!(evaluate_grouped(&ROLL, UNIT, UNIT, UNIT, UNIT, 1.0, &[], &mut buffer), Value::Is(0.25));
    assert_eq!(buffer, [UNTOUCHED; 100]);
    assert_eq!(evaluate_grouped(&ROLL, UNIT, UNIT, UNIT, UNIT, 1.0, &[], &mut []), Value::Is(0.25));
}

/// The first fault of a grouping in reading order, after L and the number asked.
#[test]
fn faults_of_a_grouping() {
    let refused = |grouping: &[u8], asked| match grouped_term(grouping, 2, 5, asked) {
        Restored::Refused(refusal) => refusal,
        term => panic!("{term:?}"),
    };
    let with = |place: usize, byte: u8, asked| {
        let mut grouping = GROUPING;
        grouping[place] = byte;
        refused(&grouping, asked)
    };
    let wrong = |place| Refusal::BadRoll { place };
    assert_eq!(grouped_term(&[], 25, 5, 0), Restored::Refused(wrong(0)));
    assert_eq!((refused(&[], 0), refused(&[], 6)), (Refusal::ComponentNumber, Refusal::ComponentNumber));
    assert_eq!((with(0, 0, 1), with(6, 6, 1)), (wrong(0), wrong(6))); // no number from 1 to 5
    assert_eq!((with(8, 3, 1), with(28, 23, 1)), (wrong(8), wrong(28))); // a Boys order above L; no prefactor
    assert_eq!(with(2, 2, 1), wrong(6)); // the Boys order falls from 2
    assert_eq!(with(12, 2, 1), wrong(12)); // 2 is not above 2
    assert_eq!(with(23, 5, 5), wrong(23)); // a second 5
    assert_eq!(with(23, 5, 4), wrong(29)); // no 4
    for cut in 0..GROUPING.len() {
        assert_eq!(refused(&GROUPING[..cut], 1), Refusal::CutRoll { place: cut });
    }
}

/// J is the sum of I(mu, nu, lambda, sigma) D(lambda, sigma), K that of I(mu, lambda, nu, sigma) D(lambda, sigma).
#[test]
fn j_and_k_are_not_exchanged() {
    let mut i = [0.0; 16];
    i[0b0011] = 1.0;
    let d = [0.0, 0.0, 0.0, 2.0];
    let (mut j, mut k) = ([9.0; 4], [9.0; 4]);
    assert_eq!(jk(2, &i, &d, &mut j, &mut k), Matrices::Written);
    assert_eq!((j, k), ([2.0, 0.0, 0.0, 0.0], [0.0; 4]));
}

/// With a density that is not symmetric K is not either: K at (0, 1) is 1, at (1, 0) it is 0.
#[test]
fn k_is_not_mirrored() {
    let mut i = [0.0; 16];
    (i[0b0011], i[0b1100]) = (1.0, 1.0);
    let d = [0.0, 1.0, 0.0, 0.0];
    let (mut j, mut k) = ([9.0; 4], [9.0; 4]);
    assert_eq!(jk(2, &i, &d, &mut j, &mut k), Matrices::Written);
    assert_eq!((j, k), ([0.0; 4], [0.0, 1.0, 0.0, 0.0]));
}

macro_rules! refusal {
    ($answer:ident, $call:expr) => {
        match $call {
            $answer::Refused(refusal) => refusal,
            other => panic!("{other:?}"),
        }
    };
}

/// A call for each refusal.
fn refusals() -> [(u8, Refusal); 22] {
    let mut room = [UNTOUCHED; 10];
    let mut request = |kind, orders, start| refusal!(Expanded, expand(kind, &orders, &mut room, start));
    let sum = |roll, a, boys| refusal!(Value, evaluate(roll, a, UNIT, UNIT, UNIT, 1.0, boys));
    let found = [
        (1, request(5, [0; ORDERS], 0)),
        (2, request(OVERLAP, [7, 0, 0, 0, 0, 0, 0, 0, 0, 0, 0, 0], 0)),
        (3, request(OVERLAP, one_at(&[6]), 0)),
        (4, request(COULOMB, [6, 0, 0, 6, 0, 0, 6, 0, 0, 6, 0, 0], 0)),
        (5, request(OVERLAP, [0; ORDERS], 11)),
        (6, request(OVERLAP, [0; ORDERS], 10)),
        (7, sum(&[5], UNIT, &[])),
        (8, sum(&ROLL, Centre { x: f64::NAN, ..UNIT }, &[])),
        (9, sum(&ROLL, Centre { exponent: -0.0, ..UNIT }, &[])),
        (10, sum(&ROLL, UNIT, &[1.0])),
        (11, sum(&ROLL, Centre { x: 1e155, ..UNIT }, &[])),
        (12, refusal!(Matrices, jk(0, &[], &[], &mut [], &mut []))),
        (13, refusal!(Component, shell2(0, 0, 1))),
        (14, sum(&ROLL[..16], UNIT, &[])),
        (15, refusal!(Value, contracted(&ROLL, units(&[]), units(&[]), &[]))),
        (16, refusal!(Value, contracted(&ROLL, units(&[[1.0; 2]]), units(&[[1.0; 2]]), &[]))),
        (17, refusal!(Value, nuclear(&NUCLEAR_S, UNIT, UNIT, nuclei(&[119]), 1.0, &[1.0]))),
        (18, refusal!(Root, root(-1.0))),
        (19, refusal!(Opened, small_check(&NUCLEAR_S))),
        (20, refusal!(Opened, confirm(&[0, 0, 0, 0, 0, 0, 0, 1, 2, 0, 0]))),
        (21, refusal!(Imported, imported("0,0,0,0,0,0,0,1\n1, 0\n"))),
        (22, refusal!(Imported, imported("5,0,0,0,0,0,0,1\n1,0\n"))),
    ];
    assert_eq!(room, [UNTOUCHED; 10]);
    found
}

#[test]
fn each_refusal_comes_up_with_the_words_of_the_header() {
    for (number, refusal) in refusals() {
        assert_eq!(refusal.number(), number);
        assert!(HEADER.contains(&format!("\n *   {number:2}  {refusal}\n")), "{number} {refusal}");
        assert_eq!(refusal.words(), refusal.to_string());
    }
    assert_eq!(refusals()[6].1, Refusal::BadRoll { place: 0 });
    assert_eq!(refusals()[13].1, Refusal::CutRoll { place: 16 });
    assert_eq!(refusals()[19].1, Refusal::NotTheExpansion { place: 8 });
    assert_eq!(
        (refusals()[20].1, refusals()[21].1),
        (Refusal::LineShape { line: 2 }, Refusal::LineNumbers { line: 1 })
    );
}

#[test]
fn the_other_ways_to_refuse() {
    let mut room = [UNTOUCHED; 18];
    assert_eq!(shell_list(7, &mut room, 0), Listed::Refused(Refusal::OrderSum));
    assert_eq!(shell_list(2, &mut room, 19), Listed::Refused(Refusal::StartBeyondEnd));
    assert_eq!(shell_list(2, &mut room, 1), Listed::Refused(Refusal::NoRoom));
    assert_eq!(room, [UNTOUCHED; 18]);
    assert_eq!(prefactors(5, UNIT, UNIT, UNIT, UNIT), Table::Refused(Refusal::Kind));
    assert_eq!(shell4(4, 4, 4, 4, 50625), Component::Refused(Refusal::ComponentNumber));
    assert_eq!(shell4(6, 6, 6, 6, 614656), Component::Refused(Refusal::ComponentNumber));
    assert_eq!(open(&[]), Opened::Refused(Refusal::CutRoll { place: 0 }));
    assert_eq!(expand(OVERLAP, &[0; ORDERS], &mut [], 0), Expanded::Refused(Refusal::NoRoom));
    assert_eq!(measure(5, &[0; ORDERS]), Expanded::Refused(Refusal::Kind));
    assert_eq!(measure(OVERLAP, &[7; ORDERS]), Expanded::Refused(Refusal::OrderSum));
    assert_eq!(measure(OVERLAP, &one_at(&[6])), Expanded::Refused(Refusal::UnusedOrder));
    let sixes = [6, 0, 0, 6, 0, 0, 6, 0, 0, 6, 0, 0];
    assert_eq!(measure(COULOMB, &sixes), Expanded::Refused(Refusal::TooManyTerms));
}
