//! what holds of every roll, shown of fresh rolls, of random ones that no expansion gives, and
//! of bad ones.

use oracle::form2_rolls;
use oracle::parse::Cursor;
use oracle::random::Random;
use oracle::requests;
use oracle::rolls;
use oracle::rust_side;
use oracle::second::{self, moved, Form, Refusal, Step, Term, BEFORE, NOW};
use std::collections::BTreeMap;

/// Both forms of a roll that reads: each is what the other moves to, and both say the same.
fn there_and_back(form1: &[u8], form2: &[u8]) {
    let to = |form, roll| moved(form, roll).expect("the roll reads").1;
    assert!(to(Form::Two, form1) == form2, "{:?}", form1);
    assert!(to(Form::One, form2) == form1, "{:?}", form2);
    let (one, terms) = NOW.check(form1).expect("the roll reads");
    let (two, same_terms) = NOW.check_in(Form::Two, form2).expect("the roll reads");
    assert!(one == two && terms == same_terms, "{:?}", form1);
}

/// From one form there and back; false where the roll does not read. A move is refused where the
/// reading is, at the same place.
fn moves(form: Form, roll: &[u8]) -> bool {
    match (NOW.check_in(form, roll), moved(form.other(), roll)) {
        (Ok((header, terms)), Ok((_, other))) => {
            let written = second::write_roll_in(form, header.kind, &header.orders, &terms);
            assert!(written == roll, "{:?}", roll);
            match form {
                Form::One => there_and_back(roll, &other),
                Form::Two => there_and_back(&other, roll),
            }
            true
        }
        (Err(read), Err(moved)) => {
            assert_eq!(read, moved);
            false
        }
        _ => panic!("the move and the reading differ: {:?}", roll),
    }
}

/// A request's rolls: the Rust's own terms in form 2 are what its form 1 roll moves to.
fn request(kind: u8, orders: &[u8; 12]) {
    let terms = rust_side::terms(kind, orders);
    let [form1, form2] = [Form::One, Form::Two].map(|form| {
        let roll = second::write_roll_in(form, kind, orders, &terms);
        assert!(roll == second::fresh_roll(form, kind, orders));
        roll
    });
    there_and_back(&form1, &form2);
}

#[test]
fn expansions_of_kinds_0_to_3_there_and_back() {
    for (kind, one_in) in [(0, 1), (1, 1), (2, 100), (3, 2_000)] {
        for orders in requests::every(kind).iter().step_by(one_in) {
            request(kind, orders);
        }
    }
}

/// The rolls of the second reading's terms.
#[test]
#[ignore]
fn every_expansion_of_kinds_0_to_3_there_and_back() {
    for kind in 0..4 {
        for orders in requests::every(kind) {
            let roll = |form| second::fresh_roll(form, kind, &orders);
            let moved = |form, roll| moved(form, roll).expect("a fresh roll reads").1;
            let (form1, form2) = (roll(Form::One), roll(Form::Two));
            assert!(moved(Form::Two, &form1) == form2);
            assert!(moved(Form::One, &form2) == form1);
        }
    }
}

#[test]
fn coulomb_there_and_back() {
    let mut random = Random::new(11);
    for _ in 0..300 {
        request(4, &requests::short(&mut random, 4));
    }
    for _ in 0..20 {
        request(4, &requests::any_of(&mut random, 4, 1..=requests::LONG));
    }
    request(4, &requests::AT_THE_CAP[0]);
}

#[test]
fn what_no_expansion_gives_there_and_back() {
    let mut random = Random::new(12);
    for _ in 0..20_000 {
        for form in [Form::One, Form::Two] {
            let roll = form2_rolls::legal(&mut random, form);
            assert!(moves(form, &roll));
        }
        assert!(moves(Form::One, &rolls::legal(&mut random)));
    }
}

#[test]
fn any_roll_moves_as_it_reads() {
    let mut random = Random::new(13);
    let mut read = [0, 0];
    for _ in 0..30_000 {
        let roll = form2_rolls::any(&mut random);
        read[0] += u32::from(moves(Form::Two, &roll));
        moves(Form::One, &roll);
        let roll = form2_rolls::any_of_form_1(&mut random);
        read[1] += u32::from(moves(Form::One, &roll));
        moves(Form::Two, &roll);
    }
    assert!(read.iter().all(|&read| read > 8_000), "{:?}", read);
    for roll in form2_rolls::tried_one_by_one() {
        moves(Form::Two, &roll);
    }
}

/// The terms that the steps of a reading come to, and how it ends.
fn stepped(form: Form, roll: &[u8]) -> Option<(Vec<Term>, Result<(), Refusal>)> {
    let header = NOW.open_in(form, roll).ok()?;
    let mut cursor = Cursor {
        kind: header.kind,
        l: header.l,
        left: header.count,
        place: header.place as u64,
    };
    let (mut terms, mut before) = (Vec::new(), Vec::new());
    loop {
        match NOW.next_in(form, cursor, &before, roll) {
            Ok(Step::Term(term, after)) => {
                cursor = after;
                if form == Form::Two {
                    before = term.prefactors.clone();
                }
                terms.push(term);
            }
            Ok(Step::End) => return Some((terms, Ok(()))),
            Err(refusal) => return Some((terms, Err(refusal))),
        }
    }
}

/// Stepping tells what judging the whole roll tells.
#[test]
fn the_cursor_comes_to_what_is_judged() {
    let mut random = Random::new(14);
    for _ in 0..20_000 {
        let roll = form2_rolls::any(&mut random);
        let judged = NOW.check_in(Form::Two, &roll);
        match (stepped(Form::Two, &roll), judged) {
            (Some((terms, Ok(()))), Ok((_, judged))) => assert!(terms == judged),
            (Some((_, Err(stepped))), Err(judged)) => assert_eq!(stepped, judged),
            (None, Err(judged)) => assert_eq!(NOW.open_in(Form::Two, &roll), Err(judged)),
            _ => panic!("the steps and the judgement differ: {:?}", roll),
        }
    }
}

/// A cut is 14, where the number begins that it leaves out or parts.
#[test]
fn each_cut_of_a_good_roll_is_14() {
    let mut random = Random::new(15);
    let more = (0..2_000).map(|_| form2_rolls::legal(&mut random, Form::Two));
    let (mut good, mut cuts) = (0, 0);
    for roll in form2_rolls::to_be_cut().into_iter().chain(more) {
        if NOW.check_in(Form::Two, &roll).is_err() {
            continue;
        }
        good += 1;
        for cut in 0..roll.len() {
            let refused = NOW.check_in(Form::Two, &roll[..cut]);
            let refused = refused.expect_err("a cut roll does not read");
            let parted = roll[..cut].iter().rev().take_while(|&&b| b > 127).count();
            let expected = (14, (cut - parted) as u64);
            assert_eq!((refused.number, refused.place), expected, "{:?}", roll);
            cuts += 1;
        }
    }
    assert!(good > 2_060 && cuts > 100_000, "{} {}", good, cuts);
}

/// A fault stays one, at its place, whatever follows the number that it is at.
#[test]
fn wrong_stays_wrong() {
    let mut random = Random::new(16);
    let mut wrong = 0;
    for _ in 0..30_000 {
        let roll = form2_rolls::any(&mut random);
        let refused = match NOW.check_in(Form::Two, &roll) {
            Err(refused) if refused.number == 7 => refused,
            _ => continue,
        };
        wrong += 1;
        let number = second::read_number(&roll[refused.place as usize..]);
        let length = number.map_or(5, |(_, length)| length);
        let end = roll.len().min(refused.place as usize + length);
        let mut other = roll[..end].to_vec();
        other.extend((0..random.below(6)).map(|_| random.bits() as u8));
        assert_eq!(NOW.check_in(Form::Two, &other).err(), Some(refused));
    }
    assert!(wrong > 10_000, "{}", wrong);
}

/// An old cabinet refuses every form 2 roll at place 0.
#[test]
fn a_cabinet_of_before() {
    let mut random = Random::new(17);
    for _ in 0..2_000 {
        let roll = form2_rolls::legal(&mut random, Form::Two);
        let refused = BEFORE.check(&roll).expect_err("not a form of before");
        assert_eq!((refused.number, refused.place), (7, 0));
    }
}

/// What the number at a place of a roll's terms is, taken as it stands, with no limit on it.
fn role(roll: &[u8], place: usize) -> Option<&'static str> {
    let header = NOW.open_in(Form::Two, roll).ok()?;
    let mut at = header.place;
    let mut before: Vec<u32> = Vec::new();
    let number = |at: &mut usize| {
        let (number, length) = second::read_number(&roll[*at..]).ok()?;
        *at += length;
        Some(number)
    };
    loop {
        for role in ["scale", "Boys order"] {
            if at == place {
                return Some(role);
            }
            number(&mut at)?;
        }
        if at == place {
            let first = at == header.place + 2;
            return Some(if first { "first shares" } else { "beyond" });
        }
        let shared = number(&mut at)? as usize;
        if at == place {
            return Some("total");
        }
        let count = number(&mut at)?;
        let mut prefactors = before.get(..shared)?.to_vec();
        for further in 0..count {
            let begins = at;
            let prefactor = number(&mut at)?;
            if begins == place {
                let longer = further == 0 && before.get(shared) == Some(&prefactor);
                return Some(if longer {
                    "not the longest"
                } else {
                    "prefactor"
                });
            }
            prefactors.push(prefactor);
        }
        before = prefactors;
    }
}

#[test]
fn each_fault_comes_up() {
    let mut random = Random::new(18);
    let mut found: BTreeMap<&str, u32> = BTreeMap::new();
    for _ in 0..30_000 {
        let roll = form2_rolls::any(&mut random);
        if let Err(refused) = NOW.check_in(Form::Two, &roll) {
            if let Some(role) = role(&roll, refused.place as usize).filter(|_| refused.number == 7)
            {
                *found.entry(role).or_insert(0) += 1;
            }
        }
    }
    let roles = [
        "scale",
        "Boys order",
        "first shares",
        "beyond",
        "total",
        "not the longest",
        "prefactor",
    ];
    for role in roles {
        assert!(found.get(role) > Some(&100), "{} {:?}", role, found);
    }
}
