//! What a cabinet with the limits of before says of a roll, beside what is said now.

use oracle::parse::Cursor;
use oracle::random::Random;
use oracle::second::{count_histories, orders_used, terms, write_roll};
use oracle::second::{Limits, Refusal, Step, Term, BEFORE, NOW};
use oracle::{requests, rolls, rust_side};

/// Reads now, and was 7 at this place before; the header too where the place is in it.
fn was_seven_at(roll: &[u8], place: usize) {
    let seven = Refusal {
        number: 7,
        place: place as u64,
    };
    let (header, _) = NOW.check(roll).expect("the roll reads now");
    assert_eq!(BEFORE.check(roll).err(), Some(seven));
    if place < header.place {
        assert_eq!(BEFORE.open(roll), Err(seven));
    }
}

/// The steps of a reading, up to its end or a refusal.
fn steps(limits: &Limits, roll: &[u8]) -> Vec<Result<Step, Refusal>> {
    let header = limits.open(roll).expect("the header reads");
    let mut cursor = Cursor {
        kind: header.kind,
        l: header.l,
        left: header.count,
        place: header.place as u64,
    };
    let mut steps = Vec::new();
    loop {
        let step = limits.next(cursor, roll);
        steps.push(step.clone());
        match step {
            Ok(Step::Term(_, after)) => cursor = after,
            _ => return steps,
        }
    }
}

/// Read before, and reads the same now; false where it was refused before.
fn reads_as_before(roll: &[u8]) -> bool {
    if BEFORE.check(roll).is_err() {
        return false;
    }
    assert_eq!(BEFORE.open(roll), NOW.open(roll));
    assert!(BEFORE.check(roll) == NOW.check(roll));
    assert!(steps(&BEFORE, roll) == steps(&NOW, roll));
    true
}

/// The first order at which a sum passes the limit of before.
fn too_high(orders: &[u8; 12]) -> Option<usize> {
    let sum = |at: usize| orders[at - at % 3..=at].iter().sum::<u8>();
    (0..12).find(|&at| sum(at) > BEFORE.order_sum)
}

#[test]
fn the_limits_of_before_and_now() {
    let limits = |limits: Limits| (limits.order_sum, limits.terms, limits.scale);
    assert_eq!(limits(BEFORE), (4, 65_535, 4_u32.pow(8)));
    assert_eq!(limits(NOW), (6, 1_048_575, 6_u32.pow(12)));
    let l = |limits: Limits| [0, 1, 2, 3, 4].map(|kind| limits.l(kind));
    assert_eq!(l(BEFORE), [8, 8, 8, 12, 16]);
    assert_eq!(l(NOW), [12, 12, 12, 18, 24]);
}

#[test]
fn a_higher_order_was_seven_at_it() {
    let mut random = Random::new(7);
    let mut higher = 0;
    for at in 0..5_000 {
        let kind = (at % 5) as u8;
        let orders = requests::short(&mut random, kind);
        if let Some(at) = too_high(&orders) {
            was_seven_at(&rust_side::roll(kind, &orders), 1 + at);
            higher += 1;
        }
    }
    assert!(higher > 1_000, "{}", higher);
}

#[test]
fn more_terms_were_seven_at_their_count() {
    let least = [0, 0, 2, 0, 3, 0, 0, 2, 0, 0, 3, 1];
    assert_eq!(count_histories(4, &least, NOW.terms), BEFORE.terms + 1);
    for orders in [least, requests::AT_THE_CAP[0]] {
        assert_eq!(too_high(&orders), None);
        was_seven_at(&rust_side::roll(4, &orders), 13);
    }
}

#[test]
fn a_larger_scale_was_seven_at_it() {
    for kind in 0..5 {
        let mut list = vec![Term::default(); 2];
        for scale in [BEFORE.scale + 1, NOW.scale] {
            list[0].scale = BEFORE.scale;
            list[1].scale = scale;
            let second = 1 + orders_used(kind) + 1 + 5;
            was_seven_at(&write_roll(kind, &[0; 12], &list), second);
        }
    }
}

#[test]
fn every_roll_of_before_reads_as_before() {
    for kind in 0..4 {
        let old = requests::every(kind).into_iter();
        for orders in old.filter(|orders| too_high(orders).is_none()) {
            let roll = write_roll(kind, &orders, &terms(kind, &orders));
            assert!(reads_as_before(&roll));
        }
    }
    let mut random = Random::new(8);
    for _ in 0..2_000 {
        let orders = requests::any(&mut random, 4);
        let few = count_histories(4, &orders, BEFORE.terms) <= BEFORE.terms;
        if few && too_high(&orders).is_none() {
            assert!(reads_as_before(&rust_side::roll(4, &orders)));
        }
    }
}

#[test]
fn what_no_expansion_gives_reads_as_before() {
    let mut random = Random::new(9);
    let rolls = (0..50_000).map(|_| rolls::any(&mut random));
    let read = rolls.filter(|roll| reads_as_before(roll)).count();
    assert!(read > 5_000, "{}", read);
}
