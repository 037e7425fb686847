//! The scales added up: 02's examples, its rule, and the kinds of which it claims nothing.

mod shared;

use oracle::parse::write_roll;
use oracle::random::Random;
use oracle::second::{self, Term, NOW};
use oracle::{requests, rolls, rust_side};
use std::collections::BTreeMap;
use shared::ask;

fn ask_scales(roll: &[u8]) -> String {
    let mut line = b"scales ".to_vec();
    write_roll(&mut line, roll);
    ask(&String::from_utf8(line).expect("questions are text"))
}

#[test]
fn totals() {
    let cases = [
        ("0 3 0 0 0 0 0 0 0 0 0 0 0", "total 4"),
        ("2 2 0 0 0 0 0 0 0 0 0 0 0", "total 6"),
        ("0 0 0 0 0 0 0 0 0 0 0 0 0", "total 1"),
        ("2 0 0 0 0 0 1 0 0 0 0 0 0", "total 2"),
        // The operator counts: orders 1 and 2 along x are 3.
        ("3 1 0 0 0 0 0 2 0 0 0 0 0", "total 4"),
        // Axes do not mix: 2 for x, 4 for y.
        ("3 1 3 0 1 0 0 0 0 0 0 0 0", "total 8"),
        ("0 6 0 0 6 0 0 0 0 0 0 0 0", "total 140152"),
        ("2 6 0 0 6 0 0 0 0 0 0 0 0", "total 30710464"),
        ("3 6 0 0 6 0 0 6 0 0 0 0 0", "total 997313824"),
        ("1 0 0 0 0 0 0 0 0 0 0 0 0", "total none"),
        ("4 6 0 0 6 0 0 6 0 0 6 0 0", "total none"),
        ("5 7 0 0 0 0 0 1 0 0 0 0 0", "refused 1"),
        ("1 7 0 0 0 0 0 1 0 0 0 0 0", "refused 2"),
        ("4 0 0 0 0 0 0 0 0 0 3 3 1", "refused 2"),
        ("3 0 0 0 0 0 0 0 0 0 7 0 0", "refused 3"),
        ("1 0 0 0 0 0 0 0 0 0 0 0 1", "refused 3"),
        ("0 0 0 0 0 0 0 0 0 0 0 0", "?"),
        ("0 0 0 0 0 0 0 0 0 0 0 0 0 20 0", "?"),
    ];
    for (request, expected) in cases {
        assert_eq!(ask(&format!("total {}", request)), expected, "{}", request);
    }
}

#[test]
fn scales() {
    let cases = [
        ("0001000001000002010002000101000107", "scales 2"),
        ("0000000000000001010000", "scales 1"),
        ("000000000000000180a0fc8d080000", "scales 2176782336"),
        ("-", "refused 14 at 0"),
        ("000000000000000101000080", "refused 7 at 11"),
        ("00000000000000010100", "refused 14 at 10"),
        ("05", "refused 7 at 0"),
        ("0", "?"),
    ];
    for (roll, expected) in cases {
        assert_eq!(ask(&format!("scales {}", roll)), expected, "{}", roll);
    }
    // Seven bytes a term, and ten before them.
    let most = 149_794 * u64::from(NOW.scale);
    let roll = rolls::of_largest_scales(1_048_572);
    assert_eq!(roll.len(), 10 + 7 * 149_794);
    assert_eq!(ask_scales(&roll), format!("scales {}", most));
}

/// The largest sum of all: every term that the cap lets through with the largest scale.
#[test]
fn the_largest_sum() {
    let term = Term {
        scale: NOW.scale,
        ..Term::default()
    };
    let roll = second::write_roll(0, &[0; 12], &vec![term; NOW.terms as usize]);
    let (_, terms) = NOW.check(&roll).expect("the roll reads");
    assert_eq!(second::scales(&terms), 2_282_519_537_971_200);
}

/// For every request of the three kinds within the limits, by the second reading's step rules.
/// tests/agreement.rs holds the Rust's own scales to the same numbers up to an order sum of 4.
#[test]
fn the_rule_holds_for_every_request() {
    for (kind, count) in [(0, 7_056), (2, 7_056), (3, 592_704)] {
        let totals = second::totals(kind);
        assert_eq!(totals.len(), count);
        for (orders, total) in totals {
            let by_hand = second::by_hand(kind, &orders);
            assert_eq!(by_hand, total, "{} {:?}", kind, orders);
        }
    }
}

/// Above 200,000 terms the second reading answers; the Rust gives the same.
#[test]
fn long_lists_have_the_same_total() {
    let mut random = Random::new(12);
    let mut held = vec![[6, 0, 0, 6, 0, 0, 0, 0, 0, 0, 0, 0]];
    held.extend((0..3).map(|_| requests::any_of(&mut random, 2, 200_001..=400_000)));
    for orders in held {
        let counted = second::count_histories(2, &orders, NOW.terms);
        assert!(counted > 200_000);
        assert_eq!(rust_side::total(2, &orders), second::total(2, &orders));
    }
}

#[test]
fn a_roll_has_the_total_of_its_request() {
    let mut random = Random::new(13);
    for at in 0..300 {
        let kind = [0, 2, 3][at % 3];
        let orders = requests::short(&mut random, kind);
        let words: Vec<String> = orders.iter().map(u8::to_string).collect();
        let total = ask(&format!("total {} {}", kind, words.join(" ")));
        let scales = ask_scales(&rust_side::roll(kind, &orders));
        assert_eq!(total.replace("total", "scales"), scales);
    }
}

/// Requests by their orders along x, y and z, with the Rust's totals.
fn by_sums(kind: u8, l: u8) -> BTreeMap<[u8; 3], BTreeMap<u64, Vec<[u8; 12]>>> {
    let mut found: BTreeMap<_, BTreeMap<_, Vec<_>>> = BTreeMap::new();
    for orders in requests::every_within(kind, l) {
        if orders.iter().sum::<u8>() == l {
            let sum = |axis: usize| orders.iter().skip(axis).step_by(3).sum();
            let total = rust_side::total(kind, &orders);
            let alike = found.entry([sum(0), sum(1), sum(2)]).or_default();
            alike.entry(total).or_default().push(orders);
        }
    }
    found
}

/// docs/DECISIONS.md has these: the totals of kinetic and Coulomb do not go by the sums along the
/// axes alone, from L = 2 on.
#[test]
fn kinetic_and_coulomb_have_no_such_rule() {
    let x = |a: u8, b: u8, c: u8, d: u8| [a, 0, 0, b, 0, 0, c, 0, 0, d, 0, 0];
    for kind in [1, 4] {
        for l in 0..2 {
            assert!(by_sums(kind, l).values().all(|alike| alike.len() == 1));
        }
    }
    let kinetic = &by_sums(1, 2)[&[2, 0, 0]];
    assert_eq!(kinetic[&6], [x(2, 0, 0, 0), x(0, 2, 0, 0)]);
    assert_eq!(kinetic[&5], [x(1, 1, 0, 0)]);
    let coulomb = &by_sums(4, 2)[&[2, 0, 0]];
    assert!(coulomb[&6].contains(&x(2, 0, 0, 0)) && coulomb[&6].contains(&x(1, 1, 0, 0)));
    assert!(coulomb[&5].contains(&x(1, 0, 1, 0)) && coulomb[&5].contains(&x(0, 1, 0, 1)));
    // Kinetic axes mix: 2 for x alone and for y alone, but 3 for both.
    let along = |x: u8, y: u8| rust_side::total(1, &[x, y, 0, 0, 0, 0, 0, 0, 0, 0, 0, 0]);
    assert_eq!([along(1, 0), along(0, 1), along(1, 1)], [2, 2, 3]);
}
