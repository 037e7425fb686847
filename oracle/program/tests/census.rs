//! What a count of all requests of a kind shows.

use oracle::rust_side;
use oracle::second::{facts, Facts};

/// Most terms, longest roll, largest scale; the cap lets all through.
fn most(kind: u8) -> (u64, u64, u64) {
    let facts = facts(kind);
    assert!(facts.by_l.iter().all(|&(_, over)| over == 0));
    assert_eq!(facts.fewest_terms_over, None);
    assert_eq!(facts.most_terms, facts.most_terms_within);
    let (terms, largest) = facts.most_terms;
    let (length, longest) = facts.longest_roll_within;
    assert_eq!(rust_side::terms(kind, &largest).len() as u64, terms);
    assert_eq!(rust_side::roll(kind, &longest).len() as u64, length);
    (terms, length, facts.largest_scale_within.0)
}

#[test]
fn kinds_0_to_3() {
    assert_eq!(most(0), (895, 10_458, 1_800));
    assert_eq!(most(1), (10_265, 127_541, 1_800));
    assert_eq!(most(2), (380_480, 4_665_226, 1_800));
    assert_eq!(most(3), (185_377, 2_971_075, 216_000));
}

/// Takes two minutes and 1.2 GB.
#[test]
#[ignore]
fn coulomb() {
    let Facts {
        by_l,
        most_terms,
        most_terms_within,
        fewest_terms_over,
        largest_scale_within,
        longest_roll_within,
    } = facts(4);
    let all: u64 = by_l.iter().map(|&(all, _)| all).sum();
    let over: Vec<u64> = by_l.iter().map(|&(_, over)| over).collect();
    assert_eq!((all, over.iter().sum()), (49_787_136, 44_507_830_u64));
    assert_eq!(over[..=12], [0; 13]);
    assert_eq!(over[13..=14], [1_116, 1_114_254]);
    assert!(by_l[15..].iter().all(|(all, over)| all == over));
    assert_eq!(most_terms.0, 905_995_238_216);
    assert_eq!(most_terms_within.0, 1_048_572);
    assert_eq!(fewest_terms_over.map(|found| found.0), Some(1_048_576));
    assert_eq!(largest_scale_within.0, 5_760);
    assert_eq!(longest_roll_within.0, 15_001_920);
    let roll = rust_side::roll(4, &longest_roll_within.1);
    assert_eq!(roll.len(), 15_001_920);
}
