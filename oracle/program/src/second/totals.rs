//! The scales of all terms added up: by the step rules, and by hand as 02 says.

use super::steps::{each_term, Term};

/// The sum of the scales of these terms. A million scales below 2^32 stay below 2^52.
pub fn scales(terms: &[Term]) -> u64 {
    terms.iter().map(|term| u64::from(term.scale)).sum()
}

/// The same of a request's terms, for orders within the limits and the cap.
pub fn total(kind: u8, orders: &[u8; 12]) -> u64 {
    let mut sum = 0;
    each_term(kind, orders, &mut |term| sum += u64::from(term.scale));
    sum
}

/// Overlap, nuclear and moment have a total by hand; of kinetic and Coulomb none is claimed.
pub fn is_claimed(kind: u8) -> bool {
    matches!(kind, 0 | 2 | 3)
}

/// The product of three numbers of the kind's list, for the orders along x, y and z summed over
/// the centres and the operator.
pub fn by_hand(kind: u8, orders: &[u8; 12]) -> u64 {
    let summed = |axis: usize| {
        orders
            .iter()
            .skip(axis)
            .step_by(3)
            .map(|&o| u64::from(o))
            .sum()
    };
    (0..3).map(|axis| numbered(kind, summed(axis))).product()
}

/// The list's number p: it starts 1, 1 and goes on as the last plus (p - 1) times the one before;
/// nuclear starts 1, 2 and goes on as twice the last plus 2(p - 1) times the one before.
fn numbered(kind: u8, p: u64) -> u64 {
    let times = if kind == 2 { 2 } else { 1 };
    let (mut before, mut last) = (1, times);
    if p == 0 {
        return before;
    }
    for p in 2..=p {
        let next = times * last + times * (p - 1) * before;
        before = last;
        last = next;
    }
    last
}
