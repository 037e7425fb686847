//! The checks of each call but the roll's, in the order in which they refuse.

use super::form::Form;
use super::limits::{orders_used, LARGEST_CHARGE, LARGEST_MATRIX, NOW};
use super::limits::{MOST_NUCLEI, MOST_PRIMITIVES};
use super::profile::check_profile;
use super::refusal::{refusal, Refusal};
use super::roll::Header;
use super::steps::count_histories;
use crate::parse::{Centre, Contracted, Lengths, Nuclei};

// Shells

/// Shell list: 2, 5, 6.
pub fn check_shell(m: u8, buffer: usize, start: u64) -> Result<(), Refusal> {
    if m > NOW.order_sum {
        return Err(refusal(2));
    }
    let m = usize::from(m);
    fits(3 * (m + 1) * (m + 2) / 2, buffer, start)
}

/// Component by number: 2, 13.
pub fn check_component(shells: &[u8], number: u32) -> Result<(), Refusal> {
    if shells.iter().any(|&m| m > NOW.order_sum) {
        return Err(refusal(2));
    }
    let count: u32 = shells
        .iter()
        .map(|&m| (u32::from(m) + 1) * (u32::from(m) + 2) / 2)
        .product();
    if number >= count {
        return Err(refusal(13));
    }
    Ok(())
}

/// 5: the start place is beyond the buffer's end.
fn check_start(buffer: usize, start: u64) -> Result<(), Refusal> {
    if start > buffer as u64 {
        return Err(refusal(5));
    }
    Ok(())
}

fn fits(length: usize, buffer: usize, start: u64) -> Result<(), Refusal> {
    check_start(buffer, start)?;
    if length > buffer - start as usize {
        return Err(refusal(6));
    }
    Ok(())
}

// Expansion, measuring and the total

/// 1, 2, 3: the kind and the twelve orders.
fn check_orders(kind: u8, orders: &[u8; 12]) -> Result<(), Refusal> {
    if kind > 4 {
        return Err(refusal(1));
    }
    let (used, unused) = orders.split_at(orders_used(kind));
    let sum = |centre: &[u8]| centre.iter().map(|&o| u32::from(o)).sum::<u32>();
    if used
        .chunks(3)
        .any(|centre| sum(centre) > NOW.order_sum.into())
    {
        return Err(refusal(2));
    }
    if unused.iter().any(|&o| o != 0) {
        return Err(refusal(3));
    }
    Ok(())
}

/// 4: more complete histories than the cap.
fn check_count(kind: u8, orders: &[u8; 12]) -> Result<(), Refusal> {
    if count_histories(kind, orders, NOW.terms) > NOW.terms {
        return Err(refusal(4));
    }
    Ok(())
}

/// Expansion: 1, 2, 3, 5, 4 here; 6 once the roll's length is known.
pub fn check_request(
    kind: u8,
    orders: &[u8; 12],
    buffer: usize,
    start: u64,
) -> Result<(), Refusal> {
    check_orders(kind, orders)?;
    check_start(buffer, start)?;
    check_count(kind, orders)
}

/// Measuring: 1, 2, 3, 4. There is no buffer.
pub fn check_measured(kind: u8, orders: &[u8; 12]) -> Result<(), Refusal> {
    check_orders(kind, orders)?;
    check_count(kind, orders)
}

/// The total: 1, 2, 3. There is no list, and so no 4.
pub fn check_total(kind: u8, orders: &[u8; 12]) -> Result<(), Refusal> {
    check_orders(kind, orders)
}

/// The small cabinet's expansion: 1, 2, 3, 19 here; 5 and 6 once the roll's length is known. 4 is never
/// given.
pub fn check_small_request(kind: u8, orders: &[u8; 12]) -> Result<(), Refusal> {
    check_orders(kind, orders)?;
    check_profile(Form::One, kind, orders)
}

/// 6: the whole roll doesn't fit from the start place on.
pub fn check_room(length: usize, buffer: usize, start: u64) -> Result<(), Refusal> {
    fits(length, buffer, start)
}

// Evaluation, table, J and K

/// How many centres give their exponent, and how many their coordinates.
fn centres_used(kind: u8) -> (usize, usize) {
    match kind {
        0 | 1 => (2, 2),
        2 | 3 => (2, 3),
        _ => (4, 4),
    }
}

/// 8: a used input float is not finite.
fn check_finite(kind: u8, centres: &[Centre; 4], others: &[f64]) -> Result<(), Refusal> {
    let (exponents, coordinates) = centres_used(kind);
    let finite = centres[..exponents].iter().all(|c| c.z.is_finite())
        && centres[..coordinates]
            .iter()
            .all(|c| c.r.iter().all(|x| x.is_finite()))
        && others.iter().all(|x| x.is_finite());
    if finite {
        Ok(())
    } else {
        Err(refusal(8))
    }
}

/// 9: a used exponent is 0 or less.
fn check_exponents(kind: u8, centres: &[Centre; 4]) -> Result<(), Refusal> {
    let (exponents, _) = centres_used(kind);
    if centres[..exponents].iter().any(|c| c.z <= 0.0) {
        return Err(refusal(9));
    }
    Ok(())
}

/// 17: the nucleus, which is C, has a charge above the limit. Nuclear evaluations only; no other
/// charge is looked at.
fn check_charge(kind: u8, centres: &[Centre; 4]) -> Result<(), Refusal> {
    if kind == 2 && centres[2].charge > LARGEST_CHARGE {
        return Err(refusal(17));
    }
    Ok(())
}

/// Evaluation after 7 and 14: 17, 8, 9, 10. 11 is for geometry, table and result.
pub fn check_evaluation(
    header: &Header,
    centres: &[Centre; 4],
    aux: f64,
    boys: &[f64],
) -> Result<(), Refusal> {
    check_charge(header.kind, centres)?;
    check_finite(header.kind, centres, &[aux])?;
    if boys.iter().any(|f| !f.is_finite()) {
        return Err(refusal(8));
    }
    check_exponents(header.kind, centres)?;
    let asked = match header.kind {
        2 | 4 => usize::from(header.l) + 1,
        _ => 0,
    };
    if boys.len() != asked {
        return Err(refusal(10));
    }
    Ok(())
}

/// A list of nuclei after 7 and 14: 1, 17, 8, 9, 10, each over all nuclei before the next. 11 is for
/// geometry and table of each, and for the sum.
pub fn check_nuclei(header: &Header, asked: &Nuclei) -> Result<(), Refusal> {
    if header.kind != 2 {
        return Err(refusal(1));
    }
    if !(1..=MOST_NUCLEI).contains(&asked.count) {
        return Err(refusal(17));
    }
    let each = || asked.list.iter().map(|nucleus| asked.centres(nucleus));
    each().try_for_each(|centres| check_charge(2, &centres))?;
    each().try_for_each(|centres| check_finite(2, &centres, &[asked.aux]))?;
    if asked.boys.iter().any(|f| !f.is_finite()) {
        return Err(refusal(8));
    }
    each().try_for_each(|centres| check_exponents(2, &centres))?;
    if asked.boys.len() != asked.list.len() * (usize::from(header.l) + 1) {
        return Err(refusal(10));
    }
    Ok(())
}

/// Contracted functions before 7 and 14: 15 for either count, then 16 for the host's list.
pub fn check_counts(asked: &Contracted) -> Result<(), Refusal> {
    let (left, right) = (asked.left.count, asked.right.count);
    let range = 1..=MOST_PRIMITIVES;
    if !range.contains(&left) || !range.contains(&right) {
        return Err(refusal(15));
    }
    if asked.host.len() != usize::from(left) * usize::from(right) {
        return Err(refusal(16));
    }
    Ok(())
}

/// Contracted functions after 7 and 14: 1, 8, 9, each over all pairs before the next. 10 never comes,
/// since no Boys numbers are lent; 11 is for geometry, tables, values and sums.
pub fn check_contracted(kind: u8, asked: &Contracted) -> Result<(), Refusal> {
    if kind != 0 && kind != 1 {
        return Err(refusal(1));
    }
    for ((left, right), centres) in asked.pairs().zip(asked.centres()) {
        let others = [left.norm, left.coefficient, right.norm, right.coefficient];
        check_finite(kind, &centres, &others)?;
    }
    if asked.host.iter().any(|aux| !aux.is_finite()) {
        return Err(refusal(8));
    }
    let mut all = asked.centres();
    all.try_for_each(|centres| check_exponents(kind, &centres))
}

/// What a term takes of the grouping buffer.
pub const BYTES_OF_AN_ENTRY: usize = 40;

/// Grouping after 7 and 14, before 8: 6 where the buffer is too short for a Coulomb roll's terms.
/// For other kinds it is not looked at.
pub fn check_grouping(header: &Header, buffer: usize) -> Result<(), Refusal> {
    if header.kind == 4 && buffer < BYTES_OF_AN_ENTRY * header.count as usize {
        return Err(refusal(6));
    }
    Ok(())
}

/// Prefactor table: 1, 8, 9. 11 is for geometry and table.
pub fn check_table(kind: u8, centres: &[Centre; 4]) -> Result<(), Refusal> {
    if kind > 4 {
        return Err(refusal(1));
    }
    check_finite(kind, centres, &[])?;
    check_exponents(kind, centres)
}

/// Root: 8 for what is not finite, then 18 for what is below 0, which -0.0 is not.
pub fn check_root(x: f64) -> Result<(), Refusal> {
    if !x.is_finite() {
        return Err(refusal(8));
    }
    if x < 0.0 {
        return Err(refusal(18));
    }
    Ok(())
}

/// 11: something worked out is not finite.
pub fn check_results(lists: &[&[f64]]) -> Result<(), Refusal> {
    if lists.iter().all(|list| list.iter().all(|x| x.is_finite())) {
        Ok(())
    } else {
        Err(refusal(11))
    }
}

/// J and K: 12, 8; 11 is for the results.
pub fn check_matrices(n: u64, lengths: &Lengths, i: &[f64], d: &[f64]) -> Result<(), Refusal> {
    if !(1..=LARGEST_MATRIX).contains(&n) {
        return Err(refusal(12));
    }
    let n = n as usize;
    let right = Lengths {
        i: n * n * n * n,
        d: n * n,
        j: n * n,
        k: n * n,
    };
    if *lengths != right {
        return Err(refusal(12));
    }
    if i.iter().chain(d).any(|x| !x.is_finite()) {
        return Err(refusal(8));
    }
    Ok(())
}
