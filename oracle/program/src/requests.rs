//! Requests for questions: every one of a kind, any one, short ones, and some around the cap.

use crate::random::Random;
use crate::rust_side;
use crate::second::{self, NOW};
use std::ops::RangeInclusive;

/// The orders that a centre may have up to this sum, as the shells list them.
fn triples(most: u8) -> Vec<[u8; 3]> {
    let list: Vec<u8> = (0..=most).flat_map(rust_side::shell_list).collect();
    list.chunks(3).map(|t| [t[0], t[1], t[2]]).collect()
}

/// Every request of a kind that is within the limits, the first centre's orders fastest.
pub fn every(kind: u8) -> Vec<[u8; 12]> {
    every_within(kind, NOW.order_sum)
}

/// The same up to this order sum on a centre and on the operator.
pub fn every_within(kind: u8, most: u8) -> Vec<[u8; 12]> {
    let triples = triples(most);
    let mut requests = vec![[0; 12]];
    for centre in (0..second::orders_used(kind) / 3).rev() {
        let mut longer = Vec::new();
        for request in &requests {
            for triple in &triples {
                let mut orders = *request;
                orders[3 * centre..3 * centre + 3].copy_from_slice(triple);
                longer.push(orders);
            }
        }
        requests = longer;
    }
    requests
}

/// A request within the limits, each as likely as any other. Of the Coulomb ones nine in ten
/// are beyond the cap.
pub fn any(random: &mut Random, kind: u8) -> [u8; 12] {
    let triples = triples(NOW.order_sum);
    let mut orders = [0; 12];
    for centre in orders[..second::orders_used(kind)].chunks_mut(3) {
        centre.copy_from_slice(&random.one_of(&triples));
    }
    orders
}

/// Any of those with so many terms.
pub fn any_of(random: &mut Random, kind: u8, terms: RangeInclusive<u32>) -> [u8; 12] {
    loop {
        let orders = any(random, kind);
        let count = second::count_histories(kind, &orders, *terms.end());
        if terms.contains(&count) {
            return orders;
        }
    }
}

/// A list of so many terms is short: many can be asked for.
const SHORT: u32 = 5_000;

/// A request whose list is short.
pub fn short(random: &mut Random, kind: u8) -> [u8; 12] {
    loop {
        let orders = low_orders(random, kind);
        if second::count_histories(kind, &orders, SHORT) <= SHORT {
            return orders;
        }
    }
}

/// A request of at most three orders of 1 in all: few terms.
pub fn small(random: &mut Random, kind: u8) -> [u8; 12] {
    let mut orders = [0; 12];
    for _ in 0..random.below(4) {
        orders[random.index(second::orders_used(kind))] += 1;
    }
    orders
}

/// Coulomb has low orders on all centres, or any on one or two: long histories, few of them.
fn low_orders(random: &mut Random, kind: u8) -> [u8; 12] {
    let all = u64::from(NOW.order_sum);
    let mut orders = [0; 12];
    if kind == 4 && random.once_in(3) {
        for _ in 0..2 {
            let at = 3 * random.index(4);
            orders[at..at + 3].copy_from_slice(&centre_orders(random, all));
        }
        return orders;
    }
    let most = match kind {
        4 => random.from_to(0, 2),
        _ => all,
    };
    for centre in orders[..second::orders_used(kind)].chunks_mut(3) {
        centre.copy_from_slice(&centre_orders(random, most));
    }
    orders
}

/// Orders of one centre with a sum of at most `most`.
fn centre_orders(random: &mut Random, most: u64) -> [u8; 3] {
    let mut left = random.from_to(0, most);
    let mut orders = [0; 3];
    if random.once_in(3) {
        // All on one axis: scales above 1 come up here.
        orders[random.index(3)] = left as u8;
        return orders;
    }
    for order in orders.iter_mut() {
        let taken = random.from_to(0, left);
        *order = taken as u8;
        left -= taken;
    }
    orders
}

/// Up to so many terms the Rust lists in a tenth of a second, and a roll fits a question's line.
pub const LONG: u32 = 50_000;

/// Mostly a short one; the Rust takes two seconds for a list as long as the cap.
pub fn of_any_size(random: &mut Random, kind: u8) -> [u8; 12] {
    match (random.below(1_200), kind) {
        (0, 4) => random.one_of(&AT_THE_CAP),
        (0..=3, _) => any(random, kind),
        (4..=60, 4) => beyond_the_cap(random),
        (4..=80, _) => any_of(random, kind, 1..=LONG),
        _ => short(random, kind),
    }
}

/// A Coulomb request with more terms than the cap lets through.
pub fn beyond_the_cap(random: &mut Random) -> [u8; 12] {
    loop {
        let orders = any(random, 4);
        if second::count_histories(4, &orders, NOW.terms) > NOW.terms {
            return orders;
        }
    }
}

/// A Coulomb request within the cap. One in fifty may have as many terms as the cap lets
/// through.
pub fn within_the_cap(random: &mut Random) -> [u8; 12] {
    let most = match random.below(50) {
        0 => NOW.terms,
        1..=4 => 2 * LONG,
        _ => LONG / 2,
    };
    any_of(random, 4, 1..=most)
}

/// A Coulomb request with at least half and at most twice as many terms as the cap lets
/// through; one in ten within a hundredth of it.
pub fn around_the_cap(random: &mut Random) -> [u8; 12] {
    let cap = NOW.terms;
    match random.below(20) {
        0 => random.one_of(&AT_THE_CAP),
        1 => any_of(random, 4, cap - cap / 100..=cap + cap / 100),
        _ => any_of(random, 4, cap / 2..=2 * cap),
    }
}

/// Coulomb: the most terms that the cap lets through (1,048,572), and the fewest that it does
/// not (1,048,576).
pub const AT_THE_CAP: [[u8; 12]; 2] = [
    [2, 1, 0, 2, 0, 2, 1, 3, 0, 1, 0, 2],
    [1, 1, 0, 2, 1, 1, 0, 0, 4, 0, 2, 2],
];

/// Moment: the longest roll of the Rust's own terms that the listing takes (65,532 bytes), and
/// the shortest that it does not (65,540 bytes).
pub const AT_THE_LISTING: [[u8; 12]; 2] = [
    [4, 2, 0, 2, 2, 0, 2, 2, 0, 0, 0, 0],
    [0, 1, 5, 5, 1, 0, 5, 0, 0, 0, 0, 0],
];

/// The length of a request's roll in form 1; some number where there is none.
pub fn length_expanded(kind: u8, orders: &[u8; 12]) -> u64 {
    match second::check_measured(kind, orders) {
        Ok(()) => second::measure(kind, orders).0 as u64,
        Err(_) => 100,
    }
}
