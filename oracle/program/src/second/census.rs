//! Every request of a kind counted, each from those that its steps lead to.

use super::limits::{orders_used, NOW};
use super::roll::measure;
use super::steps::legal;
use std::cmp::Reverse;
use std::convert::TryFrom;

/// What is known of the terms of a request. `scales` and `prefactors` are those of all terms
/// together; they stop at the largest u32, which is far above what the cap lets through.
#[derive(Clone, Copy, Default)]
struct Known {
    terms: u64,
    largest_scale: u32,
    scales: u32,
    prefactors: u32,
}

/// The one term of a request without orders.
const COMPLETE: Known = Known {
    terms: 1,
    largest_scale: 1,
    scales: 1,
    prefactors: 0,
};

impl Known {
    /// Adds the terms that a branch leads to.
    fn add(&mut self, ahead: &Known, multiplier: u8) {
        let scaled = |scale: u32| scale.saturating_mul(multiplier.into());
        let terms = u32::try_from(ahead.terms).unwrap_or(u32::MAX);
        let prefactors = ahead.prefactors.saturating_add(terms);
        self.terms += ahead.terms;
        self.largest_scale = self.largest_scale.max(scaled(ahead.largest_scale));
        self.scales = self.scales.saturating_add(scaled(ahead.scales));
        self.prefactors = self.prefactors.saturating_add(prefactors);
    }

    fn is_within(&self) -> bool {
        self.terms <= NOW.terms.into()
    }

    /// The terms take at least so many bytes: one each for scale, Boys order and count.
    fn least_bytes(&self) -> u64 {
        3 * self.terms + u64::from(self.prefactors)
    }

    /// The further bytes of a scale are at most a 127th of what it has above 1. The header's
    /// count takes at most two bytes more than that of another request.
    fn most_bytes(&self) -> u64 {
        self.least_bytes() + (u64::from(self.scales) - self.terms) / 127 + 2
    }
}

/// Every triple within the limit, by sum, then as a shell lists them.
fn triples() -> Vec<[u8; 3]> {
    let mut list = Vec::new();
    for m in 0..=NOW.order_sum {
        for rest in 0..=m {
            list.extend((0..=rest).map(|z| [m - rest, rest - z, z]));
        }
    }
    list
}

/// A triple's place in that list.
fn triple_number(triple: &[u8]) -> usize {
    let [x, y, z] = [triple[0], triple[1], triple[2]].map(usize::from);
    let (m, rest) = (x + y + z, y + z);
    m * (m + 1) * (m + 2) / 6 + rest * (rest + 1) / 2 + z
}

/// Every request of a kind, the last centre's orders fastest. A step lowers the number of a
/// triple and raises none, so it leads to a request that comes before.
struct Census {
    kind: u8,
    triples: Vec<[u8; 3]>,
    requests: Vec<Known>,
}

impl Census {
    fn of(kind: u8) -> Census {
        let triples = triples();
        let count = triples.len().pow(orders_used(kind) as u32 / 3);
        let mut census = Census {
            kind,
            triples,
            requests: Vec::with_capacity(count),
        };
        let overlap = if kind == 1 { Some(Census::of(0)) } else { None };
        for number in 0..count {
            let known = census.known(&census.orders(number), overlap.as_ref());
            census.requests.push(known);
        }
        census
    }

    /// A request's terms; a kinetic one also goes on as overlap.
    fn known(&self, orders: &[u8; 12], overlap: Option<&Census>) -> Known {
        if *orders == [0; 12] {
            return COMPLETE;
        }
        let mut all = Known::default();
        for branch in legal(self.kind, orders) {
            let (kind, left) = branch.leads_to(self.kind, orders);
            let ahead = overlap.filter(|_| kind == 0).unwrap_or(self);
            all.add(&ahead.requests[ahead.number(&left)], branch.multiplier);
        }
        all
    }

    fn orders(&self, number: usize) -> [u8; 12] {
        let mut rest = number;
        let mut orders = [0; 12];
        for centre in orders[..orders_used(self.kind)].chunks_mut(3).rev() {
            centre.copy_from_slice(&self.triples[rest % self.triples.len()]);
            rest /= self.triples.len();
        }
        orders
    }

    fn number(&self, orders: &[u8; 12]) -> usize {
        let centres = orders[..orders_used(self.kind)].chunks(3);
        centres.fold(0, |number, centre| {
            number * self.triples.len() + triple_number(centre)
        })
    }

    /// By L: all requests, and those of them that are over the cap.
    fn by_l(&self) -> Vec<(u64, u64)> {
        let mut by_l = vec![(0, 0); usize::from(NOW.l(self.kind)) + 1];
        for (number, known) in self.requests.iter().enumerate() {
            let l: u8 = self.orders(number).iter().sum();
            let (all, over) = &mut by_l[usize::from(l)];
            *all += 1;
            *over += u64::from(!known.is_within());
        }
        by_l
    }

    /// The numbers of the requests within the cap.
    fn within(&self) -> impl Iterator<Item = usize> + '_ {
        (0..self.requests.len()).filter(move |&number| self.requests[number].is_within())
    }

    /// Of these, each that may have the longest roll: the most bytes that any other takes are
    /// fewer than the least that one takes.
    fn may_be_longest(&self) -> impl Iterator<Item = usize> + '_ {
        let least = self.within().map(|n| self.requests[n].least_bytes()).max();
        self.within()
            .filter(move |&number| Some(self.requests[number].most_bytes()) >= least)
    }

    /// The largest of what these requests have, and the first of those that have it.
    fn largest<I: Iterator<Item = usize>>(&self, these: I, has: impl Fn(usize) -> u64) -> Found {
        let largest = these.map(|number| (has(number), Reverse(number))).max();
        let (has, Reverse(number)) = largest.expect("the cap lets some request through");
        (has, self.orders(number))
    }
}

/// Every request of kinds 0 to 3 and the total of its scales, which u32 holds.
pub fn totals(kind: u8) -> Vec<([u8; 12], u64)> {
    let census = Census::of(kind);
    let total = |number: usize| u64::from(census.requests[number].scales);
    (0..census.requests.len())
        .map(|number| (census.orders(number), total(number)))
        .collect()
}

/// A number, and the first request that has it.
pub type Found = (u64, [u8; 12]);

/// What the requests of a kind show.
pub struct Facts {
    /// By L: all requests, and those of them that are over the cap.
    pub by_l: Vec<(u64, u64)>,
    pub most_terms: Found,
    pub most_terms_within: Found,
    /// None where the cap lets all through.
    pub fewest_terms_over: Option<Found>,
    pub largest_scale_within: Found,
    pub longest_roll_within: Found,
}

/// Counts all requests of a kind from 0 to 4. Coulomb takes two minutes and 1.2 GB.
pub fn facts(kind: u8) -> Facts {
    let census = Census::of(kind);
    let all = || 0..census.requests.len();
    let terms = |number: usize| census.requests[number].terms;
    let scale = |number: usize| census.requests[number].largest_scale.into();
    let length = |number: usize| measure(kind, &census.orders(number)).0 as u64;
    let over = all().filter(|&number| !census.requests[number].is_within());
    let fewest = over.map(|number| (terms(number), number)).min();
    Facts {
        by_l: census.by_l(),
        most_terms: census.largest(all(), terms),
        most_terms_within: census.largest(census.within(), terms),
        fewest_terms_over: fewest.map(|(terms, number)| (terms, census.orders(number))),
        largest_scale_within: census.largest(census.within(), scale),
        longest_roll_within: census.largest(census.may_be_longest(), length),
    }
}
