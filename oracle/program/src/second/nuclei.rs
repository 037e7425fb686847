//! The nuclear value of one nucleus, and the sum over a list of them.

use super::geometry::geometry_and_table;
use super::steps::Term;
use crate::parse::Nuclei;

/// The charge as f64 times the old value: the sum from 0.0, in list order, of scale times aux
/// times g times F of the term's Boys order.
pub fn value_of_nucleus(charge: u32, terms: &[Term], table: &[f64], aux: f64, boys: &[f64]) -> f64 {
    let mut sum = 0.0;
    for term in terms {
        let mut g = 1.0;
        for &prefactor in &term.prefactors {
            g *= table[usize::from(prefactor)];
        }
        sum += f64::from(term.scale) * aux * g * boys[usize::from(term.boys)];
    }
    f64::from(charge) * sum
}

/// From 0.0, in list order, for a roll of this L. One aux serves all nuclei; each has the L+1 Boys
/// numbers after those of the one before it.
pub fn sum_of_nuclei(l: u8, terms: &[Term], asked: &Nuclei) -> f64 {
    let each = usize::from(l) + 1;
    let mut sum = 0.0;
    for (before, nucleus) in asked.list.iter().enumerate() {
        let (_, table) = geometry_and_table(2, &asked.centres(nucleus));
        let boys = &asked.boys[before * each..][..each];
        sum += value_of_nucleus(nucleus.charge, terms, &table, asked.aux, boys);
    }
    sum
}
