//! The element of two contracted functions.

use super::geometry::geometry_and_table;
use super::steps::Term;
use crate::parse::{Centre, Contracted};

/// What an element is made of, each of which may be refused by 11: the values of the pairs, the inner
/// sums, and the element itself.
pub struct Element {
    pub values: Vec<f64>,
    pub inner: Vec<f64>,
    pub element: f64,
}

/// For each right primitive the sum from 0.0 over the left ones of ca ((na nb) v); then the sum from
/// 0.0 of cb times these. The pair of left i and right j has the host number j (left count) + i.
pub fn element(kind: u8, terms: &[Term], asked: &Contracted) -> Element {
    let pairs = asked.centres().zip(&asked.host);
    let values: Vec<f64> = pairs
        .map(|(centres, &aux)| value_of_pair(kind, terms, &centres, aux))
        .collect();
    let (left, right) = (&asked.left.list, &asked.right.list);
    let mut inner = Vec::new();
    for (j, b) in right.iter().enumerate() {
        let mut sum = 0.0;
        for (i, a) in left.iter().enumerate() {
            sum += a.coefficient * ((a.norm * b.norm) * values[j * left.len() + i]);
        }
        inner.push(sum);
    }
    let mut element = 0.0;
    for (b, sum) in right.iter().zip(&inner) {
        element += b.coefficient * sum;
    }
    Element {
        values,
        inner,
        element,
    }
}

/// The sum from 0.0, in list order, of scale times aux times g. A kinetic term with no prefactor above
/// 7 starts g at e (3.0 - 2.0 e ab), any other at 1.0.
fn value_of_pair(kind: u8, terms: &[Term], centres: &[Centre; 4], aux: f64) -> f64 {
    let (numbers, table) = geometry_and_table(kind, centres);
    // z, e and ab come first.
    let (e, ab) = (numbers[1], numbers[2]);
    let mut sum = 0.0;
    for term in terms {
        let stays_kinetic = kind == 1 && term.prefactors.iter().all(|&p| p <= 7);
        let mut g = if stays_kinetic {
            e * (3.0 - 2.0 * e * ab)
        } else {
            1.0
        };
        for &prefactor in &term.prefactors {
            g *= table[usize::from(prefactor)];
        }
        sum += f64::from(term.scale) * aux * g;
    }
    sum
}
