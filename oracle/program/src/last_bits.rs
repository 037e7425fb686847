//! How often J or K of JK_direct has other bits than that of JK_inmem where I and D are symmetric,
//! so that the two are the same but for rounding.

use crate::random::Random;
use crate::{matrices, rust_side};

/// Of so many cases those in which some entry of J, or of K, differs.
#[derive(Debug, PartialEq)]
pub struct Differ {
    pub j: u64,
    pub k: u64,
}

pub fn count(n: usize, cases: u64, seed: u64) -> Differ {
    let mut random = Random::new(seed);
    let bits = |list: &[f64]| -> Vec<u64> { list.iter().map(|x| x.to_bits()).collect() };
    let mut differ = Differ { j: 0, k: 0 };
    for _ in 0..cases {
        let (i, d) = matrices::symmetric(&mut random, n);
        let direct = rust_side::j_and_k(n, &i, &d);
        let in_memory = rust_side::j_and_k_in_memory(n, &i, &d);
        differ.j += u64::from(bits(&direct.0) != bits(&in_memory.0));
        differ.k += u64::from(bits(&direct.1) != bits(&in_memory.1));
    }
    differ
}
