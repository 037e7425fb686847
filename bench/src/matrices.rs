//! J and K: JK_direct's own loops fed with I, JK_inmem, and ours (02, Q-3).

use crate::raw;
use crate::timing::{in_turn, Call};
use ndarray::Array;
use rchem::{basis, direct};
use std::time::Duration;

pub const SIZES: [usize; 2] = [4, 16];

/// Numbers from 0 to 1 without any symmetry.
fn numbers(count: usize) -> Vec<f64> {
    (0..count)
        .map(|at| (at * 7919 % 10_007) as f64 / 10_007.0)
        .collect()
}

fn bits(matrices: [&[f64]; 2]) -> Vec<u64> {
    let entries = matrices.iter().flat_map(|matrix| matrix.iter());
    entries.map(|entry| entry.to_bits()).collect()
}

/// Nanoseconds of a call: JK_direct, JK_inmem, ours. Ours has to give the bits of JK_direct.
pub fn times(n: usize, time: Duration) -> Result<[f64; 3], String> {
    let (i, d) = (numbers(n.pow(4)), numbers(n.pow(2)));
    let functions = direct::give(n, &i);
    let mut tensor = Array::zeros((n, n, n, n));
    tensor.entries_mut().copy_from_slice(&i);
    let mut density = Array::zeros((n, n));
    density.entries_mut().copy_from_slice(&d);
    let (mut j, mut k) = (Array::zeros((n, n)), Array::zeros((n, n)));
    let (mut our_j, mut our_k) = (vec![0.0; n * n], vec![0.0; n * n]);
    direct::JK_direct(&mut j, &mut k, &functions, &density);
    let refusal = raw::jk(n, &i, &d, &mut our_j, &mut our_k);
    if refusal != 0 || bits([&our_j, &our_k]) != bits([j.entries(), k.entries()]) {
        return Err(format!("the two sides differ in J or K of size {}", n));
    }
    let direct = Call::new(|| {
        direct::JK_direct(&mut j, &mut k, &functions, &density);
        k[[0, n - 1]].to_bits()
    });
    let in_memory = Call::new(|| basis::JK_inmem(&tensor, &density).1[[0, n - 1]].to_bits());
    let ours = Call::new(|| {
        raw::jk(n, &i, &d, &mut our_j, &mut our_k);
        our_k[n - 1].to_bits()
    });
    Ok(in_turn([direct, in_memory, ours], time))
}
