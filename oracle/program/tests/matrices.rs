//! J and K: JK_direct's loops sum as 02 says, and where JK_inmem sums otherwise.

use oracle::answer::same;
use oracle::floats::{self, Taste};
use oracle::last_bits::{self, Differ};
use oracle::random::Random;
use oracle::rust_side::{j_and_k, j_and_k_in_memory};
use oracle::{matrices, second};

fn agree(n: usize, i: &[f64], d: &[f64]) {
    let (rust, second) = (j_and_k(n, i, d), second::j_and_k(n, i, d));
    assert!(
        same(&rust.0, &second.0) && same(&rust.1, &second.1),
        "{} {:?} {:?}",
        n,
        i,
        d
    );
}

#[test]
fn the_direct_loops_and_the_second_reading() {
    let mut random = Random::new(10);
    for at in 0..30_000 {
        let n = match at {
            0..=15 => at + 1,
            _ => 1 + random.index(4),
        };
        let (i, d) = matrices::any(&mut random, n);
        agree(n, &i, &d);
        // No question is answered with these, but the loops take them.
        let i = floats::many(&mut random, Taste::Any, n * n * n * n);
        let d = floats::many(&mut random, Taste::Any, n * n);
        agree(n, &i, &d);
    }
}

/// Every product is -0.0: the sums are 0.0.
#[test]
fn a_sum_begins_at_zero() {
    for n in 1..=3 {
        let (i, d) = (vec![-0.0; n * n * n * n], vec![1.0; n * n]);
        let (j, k) = j_and_k(n, &i, &d);
        assert!(j.iter().chain(&k).all(|sum| sum.to_bits() == 0));
        agree(n, &i, &d);
    }
}

/// I of two functions with these entries, 0.0 elsewhere.
fn tensor(entries: &[([usize; 4], f64)]) -> [f64; 16] {
    let mut i = [0.0; 16];
    for &([p, q, r, s], entry) in entries {
        i[8 * p + 4 * q + 2 * r + s] = entry;
    }
    i
}

/// Direct, then in memory.
fn both(i: &[f64], d: &[f64]) -> [(Vec<f64>, Vec<f64>); 2] {
    agree(2, i, d);
    [j_and_k(2, i, d), j_and_k_in_memory(2, i, d)]
}

/// docs/DIFFERENCES.md gives this input for K: D is not symmetric, I has all its symmetries.
#[test]
fn k_where_d_is_not_symmetric() {
    let i = tensor(&[([0, 0, 1, 1], 1.0), ([1, 1, 0, 0], 1.0)]);
    let [direct, in_memory] = both(&i, &[0.0, 1.0, 0.0, 0.0]);
    assert_eq!(direct.1, [0.0, 1.0, 0.0, 0.0]);
    assert_eq!(in_memory.1, [0.0, 0.0, 0.0, 0.0]);
    assert_eq!(direct.0, in_memory.0);
}

/// And this one for J: I lacks the symmetry in mu and nu, D is symmetric.
#[test]
fn j_where_i_lacks_the_symmetry() {
    let i = tensor(&[([0, 1, 0, 0], 1.0)]);
    let [direct, in_memory] = both(&i, &[1.0, 0.0, 0.0, 0.0]);
    assert_eq!(direct.0, [0.0, 1.0, 0.0, 0.0]);
    assert_eq!(in_memory.0, [0.0, 0.0, 0.0, 0.0]);
    assert_eq!(direct.1, in_memory.1);
}

/// And this one for the last bit: I and D have all their symmetries.
#[test]
fn k_in_its_last_bit() {
    let large = 9_007_199_254_740_992.0;
    let one = [0, 1, 2, 3].map(|at| {
        let mut place = [0; 4];
        place[at] = 1;
        (place, 1.0)
    });
    let pairs = [([0, 0, 1, 1], 1.0), ([1, 1, 0, 0], 1.0)];
    let exchanged = [[0, 1, 0, 1], [0, 1, 1, 0], [1, 0, 0, 1], [1, 0, 1, 0]];
    let exchanged = exchanged.map(|place| (place, large));
    let i = tensor(&[&one[..], &pairs, &exchanged].concat());
    let [direct, in_memory] = both(&i, &[1.0; 4]);
    assert_eq!((direct.1[1], direct.1[2]), (large + 2.0, large));
    assert_eq!((in_memory.1[1], in_memory.1[2]), (large, large));
    assert_eq!(direct.0, in_memory.0);
}

#[test]
fn one_function_shows_no_difference() {
    let mut random = Random::new(11);
    for _ in 0..10_000 {
        let (i, d) = matrices::any(&mut random, 1);
        let (direct, in_memory) = (j_and_k(1, &i, &d), j_and_k_in_memory(1, &i, &d));
        assert!(same(&direct.0, &in_memory.0) && same(&direct.1, &in_memory.1));
    }
}

/// The counts that docs/DIFFERENCES.md has: `oracle last-bits 1000 1`.
#[test]
fn how_often_symmetric_cases_differ() {
    let counts = [0, 153, 784, 987, 1_000, 1_000];
    for (at, &k) in counts.iter().enumerate() {
        assert_eq!(last_bits::count(at + 1, 1_000, 1), Differ { j: 0, k });
    }
}
