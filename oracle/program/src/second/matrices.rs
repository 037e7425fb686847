//! J and K by 02's words: every entry is summed on its own.

/// J at (mu, nu) over I at (mu, nu, lambda, sigma), K over I at (mu, lambda, nu, sigma), each
/// times D at (lambda, sigma); lambda outer, sigma inner, from 0.0. Row by row.
pub fn j_and_k(n: usize, i: &[f64], d: &[f64]) -> (Vec<f64>, Vec<f64>) {
    let at = |p: usize, q: usize, r: usize, s: usize| i[((p * n + q) * n + r) * n + s];
    let (mut j, mut k) = (Vec::new(), Vec::new());
    for mu in 0..n {
        for nu in 0..n {
            j.push(sum(n, d, |lambda, sigma| at(mu, nu, lambda, sigma)));
            k.push(sum(n, d, |lambda, sigma| at(mu, lambda, nu, sigma)));
        }
    }
    (j, k)
}

fn sum(n: usize, d: &[f64], integral: impl Fn(usize, usize) -> f64) -> f64 {
    let mut sum = 0.0;
    for lambda in 0..n {
        for sigma in 0..n {
            sum += integral(lambda, sigma) * d[lambda * n + sigma];
        }
    }
    sum
}
