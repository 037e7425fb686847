//! I and D for questions: with symmetries and without, of every taste of floats.

use crate::floats::{self, Taste};
use crate::random::Random;

/// Which entries of I are equal.
#[derive(Clone, Copy)]
enum Tensor {
    NoTwo,
    /// (mu, nu, lambda, sigma) and (nu, mu, lambda, sigma).
    Left,
    /// (mu, nu, lambda, sigma) and (mu, nu, sigma, lambda).
    Right,
    /// As integrals have it: both, and (lambda, sigma, mu, nu).
    Eight,
}

/// What D is like: that of a state is symmetric, a transition's is not.
#[derive(Clone, Copy)]
enum Density {
    Any,
    Symmetric,
    /// Above the diagonal the other sign.
    Antisymmetric,
    /// One entry alone is not a zero.
    Single,
}

/// Any I and D of a size, row by row.
pub fn any(random: &mut Random, n: usize) -> (Vec<f64>, Vec<f64>) {
    let taste = floats::matrix_taste(random);
    // A taste of any bits would spoil every large matrix at once: one such float is enough.
    let calm = match taste {
        Taste::Any => Taste::Ordinary,
        other => other,
    };
    let equal = [Tensor::NoTwo, Tensor::Left, Tensor::Right, Tensor::Eight];
    let (equal, like) = (random.one_of(&equal), any_density(random));
    let drawn = floats::many(random, calm, n * n * n * n);
    let mut i = tensor(n, &drawn, equal);
    let drawn = floats::many(random, calm, n * n);
    let at = random.index(n * n);
    let mut d = density(n, &drawn, like, at);
    if taste == Taste::Any {
        i[random.index(n * n * n * n)] = floats::float(random, taste);
        d[random.index(n * n)] = floats::float(random, taste);
    }
    (i, d)
}

fn any_density(random: &mut Random) -> Density {
    match random.below(8) {
        0..=2 => Density::Any,
        3..=5 => Density::Symmetric,
        6 => Density::Antisymmetric,
        _ => Density::Single,
    }
}

/// An I with all eight symmetries and a symmetric D, of numbers from 0 to 1.
pub fn symmetric(random: &mut Random, n: usize) -> (Vec<f64>, Vec<f64>) {
    let mut drawn = |count| -> Vec<f64> { (0..count).map(|_| random.fraction()).collect() };
    let (i, d) = (drawn(n * n * n * n), drawn(n * n));
    let i = tensor(n, &i, Tensor::Eight);
    (i, density(n, &d, Density::Symmetric, 0))
}

/// Of equal entries the one is taken whose place holds.
fn tensor(n: usize, drawn: &[f64], equal: Tensor) -> Vec<f64> {
    let number = |at: &[usize; 4]| ((at[0] * n + at[1]) * n + at[2]) * n + at[3];
    let entry = |place: usize| {
        let at = [n * n * n, n * n, n, 1].map(|step| place / step % n);
        drawn[number(&holds(at, equal))]
    };
    (0..drawn.len()).map(entry).collect()
}

fn holds([mu, nu, lambda, sigma]: [usize; 4], equal: Tensor) -> [usize; 4] {
    let down = |a: usize, b: usize| if a < b { [b, a] } else { [a, b] };
    let (left, right) = (down(mu, nu), down(lambda, sigma));
    match equal {
        Tensor::NoTwo => [mu, nu, lambda, sigma],
        Tensor::Left => [left[0], left[1], lambda, sigma],
        Tensor::Right => [mu, nu, right[0], right[1]],
        Tensor::Eight => {
            let (first, second) = (left.max(right), left.min(right));
            [first[0], first[1], second[0], second[1]]
        }
    }
}

/// `single` is the place that is not a zero where only one is.
fn density(n: usize, drawn: &[f64], like: Density, single: usize) -> Vec<f64> {
    let entry = |place: usize| {
        let (row, column) = (place / n, place % n);
        let mirror = drawn[column * n + row];
        match like {
            Density::Symmetric if row < column => mirror,
            Density::Antisymmetric if row < column => -mirror,
            Density::Single if place != single => 0.0 * drawn[place].signum(),
            _ => drawn[place],
        }
    };
    (0..drawn.len()).map(entry).collect()
}
