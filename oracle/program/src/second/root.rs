//! The root of an f64, found by comparing squares of whole numbers, and the s of a Coulomb roll.

use super::checks::check_root;
use super::geometry::sum_of_exponents;
use super::refusal::Refusal;
use crate::parse::Centre;

/// A float that isn't subnormal is its fraction of so many bits and a one above it.
const FRACTION: u32 = 52;

/// The nearest f64 to the exact root, ties to even; 0.0 and -0.0 are their own roots. 8, then 18.
pub fn root(x: f64) -> Result<f64, Refusal> {
    check_root(x)?;
    if x == 0.0 {
        return Ok(x);
    }
    // x is m 2^e. With e even and m from 2^104 up to 2^106 the root of m is from 2^52 up to 2^53.
    let (mut m, mut e) = whole_and_power(x);
    while m < 1 << (2 * FRACTION) || e % 2 != 0 {
        m *= 2;
        e -= 1;
    }
    let q = nearest_root(m);
    // q 2^(e/2): a q of 2^53 goes over into the exponent.
    let exponent = (e / 2 + 1_075) as u64;
    let fraction = q as u64 - (1 << FRACTION);
    Ok(f64::from_bits((exponent << FRACTION) + fraction))
}

/// A float above 0 is the first, a whole number, times 2 to the power of the second.
fn whole_and_power(x: f64) -> (u128, i32) {
    let bits = x.to_bits();
    let fraction = u128::from(bits % (1 << FRACTION));
    match (bits >> FRACTION) as i32 {
        0 => (fraction, -1_074),
        exponent => (fraction + (1 << FRACTION), exponent - 1_075),
    }
}

/// The whole number that is nearest to the root of m, which is below 2^106; of two the even one,
/// though there never are two: an odd square is not 4 m.
fn nearest_root(m: u128) -> u128 {
    // The largest whole number whose square is at most m.
    let mut q: u128 = 0;
    for place in (0..=FRACTION).rev() {
        let larger = q + (1 << place);
        if larger * larger <= m {
            q = larger;
        }
    }
    // The root of m beside q + 1/2: both doubled and squared.
    let middle = (2 * q + 1) * (2 * q + 1);
    let is_above = middle < 4 * m || middle == 4 * m && q % 2 == 1;
    q + u128::from(is_above)
}

/// The host's k1 k2 over the root of the sum of exponents, which is finite and above 0.
pub fn s_of_product(product: f64, centres: &[Centre; 4]) -> f64 {
    let root = root(sum_of_exponents(centres));
    product / root.expect("8, 9 and 11 come before")
}
