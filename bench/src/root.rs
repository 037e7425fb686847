//! Roots, beside the machine's own (02, Q-12).

use crate::raw;
use crate::timing::{in_turn, Call};
use std::hint::black_box;
use std::time::Duration;

/// Inputs of each list.
const COUNT: u64 = 1000;

/// Numbers without a pattern, the same in every run.
fn mixed(number: u64) -> u64 {
    let mut bits = number.wrapping_add(1).wrapping_mul(0x9e37_79b9_7f4a_7c15);
    bits = (bits ^ (bits >> 30)).wrapping_mul(0xbf58_476d_1ce4_e5b9);
    bits = (bits ^ (bits >> 27)).wrapping_mul(0x94d0_49bb_1331_11eb);
    bits ^ (bits >> 31)
}

/// A float with an exponent of any size.
fn normal(number: u64) -> f64 {
    let bits = mixed(number);
    f64::from_bits((1 + (bits >> 52) % 2046) << 52 | bits & ((1 << 52) - 1))
}

/// A subnormal of any length.
fn subnormal(number: u64) -> f64 {
    let bits = mixed(number);
    f64::from_bits(1 << (bits % 52) | bits >> 12 & ((1 << (bits % 52)) - 1))
}

/// The square of a whole number below 2^26.
fn square(number: u64) -> f64 {
    let whole = (mixed(number) >> 38) as f64;
    whole * whole
}

/// A list of each sort, and one of all sorts in turn.
pub fn lists() -> [(&'static str, Vec<f64>); 4] {
    let list = |float: fn(u64) -> f64| (0..COUNT).map(float).collect();
    let any = |number| [normal, subnormal, square][(number % 3) as usize](number);
    [
        ("normal", list(normal)),
        ("subnormal", list(subnormal)),
        ("perfect squares", list(square)),
        ("mixed", list(any)),
    ]
}

/// The bits of all roots, in order, as one number.
fn folded(inputs: &[f64], root: impl Fn(f64) -> f64) -> u64 {
    inputs.iter().fold(0, |bits: u64, &x| bits.rotate_left(1) ^ root(black_box(x)).to_bits())
}

/// Nanoseconds of a root: xew_root, f64::sqrt. Both have to give the same bits.
pub fn times(name: &str, inputs: &[f64], time: Duration) -> Result<[f64; 2], String> {
    for &x in inputs {
        let ours = raw::root(x);
        if ours.refusal != 0 || ours.root.to_bits() != x.sqrt().to_bits() {
            return Err(format!("{}: the root of {:016x} differs", name, x.to_bits()));
        }
    }
    let calls = [
        Call::new(|| folded(inputs, |x| raw::root(x).root)),
        Call::new(|| folded(inputs, f64::sqrt)),
    ];
    Ok(in_turn(calls, time).map(|took| took / inputs.len() as f64))
}
