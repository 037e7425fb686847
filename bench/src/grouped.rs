//! Coulomb sums by way of a grouping buffer, beside the sum over the roll alone and the unchanged get_coulomb (02, Q-9).

use crate::numbers::Numbers;
use crate::ours::{self, ENTRY};
use crate::requests::{self, Request};
use crate::timing::{in_turn, Call};
use crate::{rust_side, same};
use std::time::Duration;

/// The least ratios that are asked for of a request, 0 where none is: get_coulomb through xew_evaluate and through
/// xew_evaluate_grouped, and xew_evaluate through xew_evaluate_grouped.
pub fn goals(request: &Request) -> [f64; 3] {
    match request.name.as_str() {
        "s,s,s,s" => [1.0, 0.0, 0.0],
        "p,p,p,p" => [0.0, 15.0, 0.0],
        "d,d,d,d" | "large" | "longest" => [0.0, 25.0, 0.0],
        "largest" => [0.0, 25.0, 1.5],
        _ => [0.0; 3],
    }
}

/// Nanoseconds of a call: get_coulomb, xew_evaluate, xew_evaluate_grouped. All three have to give the same bits. One
/// buffer of 40 bytes a term is lent to each call.
pub fn times(request: &Request, time: Duration) -> Result<[f64; 3], String> {
    // As before the other times of the Rust: a heap that has held a large list.
    drop(rust_side::terms(&requests::large()));
    let roll = ours::roll(request);
    let with = Numbers::of(request);
    same::value(request, &roll, &with)?;
    let terms = ours::check(&roll).cursor.left as usize;
    let mut buffer = vec![0; ENTRY * terms];
    let grouped = ours::evaluate_grouped(&roll, &with, &mut buffer);
    let plain = ours::evaluate(&roll, &with);
    if grouped.refusal != 0 || grouped.value.to_bits() != plain.value.to_bits() {
        return Err(format!("{}: the grouped value differs", request.name));
    }
    Ok(in_turn(
        [
            Call::new(|| rust_side::value(request, &with.centres).to_bits()),
            Call::new(|| ours::evaluate(&roll, &with).value.to_bits()),
            Call::new(|| {
                let answer = ours::evaluate_grouped(&roll, &with, &mut buffer);
                answer.value.to_bits()
            }),
        ],
        time,
    ))
}
