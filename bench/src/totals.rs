//! Totals of scales: by the orders alone, over a roll, and the roll judged alone (02, Q-11).

use crate::ours;
use crate::raw;
use crate::requests::Request;
use crate::rust_side;
use crate::timing::{in_turn, Call};
use std::time::Duration;

/// The largest request of each kind of which a total is known.
pub fn requests() -> [Request; 3] {
    [
        Request::along_x("overlap-6", 0, [6, 6, 0, 0]),
        Request::along_x("nuclear-6", 2, [6, 6, 0, 0]),
        Request::along_x("moment-6", 3, [6, 6, 6, 0]),
    ]
}

/// Nanoseconds of a call: xew_scale_total, xew_roll_total, xew_check. Both totals have to be that of the Rust's own scales.
pub fn times(request: &Request, time: Duration) -> Result<[f64; 3], String> {
    let roll = ours::roll(request);
    let theirs: f64 = rust_side::terms(request).iter().map(|term| term.scale).sum();
    let by_hand = || raw::scale_total(request.kind, &request.orders).total;
    let over_roll = || raw::roll_total(&roll).total;
    if [by_hand(), over_roll()] != [theirs as u64; 2] {
        return Err(format!("the totals of {} differ", request.name));
    }
    let judged = Call::new(|| u64::from(ours::check(&roll).cursor.left));
    Ok(in_turn([Call::new(by_hand), Call::new(over_roll), judged], time))
}
