//! A component by its number: the first and the last of four shells of the largest order (02, Q-2).

use crate::raw;
use crate::timing::{in_turn, Call};
use std::time::Duration;

const ORDER: u8 = 6;
/// The components of four such shells.
pub const COUNT: u32 = 28 * 28 * 28 * 28;

/// The orders of a component as a number, so that every call is seen to answer alike.
fn component(number: u32) -> u64 {
    let answer = raw::shell4(ORDER, ORDER, ORDER, ORDER, number);
    assert_eq!(answer.refusal, 0, "component {} is refused", number);
    answer
        .orders
        .iter()
        .fold(0, |all, order| 8 * all + u64::from(*order))
}

/// Nanoseconds of a call for the first component and for the last.
pub fn first_and_last(time: Duration) -> [f64; 2] {
    let first = Call::new(|| component(0));
    let last = Call::new(|| component(COUNT - 1));
    in_turn([first, last], time)
}
