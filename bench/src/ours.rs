//! The exported functions, as the Rust binding declares them.

use crate::numbers::Numbers;
use crate::raw::{self, Value, Written};
pub use crate::raw::{check, next, Step};
use crate::requests::Request;

/// Any roll fits into so many bytes; the longest has 15,001,920.
pub const ROOM: usize = 1 << 24;
/// A grouping buffer has so many bytes for each term.
pub const ENTRY: usize = 40;

pub fn expand(request: &Request, out: &mut [u8]) -> Written {
    raw::expand(request.kind, &request.orders, out, 0)
}

pub fn measure(request: &Request) -> Written {
    raw::measure(request.kind, &request.orders)
}

pub fn evaluate(roll: &[u8], with: &Numbers) -> Value {
    let [a, b, c, d] = with.centres;
    raw::evaluate(roll, a, b, c, d, with.aux, &with.boys)
}

pub fn evaluate_grouped(roll: &[u8], with: &Numbers, buffer: &mut [u8]) -> Value {
    let [a, b, c, d] = with.centres;
    raw::evaluate_grouped(roll, a, b, c, d, with.aux, &with.boys, buffer)
}

/// The roll of a request that is not refused.
pub fn roll(request: &Request) -> Vec<u8> {
    let mut out = vec![0; ROOM];
    let written = expand(request, &mut out);
    assert_eq!(written.refusal, 0, "{} is refused", request.name);
    out.truncate(written.length);
    out
}
