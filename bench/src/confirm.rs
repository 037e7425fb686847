//! A roll held to its request's expansion, beside the writing of that expansion, and the calls of the small-cabinet profile
//! (02, Q-13).

use crate::ours::{self, ROOM};
use crate::raw;
use crate::requests::Request;
use crate::timing::{in_turn, Call};
use std::time::Duration;

/// The most times that a confirmation may take of the expansion.
pub const CONFIRM: f64 = 2.0;

/// Nanoseconds of a call: the writer of a form, and xew_confirm of the roll of that form.
pub struct Confirm {
    pub written: f64,
    pub confirmed: f64,
}

/// Form 1 where `form` is 1, else form 2.
pub fn times(request: &Request, form: u8, time: Duration) -> Result<Confirm, String> {
    let mut roll = vec![0; ROOM];
    let write = |out: &mut [u8]| match form {
        1 => ours::expand(request, out),
        _ => raw::expand2(request.kind, &request.orders, out, 0),
    };
    let length = write(&mut roll).length;
    roll.truncate(length);
    let told = raw::confirm(&roll);
    let mut other = roll.clone();
    *other.last_mut().ok_or("a roll without bytes")? ^= 1;
    if told.refusal != 0 || told.orders != request.orders || raw::confirm(&other).refusal == 0 {
        return Err(format!("{} is not confirmed, or another roll is", request.name));
    }
    let mut out = vec![0; ROOM];
    let [written, confirmed] = in_turn(
        [
            Call::new(|| u64::from(write(&mut out).terms)),
            Call::new(|| u64::from(raw::confirm(&roll).cursor.left)),
        ],
        time,
    );
    Ok(Confirm { written, confirmed })
}

/// The smallest and the largest request of the profile, of both kinds.
pub fn profile() -> [Request; 4] {
    [
        Request::along_x("s,s", 0, [0; 4]),
        Request::along_x("p,p", 0, [1, 1, 0, 0]),
        Request::along_x("s,s,s,s", 4, [0; 4]),
        Request::along_x("p,p,p,p", 4, [1; 4]),
    ]
}

/// Nanoseconds of a call: xew_expand, xew_small_expand, xew_check, xew_confirm, xew_small_check.
pub fn small_times(request: &Request, time: Duration) -> Result<[f64; 5], String> {
    let roll = ours::roll(request);
    let (mut out, mut other) = (vec![0; ROOM], vec![0; ROOM]);
    let written = raw::small_expand(request.kind, &request.orders, &mut out, 0);
    if out[..written.length] != roll[..] || raw::small_check(&roll).refusal != 0 {
        return Err(format!("{} is not of the profile", request.name));
    }
    Ok(in_turn(
        [
            Call::new(|| u64::from(ours::expand(request, &mut other).terms)),
            Call::new(|| u64::from(raw::small_expand(request.kind, &request.orders, &mut out, 0).terms)),
            Call::new(|| u64::from(ours::check(&roll).cursor.left)),
            Call::new(|| u64::from(raw::confirm(&roll).cursor.left)),
            Call::new(|| u64::from(raw::small_check(&roll).cursor.left)),
        ],
        time,
    ))
}
