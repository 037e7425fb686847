//! The two forms of a roll: how long each is, the writer of each, both moves, and the judge (02, Q-7).

use crate::ours::{self, ROOM};
use crate::raw;
use crate::requests::Request;
use crate::timing::{in_turn, Call};
use std::time::Duration;

/// Bytes in form 1 and form 2, and nanoseconds of a call: xew_expand and xew_expand2, xew_check and xew_check2 of the roll in
/// each form, xew_to_form2 and xew_to_form1.
pub struct Forms {
    pub terms: f64,
    pub bytes: [f64; 2],
    pub written: [f64; 2],
    pub checks: [f64; 2],
    pub moved: [f64; 2],
}

/// What is written in form 2 has to be the move of the roll in form 1, and its way back that roll.
pub fn times(request: &Request, time: Duration) -> Result<Forms, String> {
    let one = ours::roll(request);
    let mut two = vec![0; ROOM];
    let there = raw::to_form2(&one, &mut two, 0);
    two.truncate(there.length);
    let mut out = vec![0; ROOM];
    let written = raw::expand2(request.kind, &request.orders, &mut out, 0);
    let same = written.refusal == 0 && out[..written.length] == two[..];
    let back = raw::to_form1(&two, &mut out, 0);
    if !same || there.refusal != 0 || back.refusal != 0 || out[..back.length] != one[..] {
        return Err(format!("the two forms of {} differ", request.name));
    }
    let mut other = vec![0; ROOM];
    let [first, second] = in_turn(
        [
            Call::new(|| u64::from(ours::expand(request, &mut out).terms)),
            Call::new(|| {
                let written = raw::expand2(request.kind, &request.orders, &mut other, 0);
                u64::from(written.terms)
            }),
        ],
        time,
    );
    let [check, check2, to_two, to_one] = in_turn(
        [
            Call::new(|| u64::from(ours::check(&one).cursor.left)),
            Call::new(|| u64::from(raw::check2(&two).cursor.cursor.left)),
            Call::new(|| u64::from(raw::to_form2(&one, &mut out, 0).terms)),
            Call::new(|| u64::from(raw::to_form1(&two, &mut other, 0).terms)),
        ],
        time,
    );
    Ok(Forms {
        terms: f64::from(written.terms),
        bytes: [one.len() as f64, two.len() as f64],
        written: [first, second],
        checks: [check, check2],
        moved: [to_two, to_one],
    })
}
