//! The salvage of a roll, whole and with its last byte changed, beside the expansion that it works out (02, Q-8).

use crate::ours::{self, ROOM};
use crate::raw;
use crate::requests::Request;
use crate::timing::{in_turn, Call};
use std::time::Duration;

/// Nanoseconds of a call: the writer of a form, xew_salvage of a whole roll of that form, and of one whose last byte differs.
pub struct Salvage {
    pub written: f64,
    pub whole: f64,
    pub damaged: f64,
}

/// Form 1 where `form` is 1, else form 2. The damaged roll keeps all terms but the last.
pub fn times(request: &Request, form: u8, time: Duration) -> Result<Salvage, String> {
    let mut whole = ours::roll(request);
    if form != 1 {
        let mut two = vec![0; ROOM];
        let there = raw::to_form2(&whole, &mut two, 0);
        two.truncate(there.length);
        whole = two;
    }
    let mut damaged = whole.clone();
    *damaged.last_mut().ok_or("a roll without bytes")? ^= 1;
    let (mut out, mut other, mut third) = (vec![0; ROOM], vec![0; ROOM], vec![0; ROOM]);
    let (kept, told) = (raw::salvage(&whole, &mut out, 0), raw::salvage(&damaged, &mut other, 0));
    let same = out[..kept.length] == whole[..] && other[..told.length] == whole[..];
    if !same || kept.anew != 0 || told.anew != 1 {
        return Err(format!("{} is not salvaged", request.name));
    }
    let [written, whole, damaged] = in_turn(
        [
            Call::new(|| {
                let written = match form {
                    1 => ours::expand(request, &mut third),
                    _ => raw::expand2(request.kind, &request.orders, &mut third, 0),
                };
                u64::from(written.terms)
            }),
            Call::new(|| u64::from(raw::salvage(&whole, &mut out, 0).kept)),
            Call::new(|| u64::from(raw::salvage(&damaged, &mut other, 0).kept)),
        ],
        time,
    );
    Ok(Salvage { written, whole, damaged })
}
