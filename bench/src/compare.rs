//! The comparison of a roll with itself, in one form and in both, beside the judge that goes over each roll first (02, Q-4).

use crate::ours::{self, ROOM};
use crate::raw;
use crate::requests::Request;
use crate::timing::{in_turn, Call};
use std::time::Duration;

/// Nanoseconds of a call: xew_check, and xew_compare of the roll with itself and with its form 2.
pub struct Compare {
    pub check: f64,
    pub same: f64,
    pub forms: f64,
}

/// No position differs.
pub fn times(request: &Request, time: Duration) -> Result<Compare, String> {
    let one = ours::roll(request);
    let mut two = vec![0; ROOM];
    let there = raw::to_form2(&one, &mut two, 0);
    two.truncate(there.length);
    let (same, forms) = (raw::compare(&one, &one), raw::compare(&one, &two));
    if same.refusal != 0 || forms.refusal != 0 || same.differ != 0 || forms.differ != 0 {
        return Err(format!("{} differs from itself", request.name));
    }
    let [check, same, forms] = in_turn(
        [
            Call::new(|| u64::from(ours::check(&one).cursor.left)),
            Call::new(|| u64::from(raw::compare(&one, &one).differ)),
            Call::new(|| u64::from(raw::compare(&one, &two).differ)),
        ],
        time,
    );
    Ok(Compare { check, same, forms })
}
