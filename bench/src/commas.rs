//! A roll as comma-separated text and back, beside the judge that goes over the roll first (02, Q-14).

use crate::ours;
use crate::raw;
use crate::requests::Request;
use crate::timing::{in_turn, Call};
use std::time::Duration;

/// Bytes of the text, and nanoseconds of a call: xew_check, xew_export, xew_import.
pub struct Commas {
    pub bytes: f64,
    pub check: f64,
    pub export: f64,
    pub import: f64,
}

/// The way back has to give the roll.
pub fn times(request: &Request, time: Duration) -> Result<Commas, String> {
    let roll = ours::roll(request);
    let mut text = vec![0; 3 * roll.len()];
    let written = raw::export(&roll, &mut text, 0);
    text.truncate(written.length);
    let mut back = vec![0; roll.len()];
    let read = raw::import(&text, &mut back, 0);
    if written.refusal != 0 || read.refusal != 0 || back != roll {
        return Err(format!("the text of {} is not imported as its roll", request.name));
    }
    let mut out = vec![0; text.len()];
    let [check, export, import] = in_turn(
        [
            Call::new(|| u64::from(ours::check(&roll).cursor.left)),
            Call::new(|| raw::export(&roll, &mut out, 0).length as u64),
            Call::new(|| u64::from(raw::import(&text, &mut back, 0).terms)),
        ],
        time,
    );
    Ok(Commas { bytes: text.len() as f64, check, export, import })
}
