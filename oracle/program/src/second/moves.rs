//! The moves from one form of a roll to the other.

use super::form::Form;
use super::limits::NOW;
use super::refusal::Refusal;
use super::roll::{write_roll_in, Header};

/// What a roll of the other form says, in this form; refused as its reading is.
pub fn moved(to: Form, roll: &[u8]) -> Result<(Header, Vec<u8>), Refusal> {
    let (header, terms) = NOW.check_in(to.other(), roll)?;
    let moved = write_roll_in(to, header.kind, &header.orders, &terms);
    Ok((header, moved))
}
