//! What is left of a damaged roll, beside the fresh expansion of its header.

use super::form::Form;
use super::limits::NOW;
use super::roll::{Header, Step};
use super::steps::Term;
use crate::parse::Cursor;

/// What is told of a damaged roll.
#[derive(Clone, Copy, Debug, PartialEq)]
pub struct Salvaged {
    /// The leading terms that read and equal the fresh ones.
    pub kept: usize,
    /// The fresh terms after these.
    pub anew: usize,
    /// Is the stored count another than the fresh one?
    pub is_other_count: bool,
    /// Do bytes follow the last term? None unless every fresh term was read and equal.
    pub bytes_follow: Option<bool>,
}

/// Of a roll of this form whose header reads, beside the fresh terms of that header's request. The
/// stored count has no part in the reading of the terms.
pub fn salvaged(form: Form, roll: &[u8], header: &Header, fresh: &[Term]) -> Salvaged {
    let mut cursor = Cursor {
        kind: header.kind,
        l: header.l,
        left: fresh.len() as u32,
        place: header.place as u64,
    };
    let (mut kept, mut before): (usize, &[u8]) = (0, &[]);
    for term in fresh {
        match NOW.next_in(form, cursor, before, roll) {
            Ok(Step::Term(read, after)) if read == *term => cursor = after,
            _ => break,
        }
        kept += 1;
        if form == Form::Two {
            before = &term.prefactors;
        }
    }
    let is_whole = kept == fresh.len();
    Salvaged {
        kept,
        anew: fresh.len() - kept,
        is_other_count: header.count as usize != fresh.len(),
        bytes_follow: Some(cursor.place < roll.len() as u64).filter(|_| is_whole),
    }
}
