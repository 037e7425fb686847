//! Both sides have to give the same terms and the same bits.

use crate::numbers::Numbers;
use crate::ours::{self, Step};
use crate::requests::Request;
use crate::rust_side;
use rchem::Term;

fn is_same(step: &Step, term: &Term) -> bool {
    let ours = step.prefactors[..step.count as usize]
        .iter()
        .map(|&p| usize::from(p));
    step.found == 1
        && f64::from(step.scale) == term.scale
        && step.boys == term.boys
        && ours.eq(term.prefactors.iter().copied())
}

/// Steps through the roll beside the Rust's terms.
pub fn terms(request: &Request, roll: &[u8]) -> Result<u32, String> {
    let theirs = rust_side::terms(request);
    let opened = ours::check(roll);
    if opened.refusal != 0 {
        return Err(format!("{}: xew_check refuses the roll", request.name));
    }
    if opened.orders != request.orders || opened.cursor.kind != request.kind {
        return Err(format!("{}: the roll's header is another's", request.name));
    }
    if opened.cursor.left as usize != theirs.len() {
        return Err(format!(
            "{}: the two sides differ in the number of terms",
            request.name
        ));
    }
    let mut cursor = opened.cursor;
    for (number, term) in theirs.iter().enumerate() {
        let step = ours::next(cursor, roll);
        if !is_same(&step, term) {
            return Err(format!(
                "{}: the two sides differ in term {}",
                request.name,
                number + 1
            ));
        }
        cursor = step.next;
    }
    if ours::next(cursor, roll).found != 2 {
        return Err(format!(
            "{}: the two sides differ in the roll's end",
            request.name
        ));
    }
    Ok(opened.cursor.left)
}

/// The value from the roll, bit for bit the one of the get_ function.
pub fn value(request: &Request, roll: &[u8], with: &Numbers) -> Result<(), String> {
    let ours = ours::evaluate(roll, with);
    let theirs = rust_side::value(request, &with.centres);
    if ours.refusal != 0 || ours.value.to_bits() != theirs.to_bits() {
        return Err(format!(
            "{}: the two sides differ in the value",
            request.name
        ));
    }
    Ok(())
}
