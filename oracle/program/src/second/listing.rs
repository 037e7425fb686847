//! The listing of a roll.

use super::limits::{orders_used, LONGEST_LISTED, NOW};
use super::refusal::{refusal, Refusal};
use super::steps::Term;

/// The listing of a roll, each line with its line feed.
pub fn listing(roll: &[u8]) -> Result<String, Refusal> {
    if roll.len() > LONGEST_LISTED {
        return Err(refusal(6));
    }
    let (header, terms) = NOW.check(roll)?;
    let mut text = format!("kind {} orders", header.kind);
    for order in &header.orders[..orders_used(header.kind)] {
        text += &format!(" {}", order);
    }
    text += &format!(" terms {}\n", header.count);
    for (at, term) in terms.iter().enumerate() {
        text += &format!("{} {}\n", at + 1, reading(term));
    }
    Ok(text)
}

/// A term without its number: scale, Boys order, colon, then prefactors each after a blank.
pub fn reading(term: &Term) -> String {
    let mut text = format!("{} {}:", term.scale, term.boys);
    for prefactor in &term.prefactors {
        text += &format!(" {}", prefactor);
    }
    text
}
