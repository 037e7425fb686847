//! Which terms of two rolls differ.

use super::form::Form;
use super::limits::{orders_used, NOW};
use super::listing::reading;
use super::refusal::Refusal;
use super::roll::Header;
use super::steps::Term;

/// The side on which a roll is refused.
#[derive(Clone, Copy, Debug, PartialEq)]
pub enum Side {
    Left,
    Right,
}

/// What is printed of two rolls, each of either form, every line with its line feed. The left one is
/// read first.
pub fn compared(left: &[u8], right: &[u8]) -> Result<String, (Refusal, Side)> {
    let read = |roll: &[u8], side| {
        let judged = NOW.check_in(Form::of(roll), roll);
        judged.map_err(|refusal| (refusal, side))
    };
    let (left, left_terms) = read(left, Side::Left)?;
    let (right, right_terms) = read(right, Side::Right)?;
    let (differ, terms) = terms_text(&left_terms, &right_terms);
    Ok(format!(
        "{} differ\n{}{}",
        differ,
        header_text(&left, &right),
        terms
    ))
}

/// Kind, orders and term count, each where it differs.
fn header_text(left: &Header, right: &Header) -> String {
    let parts = |header: &Header| {
        [
            ("kind", header.kind.to_string()),
            ("orders", orders(header)),
            ("terms", header.count.to_string()),
        ]
    };
    let mut text = String::new();
    for ((name, left), (_, right)) in parts(left).iter().zip(&parts(right)) {
        if left != right {
            text += &format!("{} {} / {}\n", name, left, right);
        }
    }
    text
}

/// Those that the kind uses.
fn orders(header: &Header) -> String {
    let used = header.orders[..orders_used(header.kind)].iter();
    let orders: Vec<String> = used.map(|order| order.to_string()).collect();
    orders.join(" ")
}

/// The number of positions whose terms differ or stand on one side only, and a line for each, those
/// of both sides first.
fn terms_text(left: &[Term], right: &[Term]) -> (usize, String) {
    let (mut differ, mut text) = (0, String::new());
    let both = left.len().min(right.len());
    for at in 0..both {
        if left[at] != right[at] {
            differ += 1;
            let (left, right) = (reading(&left[at]), reading(&right[at]));
            text += &format!("{}: {} / {}\n", at + 1, left, right);
        }
    }
    for (side, terms) in [("left", left), ("right", right)] {
        for (at, term) in terms.iter().enumerate().skip(both) {
            differ += 1;
            text += &format!("{}: {} {}\n", at + 1, side, reading(term));
        }
    }
    (differ, text)
}
