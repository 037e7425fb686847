//! The comma-separated text of a roll: the export, and the import with its judgement line by line.

use super::limits::{most_boys, most_prefactors, orders_used, table_size, NOW};
use super::refusal::{mismatched, misshapen, Refusal};
use super::roll::write_roll;
use super::steps::Term;

/// The text of a form 1 roll, each line with its line feed; refused as its reading is.
pub fn exported(roll: &[u8]) -> Result<String, Refusal> {
    let (header, terms) = NOW.check(roll)?;
    let mut text = header.kind.to_string();
    for order in &header.orders[..orders_used(header.kind)] {
        text += &format!(",{}", order);
    }
    text += &format!(",{}\n", header.count);
    for term in &terms {
        text += &format!("{},{}", term.scale, term.boys);
        for prefactor in &term.prefactors {
            text += &format!(",{}", prefactor);
        }
        text += "\n";
    }
    Ok(text)
}

/// The number of terms and the form 1 roll of a text.
pub fn imported(text: &[u8]) -> Result<(usize, Vec<u8>), Refusal> {
    let mut lines = text.split_inclusive(|&byte| byte == b'\n');
    // Of an empty text the first line is not there, and so not of its shape.
    let first = shaped(lines.next().unwrap_or(b"")).filter(|n| [8, 11, 14].contains(&n.len()));
    let first = first.ok_or_else(|| misshapen(1))?;
    let (kind, orders, count) = said_first(&first).ok_or_else(|| mismatched(1))?;
    let l = orders.iter().map(|&order| u32::from(order)).sum();
    let mut terms = Vec::new();
    for (line, number) in lines.zip(2..) {
        let numbers = shaped(line).filter(|numbers| numbers.len() >= 2);
        let numbers = numbers.ok_or_else(|| misshapen(number))?;
        let term = said(kind, l, &numbers).filter(|_| terms.len() < count);
        terms.push(term.ok_or_else(|| mismatched(number))?);
    }
    if terms.len() < count {
        return Err(mismatched(terms.len() + 2));
    }
    Ok((count, write_roll(kind, &orders, &terms)))
}

/// The numbers of a line with its line feed; None where it is not of the shape. A number too large for
/// u64 is its largest, which is beyond every limit.
fn shaped(line: &[u8]) -> Option<Vec<u64>> {
    let line = line.strip_suffix(b"\n")?;
    line.split(|&byte| byte == b',').map(number).collect()
}

/// Decimal digits, one at least, the first of several not 0.
fn number(word: &[u8]) -> Option<u64> {
    let is_shaped = match word {
        [] => false,
        [b'0', _, ..] => false,
        _ => word.iter().all(u8::is_ascii_digit),
    };
    let next = |number: u64, digit: &u8| {
        let tens = number.saturating_mul(10);
        tens.saturating_add(u64::from(digit - b'0'))
    };
    Some(word)
        .filter(|_| is_shaped)
        .map(|word| word.iter().fold(0, next))
}

/// Kind, orders and term count of a first line; None where a number or the count of orders is wrong.
fn said_first(numbers: &[u64]) -> Option<(u8, [u8; 12], usize)> {
    let kind = within(numbers[0], 0, 4)? as u8;
    let (count, given) = numbers[1..].split_last()?;
    if given.len() != orders_used(kind) {
        return None;
    }
    for centre in given.chunks(3) {
        let sum = centre.iter().fold(0, |sum: u64, &o| sum.saturating_add(o));
        within(sum, 0, NOW.order_sum.into())?;
    }
    let mut orders = [0; 12];
    for (order, &given) in orders.iter_mut().zip(given) {
        *order = given as u8;
    }
    let count = within(*count, 1, NOW.terms)?;
    Some((kind, orders, count as usize))
}

/// The term of any other line; None where a number or the count of prefactors is wrong.
fn said(kind: u8, l: u32, numbers: &[u64]) -> Option<Term> {
    let prefactors = &numbers[2..];
    if prefactors.len() > most_prefactors(kind, l) as usize {
        return None;
    }
    let last = table_size(kind) as u32 - 1;
    let prefactor = |&number: &u64| Some(within(number, 0, last)? as u8);
    Some(Term {
        scale: within(numbers[0], 1, NOW.scale)?,
        boys: within(numbers[1], 0, most_boys(kind, l))? as u8,
        prefactors: prefactors.iter().map(prefactor).collect::<Option<_>>()?,
    })
}

fn within(number: u64, least: u32, most: u32) -> Option<u32> {
    let range = u64::from(least)..=u64::from(most);
    Some(number as u32).filter(|_| range.contains(&number))
}
