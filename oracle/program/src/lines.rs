//! The parts of a question's line: numbers, floats, rolls, centres, and the room for an output.

use crate::parse::{self, Centre, LARGEST_BUFFER, LARGEST_GROUPING};
use crate::random::Random;
use crate::second::BYTES_OF_AN_ENTRY;

pub fn numbers(word: &str, first: u64, rest: &[u8]) -> Vec<u8> {
    let mut line = format!("{} {}", word, first);
    for number in rest {
        line += &format!(" {}", number);
    }
    line.into_bytes()
}

pub fn append(line: &mut Vec<u8>, number: u64) {
    line.extend_from_slice(format!(" {}", number).as_bytes());
}

/// A word and a roll.
pub fn with_roll(word: &str, roll: &[u8]) -> Vec<u8> {
    let mut line = format!("{} ", word).into_bytes();
    parse::write_roll(&mut line, roll);
    line
}

/// A word and two rolls.
pub fn with_rolls(word: &str, left: &[u8], right: &[u8]) -> Vec<u8> {
    let mut line = with_roll(word, left);
    line.push(b' ');
    parse::write_roll(&mut line, right);
    line
}

pub fn append_float(random: &mut Random, line: &mut Vec<u8>, float: f64) {
    line.push(b' ');
    if random.once_in(10) {
        line.extend_from_slice(format!("{:x}", float.to_bits()).as_bytes());
    } else {
        parse::write_float(line, float);
    }
}

pub fn append_centres(random: &mut Random, line: &mut Vec<u8>, centres: &[Centre]) {
    for centre in centres {
        for &x in &centre.r {
            append_float(random, line, x);
        }
        append_float(random, line, centre.z);
        append(line, centre.charge.into());
    }
}

/// A larger buffer takes the library's side a while to fill and to look at, so it comes up once
/// in a hundred.
const USUAL_BUFFER: u64 = 1_048_576;

/// BUFFER and START around every boundary for an output of `need` bytes.
pub fn append_room(random: &mut Random, line: &mut Vec<u8>, need: u64) {
    append_room_up_to(random, line, need, LARGEST_BUFFER)
}

/// The same where a question lends at most `largest`.
pub fn append_room_up_to(random: &mut Random, line: &mut Vec<u8>, need: u64, largest: usize) {
    let most = if need > USUAL_BUFFER || random.once_in(100) {
        largest as u64
    } else {
        USUAL_BUFFER
    };
    let start = match random.below(6) {
        0 | 1 => 0,
        2 => random.below(300),
        3 => random.below(most + 1),
        4 => random.from_to(most - 50, most + 2),
        _ => random.one_of(&[1 << 32, (1 << 32) + 1, u64::MAX, u64::MAX - 1, 1 << 63]),
    };
    let exact = start.saturating_add(need);
    let buffer = match random.below(9) {
        0 => 0,
        1 => exact.saturating_sub(1),
        2 | 3 => exact,
        4 => exact.saturating_add(1),
        // The start at the end, and one beyond it.
        5 => start,
        6 => start.saturating_sub(1),
        7 => most,
        _ => random.below(most + 2),
    };
    // Mostly within what a question may lend.
    let buffer = if random.once_in(40) {
        buffer
    } else {
        buffer.min(most)
    };
    append(line, buffer);
    append(line, start);
}

/// BUFFER around every boundary for the groups of so many terms. Once in five hundred it is about
/// the largest that a question lends.
pub fn grouping_buffer(random: &mut Random, terms: u64) -> u64 {
    let need = BYTES_OF_AN_ENTRY as u64 * terms;
    if random.once_in(500) {
        let largest = LARGEST_GROUPING as u64;
        return random.from_to(largest - 2, largest + 2);
    }
    match random.below(20) {
        0..=7 => need,
        8..=10 => need.saturating_sub(1),
        11 => 0,
        12 => need - terms,
        13 => need + 1,
        14 | 15 => need + random.below(4 * BYTES_OF_AN_ENTRY as u64),
        16..=18 => random.below(2 * need + 2),
        _ => random.below(USUAL_BUFFER + 1),
    }
}

pub fn append_floats(random: &mut Random, line: &mut Vec<u8>, floats: &[f64]) {
    for &float in floats {
        append_float(random, line, float);
    }
}
