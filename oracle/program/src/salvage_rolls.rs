//! Damaged rolls for questions: fresh ones of either form that lost bytes or terms, or whose bytes,
//! terms, count or header were changed.

use crate::random::Random;
use crate::requests::{self, AT_THE_CAP, LONG};
use crate::second::{self, Form, Term, NOW};
use crate::{form2_rolls, rolls, rust_side};

/// What a roll said before it was damaged: the Rust's own terms.
pub struct Stored {
    pub form: Form,
    pub kind: u8,
    pub orders: [u8; 12],
    pub terms: Vec<Term>,
}

impl Stored {
    pub fn of(form: Form, kind: u8, orders: &[u8; 12]) -> Stored {
        Stored {
            form,
            kind,
            orders: *orders,
            terms: rust_side::terms(kind, orders),
        }
    }

    /// The place of the count.
    fn count_at(&self) -> usize {
        1 + second::orders_used(self.kind)
    }

    /// The place of the first term.
    fn terms_at(&self) -> usize {
        self.count_at() + rolls::write(&[self.terms.len() as u32]).len()
    }

    pub fn write(&self) -> Vec<u8> {
        self.write_with(self.terms.len() as u32, &self.terms)
    }

    /// The same header but for its count, and these terms.
    pub fn write_with(&self, count: u32, terms: &[Term]) -> Vec<u8> {
        let mut roll = second::write_roll_in(self.form, self.kind, &self.orders, terms);
        let length = rolls::write(&[terms.len() as u32]).len();
        let number = self.count_at()..self.count_at() + length;
        roll.splice(number, rolls::write(&[count]));
        roll
    }
}

fn any_form(random: &mut Random) -> Form {
    random.one_of(&[Form::One, Form::Two])
}

/// A roll of few terms or of some thousand.
pub fn stored(random: &mut Random) -> Stored {
    let (form, kind) = (any_form(random), random.below(5) as u8);
    let orders = match random.below(2_000) {
        0 => requests::any_of(random, kind, 1..=LONG),
        1..=400 => requests::short(random, kind),
        _ => requests::small(random, kind),
    };
    Stored::of(form, kind, &orders)
}

/// The count of all terms, of those that are there, or a wrong one.
fn count(random: &mut Random, stored: &Stored, there: usize) -> u32 {
    let all = stored.terms.len() as u32;
    match random.below(10) {
        0..=3 => all,
        4 | 5 => (there as u32).max(1),
        6 => all + 1,
        7 => (all - 1).max(1),
        8 => random.from_to(1, 2 * u64::from(all)) as u32,
        _ => random.one_of(&[1, 127, 128, NOW.terms]),
    }
}

/// All terms, and another count; one in three has bytes after.
fn of_another_count(random: &mut Random) -> Vec<u8> {
    let stored = stored(random);
    let count = count(random, &stored, stored.terms.len());
    let mut roll = stored.write_with(count, &stored.terms);
    if random.once_in(3) {
        add_bytes(random, &stored, &mut roll);
    }
    roll
}

/// Terms exchanged, doubled, left out, cut off, changed or added, each whole.
fn of_other_terms(random: &mut Random) -> Vec<u8> {
    let stored = stored(random);
    let mut terms = stored.terms.clone();
    let (all, at) = (terms.len(), random.index(terms.len()));
    match random.below(9) {
        0 | 1 => terms.swap(at, random.index(all)),
        2 => terms.swap(at, (at + 1).min(all - 1)),
        3 => terms.insert(at, terms[at].clone()),
        4 => {
            terms.remove(at);
        }
        5 => terms.truncate(at),
        6 | 7 => change(random, &stored, &mut terms[at]),
        _ => {
            let twice = terms[at].clone();
            terms.push(twice);
        }
    }
    let count = count(random, &stored, terms.len());
    stored.write_with(count, &terms)
}

/// Another term that reads.
pub fn change(random: &mut Random, stored: &Stored, term: &mut Term) {
    let l: u32 = stored.orders.iter().map(|&o| u32::from(o)).sum();
    let most = l as usize + usize::from(stored.kind == 1);
    let size = second::table_size(stored.kind) as u64;
    let place = random.index(term.prefactors.len() + 1);
    match random.below(5) {
        0 => term.scale = rolls::scale(random),
        1 => term.boys = rolls::boys_order(random, stored.kind, l) as u8,
        2 if place < term.prefactors.len() => term.prefactors[place] = random.below(size) as u8,
        3 if place < term.prefactors.len() => {
            term.prefactors.remove(place);
        }
        4 if term.prefactors.len() < most => {
            term.prefactors.insert(place, random.below(size) as u8)
        }
        _ => term.scale += 1,
    }
}

/// Bytes lost, set or changed among the terms, once or twice.
fn of_other_bytes(random: &mut Random) -> Vec<u8> {
    let stored = stored(random);
    let mut roll = stored.write();
    for _ in 0..random.from_to(1, 2) {
        change_bytes(random, &stored, &mut roll);
    }
    roll
}

fn change_bytes(random: &mut Random, stored: &Stored, roll: &mut Vec<u8>) {
    let first = stored.terms_at().min(roll.len());
    let at = first + random.index(roll.len() - first + 1);
    let end = roll.len().min(at + random.from_to(1, 6) as usize);
    match random.below(11) {
        // At the front, in the middle, at the end.
        0 => {
            let end = roll.len().min(first + random.from_to(1, 6) as usize);
            roll.drain(first..end);
        }
        1 | 2 => {
            roll.drain(at..end);
        }
        3 => roll.truncate(at),
        4 => roll.truncate(roll.len().saturating_sub(random.from_to(1, 3) as usize)),
        // What is lost reads as one byte over and over.
        5 => roll[at..end].fill(random.one_of(&[0x00, 0xff, 0x80, 0x01])),
        6 if at < end => roll[at] = random.bits() as u8,
        7 if at < end => roll[at] ^= 1 << random.below(8),
        8 if at + 1 < end => roll.swap(at, at + 1),
        9 => roll.insert(at, random.one_of(&[0, 1, 2, 127, 128, 255])),
        _ => add_bytes(random, stored, roll),
    }
}

/// Bytes after the last term: zeros, any, or those of the first term once more.
fn add_bytes(random: &mut Random, stored: &Stored, roll: &mut Vec<u8>) {
    let count = random.from_to(1, 4) as usize;
    match random.below(3) {
        0 => roll.resize(roll.len() + count, 0),
        1 => roll.extend((0..count).map(|_| random.bits() as u8)),
        _ => {
            let one = stored.write_with(1, &stored.terms[..1]);
            roll.extend_from_slice(&one[stored.count_at() + 1..]);
        }
    }
}

fn of_another_header(random: &mut Random) -> Vec<u8> {
    let stored = stored(random);
    with_another_header(random, &stored)
}

/// The header cut, one of its bytes changed or lost, an order at its limit, a count out of range, or
/// the first byte of the other form or of another kind.
pub fn with_another_header(random: &mut Random, stored: &Stored) -> Vec<u8> {
    let mut roll = stored.write();
    let at = random.index(stored.terms_at());
    match random.below(9) {
        0 => roll.truncate(at),
        1 => {
            roll.remove(at);
        }
        2 => roll[at] = random.bits() as u8,
        3 => {
            let order = 1 + random.index(second::orders_used(stored.kind));
            roll[order] = random.below(u64::from(NOW.order_sum) + 2) as u8;
        }
        4 => {
            let count = random.one_of(&[0, NOW.terms, NOW.terms + 1, u32::MAX]);
            roll = stored.write_with(count, &stored.terms);
        }
        5 => roll[0] = random.below(24) as u8,
        6 => roll[0] = stored.kind + stored.form.other().added(),
        7 => {
            // Not the shortest form, or no end.
            roll[at] |= 128;
            if random.once_in(2) {
                roll.insert(at + 1, 0);
            }
        }
        _ => roll.insert(at, random.bits() as u8),
    }
    roll
}

/// A header whose request is beyond the cap, and no terms or some.
fn beyond_the_cap(random: &mut Random) -> Vec<u8> {
    let stored = Stored {
        form: any_form(random),
        kind: 4,
        orders: requests::beyond_the_cap(random),
        terms: Vec::new(),
    };
    let terms = [Term {
        scale: 1,
        ..Term::default()
    }];
    let count = random.one_of(&[1, NOW.terms]);
    stored.write_with(count, &terms[..random.index(2)])
}

/// The roll of the most terms that the cap lets through, with its first terms alone.
pub fn of_the_most_terms(form: Form) -> Vec<u8> {
    let stored = Stored::of(form, 4, &AT_THE_CAP[0]);
    stored.write_with(stored.terms.len() as u32, &stored.terms[..100])
}

/// Any damaged roll, and some that are not.
pub fn any(random: &mut Random) -> Vec<u8> {
    match random.below(40) {
        0..=3 => stored(random).write(),
        4..=8 => of_another_count(random),
        9..=18 => of_other_terms(random),
        19..=30 => of_other_bytes(random),
        31..=34 => of_another_header(random),
        35 => beyond_the_cap(random),
        36 => rolls::any(random),
        37 | 38 => form2_rolls::any(random),
        _ => form2_rolls::any_of_form_1(random),
    }
}

/// Requests of few terms beside the small rolls of form 1: three, six and five of them.
const OF_FEW_TERMS: [(u8, [u8; 12]); 3] = [
    (0, [3, 0, 0, 0, 0, 0, 0, 0, 0, 0, 0, 0]),
    (1, [2, 0, 0, 0, 0, 0, 0, 0, 0, 0, 0, 0]),
    (4, [1, 0, 0, 0, 0, 0, 1, 0, 0, 0, 0, 0]),
];

/// In both forms: of a small roll of each kind every byte tried, and of these and three more every
/// count and number of terms, and every two terms exchanged.
pub fn tried_one_by_one() -> Vec<Vec<u8>> {
    let mut rolls = Vec::new();
    for form in [Form::One, Form::Two] {
        for (kind, orders) in &rolls::SMALL {
            let stored = Stored::of(form, *kind, orders);
            bytes_tried(&stored, &mut rolls);
            terms_tried(&stored, &mut rolls);
        }
        for (kind, orders) in &OF_FEW_TERMS {
            terms_tried(&Stored::of(form, *kind, orders), &mut rolls);
        }
    }
    rolls
}

/// Cut at each place; each byte left out, and doubled; each order from 0 to one above its limit; each
/// other byte of each value.
fn bytes_tried(stored: &Stored, rolls: &mut Vec<Vec<u8>>) {
    let roll = stored.write();
    rolls.extend((0..=roll.len()).map(|cut| roll[..cut].to_vec()));
    for at in 0..roll.len() {
        rolls.push([&roll[..at], &roll[at + 1..]].concat());
        rolls.push([&roll[..=at], &roll[at..]].concat());
        let is_order = (1..stored.count_at()).contains(&at);
        let most = if is_order { NOW.order_sum + 1 } else { 255 };
        for byte in 0..=most {
            let mut changed = roll.clone();
            changed[at] = byte;
            rolls.push(changed);
        }
    }
}

/// Each count from 0 to two above the right one with each number of leading terms, nothing or bytes
/// after them; each two terms exchanged; each term doubled, and left out.
fn terms_tried(stored: &Stored, rolls: &mut Vec<Vec<u8>>) {
    let terms = &stored.terms;
    let all = terms.len() as u32;
    for count in 0..=all + 2 {
        for there in 0..=terms.len() {
            let roll = stored.write_with(count, &terms[..there]);
            rolls.push([&roll[..], &[0]].concat());
            rolls.push([&roll[..], &[1, 0, 0]].concat());
            rolls.push(roll);
        }
    }
    for at in 0..terms.len() {
        for other in 0..at {
            let mut exchanged = terms.clone();
            exchanged.swap(at, other);
            rolls.push(stored.write_with(all, &exchanged));
        }
        let doubled = [&terms[..=at], &terms[at..]].concat();
        let left_out = [&terms[..at], &terms[at + 1..]].concat();
        for count in [all - 1, all, all + 1] {
            rolls.push(stored.write_with(count, &doubled));
            rolls.push(stored.write_with(count, &left_out));
        }
    }
}

/// The length of the fresh roll that is written; some number where there is none.
pub fn length_salvaged(roll: &[u8]) -> u64 {
    let form = Form::of(roll);
    match (NOW.open_in(form, roll), form) {
        (Ok(header), Form::One) => requests::length_expanded(header.kind, &header.orders),
        (Ok(header), Form::Two) => form2_rolls::length_expanded(header.kind, &header.orders),
        _ => 100,
    }
}
