//! Rolls for questions of form 2: fresh ones, legal ones whose terms share beginnings, and bad
//! ones; and rolls of form 1 to be moved.

use crate::random::Random;
use crate::requests::{self, LONG};
use crate::rolls;
use crate::rust_side;
use crate::second::{self, Form, Term};

/// What a roll says.
#[derive(Clone)]
pub struct Said {
    pub kind: u8,
    pub orders: [u8; 12],
    pub terms: Vec<Term>,
}

impl Said {
    pub fn most_prefactors(&self) -> usize {
        let l: usize = self.orders.iter().map(|&o| usize::from(o)).sum();
        l + usize::from(self.kind == 1)
    }

    pub fn write(&self, form: Form) -> Vec<u8> {
        second::write_roll_in(form, self.kind, &self.orders, &self.terms)
    }
}

/// Legal terms, each of which begins as the one before.
pub fn said(random: &mut Random) -> Said {
    let kind = random.below(5) as u8;
    let mut said = Said {
        kind,
        orders: requests::any(random, kind),
        terms: Vec::new(),
    };
    let count = match random.below(10) {
        0 => random.from_to(1, 200),
        _ => random.from_to(1, 6),
    };
    for _ in 0..count {
        let term = next_term(random, &said);
        said.terms.push(term);
    }
    said
}

/// A term that begins as the last one: with none of it, with some, or with all.
fn next_term(random: &mut Random, said: &Said) -> Term {
    let before = said.terms.last().map_or(&[][..], |term| &term.prefactors);
    let l = said.orders.iter().map(|&o| u32::from(o)).sum();
    let kept = match random.below(4) {
        0 => 0,
        1 => before.len(),
        _ => random.index(before.len() + 1),
    };
    let room = said.most_prefactors() - kept;
    let further = match random.below(4) {
        0 => 0,
        1 => room,
        _ => random.index(room + 1),
    };
    // A small alphabet, so that neighbours share more than was kept.
    let size = match random.below(3) {
        0 => 2,
        _ => second::table_size(said.kind) as u64,
    };
    let mut prefactors = before[..kept].to_vec();
    prefactors.extend((0..further).map(|_| random.below(size) as u8));
    Term {
        scale: rolls::scale(random),
        boys: rolls::boys_order(random, said.kind, l) as u8,
        prefactors,
    }
}

/// A legal roll of terms that share beginnings, most often one that no expansion gives.
pub fn legal(random: &mut Random, form: Form) -> Vec<u8> {
    said(random).write(form)
}

/// A roll of the Rust's own terms.
pub fn fresh(random: &mut Random) -> Vec<u8> {
    let kind = random.below(5) as u8;
    let orders = requests::short(random, kind);
    rust_side::roll_in(Form::Two, kind, &orders)
}

fn fresh_and_long(random: &mut Random) -> Vec<u8> {
    let orders = requests::any_of(random, 4, 1..=LONG);
    rust_side::roll_in(Form::Two, 4, &orders)
}

/// Equal terms, as many as a line has room for, with as many prefactors as there may be: the same
/// roll is far longer in form 1.
fn of_equal_terms(random: &mut Random) -> Vec<u8> {
    let kind = random.below(5) as u8;
    let orders = requests::any(random, kind);
    let mut said = Said {
        kind,
        orders,
        terms: Vec::new(),
    };
    let term = Term {
        scale: random.from_to(1, 127) as u32,
        boys: 0,
        prefactors: vec![random.below(8) as u8; said.most_prefactors()],
    };
    let count = random.from_to(1, 250_000) as usize;
    said.terms = vec![term; count];
    said.write(Form::Two)
}

/// The numbers of a term as form 2 writes them.
struct Numbers {
    scale: u32,
    boys: u32,
    shared: u32,
    count: u32,
    further: Vec<u32>,
}

fn numbers_of(term: &Term, before: &[u8]) -> Numbers {
    let shared = second::shared_length(before, &term.prefactors);
    let further = term.prefactors[shared..].iter().map(|&p| p.into());
    Numbers {
        scale: term.scale,
        boys: term.boys.into(),
        shared: shared as u32,
        count: (term.prefactors.len() - shared) as u32,
        further: further.collect(),
    }
}

fn numbers(said: &Said) -> Vec<Numbers> {
    let none = Term::default();
    let before = std::iter::once(&none).chain(&said.terms);
    let pairs = said.terms.iter().zip(before);
    pairs
        .map(|(term, before)| numbers_of(term, &before.prefactors))
        .collect()
}

/// All numbers of a roll, in order.
fn list(said: &Said, terms: &[Numbers]) -> Vec<u32> {
    let mut list = vec![u32::from(said.kind + Form::Two.added())];
    let orders = said.orders[..second::orders_used(said.kind)].iter();
    list.extend(orders.map(|&order| u32::from(order)));
    list.push(terms.len() as u32);
    for term in terms {
        list.extend([term.scale, term.boys, term.shared, term.count]);
        list.extend(&term.further);
    }
    list
}

fn legal_numbers(random: &mut Random) -> Vec<u32> {
    let said = said(random);
    list(&said, &numbers(&said))
}

/// A term's number of shared prefactors lowered, the others written out: not the longest.
fn share_fewer(term: &mut Numbers, before: &[u8], fewer: u32) {
    let shared = term.shared - fewer.min(term.shared);
    let written = &before[shared as usize..term.shared as usize];
    let written: Vec<u32> = written.iter().map(|&p| p.into()).collect();
    term.count += written.len() as u32;
    term.further.splice(..0, written);
    term.shared = shared;
}

/// One of the faults that form 2 alone has, or what comes close to one.
fn wrongly_shared(random: &mut Random) -> Vec<u8> {
    let said = said(random);
    let mut terms = numbers(&said);
    let sharing: Vec<usize> = (0..terms.len()).filter(|&t| terms[t].shared > 0).collect();
    let at = if sharing.is_empty() || random.once_in(4) {
        random.index(terms.len())
    } else {
        random.one_of(&sharing)
    };
    let before = match at {
        0 => &[][..],
        _ => &said.terms[at - 1].prefactors,
    };
    spoil(random, &said, before, &mut terms[at]);
    let mut list = list(&said, &terms);
    if random.once_in(8) {
        list.truncate(random.index(list.len()));
    }
    rolls::write(&list)
}

fn spoil(random: &mut Random, said: &Said, before: &[u8], term: &mut Numbers) {
    let room = (said.most_prefactors() as u32).saturating_sub(term.shared);
    let size = second::table_size(said.kind) as u32;
    let length = before.len() as u32;
    match random.below(12) {
        // One too short, or by some more.
        0..=2 => share_fewer(term, before, 1),
        3 => {
            let fewer = random.below(u64::from(term.shared) + 1) as u32;
            share_fewer(term, before, fewer)
        }
        // One too long, by itself or in place of a further prefactor.
        4 => term.shared += 1,
        5 => {
            term.shared += 1;
            if term.count > 0 {
                term.count -= 1;
                term.further.remove(0);
            }
        }
        // Beyond the term before.
        6 => term.shared = length + 1,
        7 => term.shared = random.one_of(&[length, length + 2, 24, 25, 127, 128, u32::MAX]),
        // As many further ones as there may be, and one more.
        8 => fill(random, term, room, size),
        9 => fill(random, term, room + 1, size),
        // One more than there may be, and the shared length not the longest.
        10 => {
            fill(random, term, room + 1, size);
            share_fewer(term, before, 1)
        }
        _ => {
            if let Some(first) = term.further.first_mut() {
                let follows = before.get(term.shared as usize);
                let follows = follows.map_or(size, |&p| p.into());
                *first = random.one_of(&[follows, size, size - 1, 127, 128, u32::MAX]);
            }
        }
    }
}

/// So many further prefactors.
fn fill(random: &mut Random, term: &mut Numbers, count: u32, size: u32) {
    let by = random.below(size.into()) as u32;
    term.further.resize(count as usize, by);
    term.count = count;
}

/// A roll of one form with the first number of the other.
fn under_another_form(random: &mut Random) -> Vec<u8> {
    let mut roll = match random.below(3) {
        0 => rolls::fresh(random),
        1 => rolls::legal(random),
        _ => legal(random, Form::One),
    };
    roll[0] += Form::Two.added();
    roll
}

/// Bytes that begin as form 2 does.
fn random_bytes(random: &mut Random) -> Vec<u8> {
    let mut roll = rolls::random_bytes(random);
    if let Some(first) = roll.first_mut() {
        *first = random.from_to(15, 21) as u8;
    }
    roll
}

/// A small roll of a kind, whose bytes are tried one by one: [0,1] and 2[0,2].
fn small(kind: u8) -> Vec<u8> {
    let mut orders = [0; 12];
    orders[0] = 1;
    orders[second::orders_used(kind) - 3] = 1;
    let boys = u8::from(kind == 2 || kind == 4);
    let first = Term {
        scale: 1,
        boys: 0,
        prefactors: vec![0, 1],
    };
    let second = Term {
        scale: 2,
        boys,
        prefactors: vec![0, 2],
    };
    second::write_roll_in(Form::Two, kind, &orders, &[first, second])
}

/// What is cut everywhere: this many rolls, none longer than this. They are the same in every run.
const CUT: usize = 100;
const LONGEST_CUT: usize = 64;

/// Rolls to be cut: fresh and legal ones, and some with a fault.
pub fn to_be_cut() -> Vec<Vec<u8>> {
    let mut random = Random::new(7);
    let mut rolls = Vec::new();
    while rolls.len() < CUT {
        let roll = match rolls.len() % 5 {
            0 | 1 => fresh(&mut random),
            2 | 3 => legal(&mut random, Form::Two),
            _ => wrongly_shared(&mut random),
        };
        if roll.len() <= LONGEST_CUT {
            rolls.push(roll);
        }
    }
    rolls
}

/// Each roll to be cut, cut at each place; a small roll of each kind, cut at each place, and with
/// each byte set to each value.
pub fn tried_one_by_one() -> Vec<Vec<u8>> {
    let mut rolls = Vec::new();
    for roll in to_be_cut() {
        rolls.extend((0..roll.len()).map(|cut| roll[..cut].to_vec()));
    }
    for kind in 0..5 {
        rolls::cut_and_changed(&small(kind), &mut rolls);
    }
    rolls
}

/// Any roll for the readers of form 2, good or bad.
pub fn any(random: &mut Random) -> Vec<u8> {
    match random.below(6_000) {
        0..=2 => fresh_and_long(random),
        3..=5 => of_equal_terms(random),
        6..=1_000 => fresh(random),
        1_001..=2_200 => legal(random, Form::Two),
        2_201..=3_700 => wrongly_shared(random),
        3_701..=4_200 => {
            let list = legal_numbers(random);
            rolls::one_number_changed(random, list)
        }
        4_201..=4_500 => {
            let list = legal_numbers(random);
            rolls::one_number_at_its_limit(random, Form::Two, list)
        }
        4_501..=4_900 => {
            let list = legal_numbers(random);
            rolls::one_long_number(random, &list)
        }
        4_901..=5_500 => {
            let roll = if random.once_in(2) {
                fresh(random)
            } else {
                legal(random, Form::Two)
            };
            rolls::damaged(random, roll)
        }
        5_501..=5_650 => rolls::any(random),
        5_651..=5_850 => under_another_form(random),
        _ => random_bytes(random),
    }
}

/// Any roll for the move from form 1 to form 2, good or bad.
pub fn any_of_form_1(random: &mut Random) -> Vec<u8> {
    match random.below(20) {
        0..=10 => rolls::any(random),
        11..=16 => legal(random, Form::One),
        17 => any(random),
        _ => {
            let mut roll = any(random);
            if let Some(first) = roll.first_mut() {
                *first = first.wrapping_sub(Form::Two.added());
            }
            roll
        }
    }
}

/// The length of a roll in the other form; some number where it does not read.
pub fn length_moved(to: Form, roll: &[u8]) -> u64 {
    second::moved(to, roll).map_or(100, |(_, moved)| moved.len() as u64)
}

/// The length of a request's roll in form 2; some number where there is none.
pub fn length_expanded(kind: u8, orders: &[u8; 12]) -> u64 {
    match second::check_measured(kind, orders) {
        Ok(()) => second::fresh_roll(Form::Two, kind, orders).len() as u64,
        Err(_) => 100,
    }
}
