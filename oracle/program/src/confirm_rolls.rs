//! Rolls to be confirmed: fresh ones of either form, and those that read and are not the
//! expansion of their header: terms made one, parted, doubled, exchanged, lost or changed, other counts and other
//! orders; and those that don't read, or whose request is beyond the cap.

use crate::random::Random;
use crate::requests::{self, LONG};
use crate::salvage_rolls::{self, stored, Stored};
use crate::second::{self, Form, Term, NOW};
use crate::{form2_rolls, rolls};

/// The terms of a roll changed, each whole, and their count, which is mostly that of the terms.
pub fn of_other_terms(random: &mut Random, stored: &Stored) -> Vec<u8> {
    let mut terms = stored.terms.clone();
    for _ in 0..random.one_of(&[1, 1, 1, 2]) {
        change_terms(random, stored, &mut terms);
    }
    let (there, all) = (terms.len() as u32, stored.terms.len() as u32);
    let count = match random.below(8) {
        0 => all,
        1 => there + 1,
        _ => there,
    };
    stored.write_with(count, &terms)
}

fn change_terms(random: &mut Random, stored: &Stored, terms: &mut Vec<Term>) {
    let (all, at) = (terms.len(), random.index(terms.len()));
    match random.below(12) {
        0 | 1 => merge(random, terms),
        2 => part(random, terms),
        3 => terms.insert(at, terms[at].clone()),
        4 => terms.push(terms[at].clone()),
        5 if all > 1 => {
            terms.remove(at);
        }
        6 if all > 1 => terms.truncate(at.max(1)),
        7 => terms.swap(at, random.index(all)),
        8 => terms.swap(at, (at + 1).min(all - 1)),
        9 => terms.sort_by_key(|term| term.boys),
        _ => salvage_rolls::change(random, stored, &mut terms[at]),
    }
}

/// Terms are looked through up to here for two that say the same.
const LOOKED_THROUGH: usize = 60;

/// Two terms made one with the sum of their scales: two that have the same prefactors, in whatever
/// order, where there are such, else neighbours.
fn merge(random: &mut Random, terms: &mut Vec<Term>) {
    let says = |term: &Term| {
        let mut prefactors = term.prefactors.clone();
        prefactors.sort_unstable();
        (term.boys, prefactors)
    };
    let said: Vec<_> = terms.iter().take(LOOKED_THROUGH).map(says).collect();
    let mut pairs = Vec::new();
    for later in 0..said.len() {
        let alike = (0..later).filter(|&earlier| said[earlier] == said[later]);
        pairs.extend(alike.map(|earlier| (earlier, later)));
    }
    let (earlier, later) = match (pairs.len(), terms.len()) {
        (0, 1) => return terms[0].scale += 1,
        (0, all) => {
            let at = random.index(all - 1);
            (at, at + 1)
        }
        _ => random.one_of(&pairs),
    };
    let gone = terms.remove(later);
    terms[earlier].scale += gone.scale;
}

/// A term of a scale above 1 made two, one behind the other, where there is such.
fn part(random: &mut Random, terms: &mut Vec<Term>) {
    let scaled: Vec<usize> = (0..terms.len()).filter(|&t| terms[t].scale > 1).collect();
    match scaled.len() {
        0 => terms[0].scale += 1,
        _ => {
            let at = random.one_of(&scaled);
            let mut first = terms[at].clone();
            first.scale = random.from_to(1, u64::from(first.scale) - 1) as u32;
            terms[at].scale -= first.scale;
            terms.insert(at, first);
        }
    }
}

/// The same terms with another count, or an order raised, lowered or exchanged for another, or
/// another kind, with the count that is right for the other request or as it was.
pub fn of_another_request(random: &mut Random, mut stored: Stored) -> Vec<u8> {
    let there = stored.terms.len() as u32;
    let used = second::orders_used(stored.kind);
    let (at, other) = (random.index(used), random.index(used));
    let orders = stored.orders;
    match random.below(6) {
        0 => stored.orders.swap(at, other),
        1 => stored.orders[at] += 1,
        2 => stored.orders[at] = stored.orders[at].saturating_sub(1),
        3 => stored.orders.rotate_right(3),
        4 => stored.kind = random.below(5) as u8,
        _ => {
            let count = random.one_of(&[1, there + 1, (there - 1).max(1), 127, 128, NOW.terms]);
            return stored.write_with(count, &stored.terms);
        }
    }
    let count = match second::check_measured(stored.kind, &stored.orders) {
        Ok(()) if orders != stored.orders && random.once_in(4) => {
            second::count_histories(stored.kind, &stored.orders, NOW.terms)
        }
        _ => there,
    };
    stored.write_with(count, &stored.terms)
}

/// A request beyond the cap with terms that read, some of them cut or with a fault.
fn beyond_the_cap(random: &mut Random) -> Vec<u8> {
    let stored = Stored {
        form: random.one_of(&[Form::One, Form::Two]),
        kind: 4,
        orders: requests::beyond_the_cap(random),
        terms: Vec::new(),
    };
    let mut term = Term {
        scale: rolls::scale(random),
        ..Term::default()
    };
    let mut terms = Vec::new();
    for _ in 0..random.from_to(1, 4) {
        terms.push(term.clone());
        term.prefactors.push(random.below(23) as u8);
    }
    let mut roll = stored.write_with(terms.len() as u32, &terms);
    if random.once_in(3) {
        roll = rolls::damaged(random, roll);
    }
    roll
}

/// A fresh roll that may be long, now and then with a term changed.
fn long(random: &mut Random) -> Vec<u8> {
    let form = random.one_of(&[Form::One, Form::Two]);
    let stored = Stored::of(form, 4, &requests::any_of(random, 4, 1..=LONG));
    if random.once_in(2) {
        stored.write()
    } else {
        of_other_terms(random, &stored)
    }
}

/// Any roll to be confirmed or not.
pub fn any(random: &mut Random) -> Vec<u8> {
    if random.once_in(1_000) {
        return long(random);
    }
    match random.below(40) {
        0..=9 => stored(random).write(),
        10..=20 => {
            let stored = stored(random);
            of_other_terms(random, &stored)
        }
        21..=27 => {
            let stored = stored(random);
            of_another_request(random, stored)
        }
        28..=30 => {
            let roll = stored(random).write();
            rolls::damaged(random, roll)
        }
        31 => {
            let roll = stored(random).write();
            roll[..random.index(roll.len())].to_vec()
        }
        32 | 33 => beyond_the_cap(random),
        34 => {
            let stored = stored(random);
            salvage_rolls::with_another_header(random, &stored)
        }
        35 | 36 => salvage_rolls::any(random),
        37 => rolls::any(random),
        38 => form2_rolls::any_of_form_1(random),
        _ => form2_rolls::any(random),
    }
}
