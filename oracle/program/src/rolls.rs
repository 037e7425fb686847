//! Rolls for questions: fresh ones, legal ones that no expansion gives, and bad ones.

use crate::random::Random;
use crate::requests::{self, AT_THE_LISTING, LONG};
use crate::rust_side;
use crate::second::{self, Form, Term, BEFORE, NOW};

/// The numbers of a legal roll, in order; what the terms say is left to chance.
fn numbers(random: &mut Random) -> Vec<u32> {
    let kind = random.below(5) as u8;
    numbers_of(random, kind)
}

fn numbers_of(random: &mut Random, kind: u8) -> Vec<u32> {
    let orders = requests::any(random, kind);
    let l: u32 = orders.iter().map(|&o| u32::from(o)).sum();
    let count = match random.below(10) {
        0 => random.from_to(1, 200),
        _ => random.from_to(1, 6),
    };
    let mut list = vec![u32::from(kind)];
    list.extend(
        orders[..second::orders_used(kind)]
            .iter()
            .map(|&o| u32::from(o)),
    );
    list.push(count as u32);
    for _ in 0..count {
        term_numbers(random, &mut list, kind, l);
    }
    list
}

/// The limits, and the least and most that take so many bytes.
const SCALES: [u32; 12] = [
    NOW.scale,
    NOW.scale - 1,
    BEFORE.scale,
    BEFORE.scale + 1,
    1 << 28,
    (1 << 28) - 1,
    1 << 21,
    (1 << 21) - 1,
    1 << 14,
    (1 << 14) - 1,
    1 << 7,
    (1 << 7) - 1,
];

pub fn scale(random: &mut Random) -> u32 {
    match random.below(4) {
        0 => random.from_to(1, NOW.scale.into()) as u32,
        1 => random.one_of(&SCALES),
        _ => random.from_to(1, 4) as u32,
    }
}

pub fn boys_order(random: &mut Random, kind: u8, l: u32) -> u32 {
    match kind {
        2 | 4 => random.from_to(0, l.into()) as u32,
        _ => 0,
    }
}

fn term_numbers(random: &mut Random, list: &mut Vec<u32>, kind: u8, l: u32) {
    let scale = scale(random);
    let boys = boys_order(random, kind, l);
    let most = if kind == 1 { l + 1 } else { l };
    let count = match random.below(3) {
        0 => u64::from(most),
        _ => random.from_to(0, most.into()),
    };
    list.extend([scale, boys, count as u32]);
    let size = second::table_size(kind) as u64;
    for _ in 0..count {
        list.push(random.below(size) as u32);
    }
}

pub fn write(list: &[u32]) -> Vec<u8> {
    let mut out = Vec::new();
    for &number in list {
        second::write_number(&mut out, number);
    }
    out
}

/// A legal roll, most often one that no expansion gives.
pub fn legal(random: &mut Random) -> Vec<u8> {
    write(&numbers(random))
}

pub fn legal_of(random: &mut Random, kind: u8) -> Vec<u8> {
    write(&numbers_of(random, kind))
}

/// A roll of the Rust's own terms.
pub fn fresh(random: &mut Random) -> Vec<u8> {
    let kind = random.below(5) as u8;
    fresh_of(random, kind)
}

pub fn fresh_of(random: &mut Random, kind: u8) -> Vec<u8> {
    let orders = requests::short(random, kind);
    rust_side::roll(kind, &orders)
}

/// A roll of the Rust's own terms that may be long.
pub fn fresh_and_long(random: &mut Random) -> Vec<u8> {
    let orders = requests::any_of(random, 4, 1..=LONG);
    rust_side::roll(4, &orders)
}

/// A Coulomb roll of the Rust's own terms in another order, one in three with a term twice.
pub fn rearranged(random: &mut Random) -> Vec<u8> {
    let orders = requests::short(random, 4);
    let mut terms = rust_side::terms(4, &orders);
    let count = terms.len();
    match random.below(5) {
        0 => terms.reverse(),
        1 => terms.sort_by_key(|term| term.boys),
        2 => terms.sort_by_key(|term| u8::MAX - term.boys),
        3 => terms.swap(random.index(count), random.index(count)),
        _ => (1..count).for_each(|at| terms.swap(at, random.index(at + 1))),
    }
    if random.once_in(3) {
        let twice = terms[random.index(count)].clone();
        terms.insert(random.index(count + 1), twice);
    }
    second::write_roll(4, &orders, &terms)
}

/// A legal roll of many short terms.
fn of_count(random: &mut Random, count: u64) -> Vec<u8> {
    let kind = random.below(5) as u8;
    let orders = requests::any(random, kind);
    let term = Term {
        scale: 1,
        ..Term::default()
    };
    second::write_roll(kind, &orders, &vec![term; count as usize])
}

/// A legal roll of at most this length with as many terms of the largest scale as fit, so that
/// the sum of its scales is the largest.
pub fn of_largest_scales(most: usize) -> Vec<u8> {
    let term = Term {
        scale: NOW.scale,
        ..Term::default()
    };
    let of = |count: usize| second::write_roll(0, &[0; 12], &vec![term.clone(); count]);
    let each = of(2).len() - of(1).len();
    // The count of so many takes three bytes, that of one term a byte.
    let header = of(1).len() - each + 2;
    of((most - header) / each)
}

/// A Coulomb roll of at most this length, which is large, with as many terms as fit: all Boys
/// orders in turn, from the highest down.
pub fn of_most_terms(most: usize) -> Vec<u8> {
    let orders = [6, 0, 0, 6, 0, 0, 6, 0, 0, 6, 0, 0];
    let l = NOW.l(4);
    let term = |at: usize| Term {
        scale: 1 + at as u32 % 127,
        boys: l - (at % (usize::from(l) + 1)) as u8,
        prefactors: Vec::new(),
    };
    let of =
        |count: usize| second::write_roll(4, &orders, &(0..count).map(term).collect::<Vec<_>>());
    let each = of(2).len() - of(1).len();
    // The count of so many takes three bytes, that of one term a byte.
    let header = of(1).len() - each + 2;
    of((most - header) / each)
}

/// A roll of these numbers with one changed, mostly by little, or to a limit.
pub fn one_number_changed(random: &mut Random, mut list: Vec<u32>) -> Vec<u8> {
    let at = random.index(list.len().min(40));
    list[at] = match random.below(4) {
        0 => list[at].wrapping_add(1),
        1 => list[at].wrapping_sub(1),
        2 => random.below(27) as u32,
        _ => random.one_of(&[127, 128, 1 << 28, u32::MAX, u32::MAX - 1]),
    };
    write(&list)
}

/// A roll of these numbers with an order, the count, or a number of its first term at its limit
/// or one beyond.
pub fn one_number_at_its_limit(random: &mut Random, form: Form, mut list: Vec<u32>) -> Vec<u8> {
    let used = second::orders_used(list[0] as u8 - form.added());
    let l: u32 = list[1..=used].iter().sum();
    let order = 1 + random.index(used);
    let first_of_centre = order - (order - 1) % 3;
    let sum: u32 = list[first_of_centre..order].iter().sum();
    let (at, limit) = match random.below(8) {
        0 => (order, u32::from(NOW.order_sum) - sum),
        1 => (used + 1, NOW.terms),
        2 => (used + 1, BEFORE.terms),
        3 => (used + 2, NOW.scale),
        4 => (used + 2, BEFORE.scale),
        5 => (used + 2, u32::MAX - 1),
        6 => (used + 3, l),
        // Kinetic may have one more. A shared length stands before it in form 2.
        _ if form == Form::Two => (used + 5, l + random.below(2) as u32),
        _ => (used + 4, l + random.below(2) as u32),
    };
    list[at] = limit + random.below(2) as u32;
    write(&list)
}

/// A roll of these numbers with one not in its shortest form, or too large.
pub fn one_long_number(random: &mut Random, list: &[u32]) -> Vec<u8> {
    let at = random.index(list.len().min(40));
    let mut out = write(&list[..at]);
    let mut number = Vec::new();
    second::write_number(&mut number, list[at]);
    match random.below(3) {
        0 => {
            // The same number with groups of zeros after it.
            for _ in 0..random.from_to(1, 5) {
                let last = number.len() - 1;
                number[last] |= 128;
                number.push(0);
            }
        }
        1 => {
            // Five bytes, the fifth around its limit.
            number = vec![128, 128, 128, 128];
            number.push(random.one_of(&[0, 1, 15, 16, 31, 0x7f, 0x80, 0x8f, 0x90, 0xff]));
            if random.once_in(2) {
                number.push(random.below(3) as u8);
            }
        }
        _ => number = vec![random.one_of(&[128, 129, 255]); random.from_to(1, 6) as usize],
    }
    out.extend(number);
    out.extend(write(&list[at + 1..]));
    out
}

fn fresh_or_legal(random: &mut Random) -> Vec<u8> {
    if random.once_in(2) {
        fresh(random)
    } else {
        legal(random)
    }
}

/// Bytes set, cut, inserted, doubled, left out or added.
pub fn damaged(random: &mut Random, mut roll: Vec<u8>) -> Vec<u8> {
    for _ in 0..random.from_to(1, 2) {
        let at = random.index(roll.len().max(1));
        match random.below(7) {
            0 if at < roll.len() => roll[at] = random.bits() as u8,
            1 if at < roll.len() => roll[at] ^= 1 << random.below(8),
            2 => roll.truncate(at),
            3 => roll.insert(at, random.bits() as u8),
            4 if at < roll.len() => roll.insert(at, roll[at]),
            5 if at < roll.len() => {
                roll.remove(at);
            }
            _ => roll.extend(vec![0; random.from_to(1, 3) as usize]),
        }
    }
    roll
}

pub fn random_bytes(random: &mut Random) -> Vec<u8> {
    let length = random.below(40);
    let most = random.one_of(&[1, 2, 5, 24, 128, 256]);
    (0..length).map(|_| random.below(most) as u8).collect()
}

/// A legal roll of exactly this length, which is large.
pub fn of_length(random: &mut Random, length: usize) -> Vec<u8> {
    let kind = random.one_of(&[2, 3, 4]);
    let mut orders = [0; 12];
    for order in orders[..second::orders_used(kind)].iter_mut().step_by(3) {
        *order = NOW.order_sum;
    }
    let l = orders.iter().sum::<u8>();
    let size = second::table_size(kind) as u64;
    let mut list: Vec<Term> = Vec::new();
    let term = |random: &mut Random, count: usize| Term {
        scale: random.from_to(1, 127) as u32,
        boys: 0,
        prefactors: (0..count).map(|_| random.below(size) as u8).collect(),
    };
    // The count takes three bytes from 16,384 terms on and two below.
    let header = 1 + second::orders_used(kind);
    let room = |terms: usize| length - header - if terms >= 16_384 { 3 } else { 2 };
    let each = 3 + usize::from(l) / 2;
    let terms = room(length / each) / each;
    let mut left = room(terms);
    for at in 0..terms {
        let share = left / (terms - at);
        list.push(term(random, share - 3));
        left -= share;
    }
    second::write_roll(kind, &orders, &list)
}

/// Small rolls, one of each kind, whose bytes are tried one by one.
pub const SMALL: [(u8, [u8; 12]); 5] = [
    (0, [1, 0, 0, 1, 0, 0, 0, 0, 0, 0, 0, 0]),
    (1, [1, 0, 0, 0, 0, 0, 0, 0, 0, 0, 0, 0]),
    (2, [0, 0, 0, 1, 0, 0, 0, 0, 0, 0, 0, 0]),
    (3, [0, 0, 0, 0, 0, 0, 1, 0, 0, 0, 0, 0]),
    (4, [0, 0, 0, 0, 0, 0, 1, 0, 0, 0, 0, 0]),
];

/// What is cut everywhere: this many rolls, none longer than this. They are the same in every run.
const CUT: usize = 200;
const LONGEST_CUT: usize = 64;

/// Rolls to be cut: fresh and legal ones, and some that a number spoils.
pub fn to_be_cut() -> Vec<Vec<u8>> {
    let mut random = Random::new(5);
    let mut rolls = Vec::new();
    while rolls.len() < CUT {
        let roll = match rolls.len() % 5 {
            0 | 1 => fresh(&mut random),
            2 | 3 => legal(&mut random),
            _ => {
                let list = numbers(&mut random);
                one_long_number(&mut random, &list)
            }
        };
        if roll.len() <= LONGEST_CUT {
            rolls.push(roll);
        }
    }
    rolls
}

/// Each roll to be cut, cut at each place; each small roll, cut at each place, and with each
/// byte set to each value.
pub fn tried_one_by_one() -> Vec<Vec<u8>> {
    let mut rolls = Vec::new();
    for roll in to_be_cut() {
        for cut in 0..roll.len() {
            rolls.push(roll[..cut].to_vec());
        }
    }
    for (kind, orders) in &SMALL {
        cut_and_changed(&rust_side::roll(*kind, orders), &mut rolls);
    }
    rolls
}

/// A roll cut at each place, and with each byte set to each value.
pub fn cut_and_changed(roll: &[u8], rolls: &mut Vec<Vec<u8>>) {
    for cut in 0..=roll.len() {
        rolls.push(roll[..cut].to_vec());
    }
    for at in 0..roll.len() {
        for byte in 0..=255 {
            let mut changed = roll.to_vec();
            changed[at] = byte;
            rolls.push(changed);
        }
    }
}

/// Any roll, good or bad.
pub fn any(random: &mut Random) -> Vec<u8> {
    match random.below(6_000) {
        0..=9 => {
            let length = random.from_to(65_530, 65_542) as usize;
            of_length(random, length)
        }
        10..=14 => {
            let length = random.from_to(65_536, 80_000) as usize;
            of_length(random, length)
        }
        15..=17 => fresh_and_long(random),
        18..=20 => rust_side::roll(3, &random.one_of(&AT_THE_LISTING)),
        21..=23 => {
            let least = u64::from(BEFORE.terms);
            let most = random.one_of(&[least + 2, 300_000]);
            let count = random.from_to(least, most);
            of_count(random, count)
        }
        24..=1_000 => fresh(random),
        1_001..=2_300 => legal(random),
        2_301..=3_200 => {
            let list = numbers(random);
            one_number_changed(random, list)
        }
        3_201..=3_700 => {
            let list = numbers(random);
            one_number_at_its_limit(random, Form::One, list)
        }
        3_701..=4_500 => {
            let list = numbers(random);
            one_long_number(random, &list)
        }
        4_501..=5_500 => {
            let roll = fresh_or_legal(random);
            damaged(random, roll)
        }
        _ => random_bytes(random),
    }
}
