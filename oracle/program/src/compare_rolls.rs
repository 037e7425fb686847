//! Pairs of rolls for questions: those of two boards that agree, that differ in one term or in many,
//! in length, kind, orders or form, and those of which one or both can't be read.

use crate::form2_rolls::{self, Said};
use crate::parse::LONGEST_LINE;
use crate::random::Random;
use crate::requests::{self, LONG};
use crate::second::{self, Form, Term, NOW};
use crate::{rolls, rust_side};

pub type Pair = (Vec<u8>, Vec<u8>);

fn any_form(random: &mut Random) -> Form {
    random.one_of(&[Form::One, Form::Two])
}

/// What a board holds: the Rust's own terms, or others that read.
fn board(random: &mut Random) -> Said {
    let kind = random.below(5) as u8;
    let orders = match random.below(2_000) {
        0 => requests::any_of(random, kind, 1..=LONG / 4),
        1..=100 => requests::short(random, kind),
        101..=1_000 => requests::small(random, kind),
        _ => return form2_rolls::said(random),
    };
    Said {
        kind,
        orders,
        terms: rust_side::terms(kind, &orders),
    }
}

/// Another board, which differs in nothing, in one thing or in some.
fn other_board(random: &mut Random, board: &Said) -> Said {
    let mut other = board.clone();
    for _ in 0..random.one_of(&[0, 1, 1, 1, 2, 3]) {
        change(random, &mut other);
    }
    other
}

fn change(random: &mut Random, board: &mut Said) {
    let (count, at) = (board.terms.len(), random.index(board.terms.len()));
    match random.below(16) {
        0..=4 => change_term(random, board, at),
        5 => {
            let one_in = random.one_of(&[1, 2, 5]);
            for at in 0..count {
                if random.once_in(one_in) {
                    change_term(random, board, at);
                }
            }
        }
        // The length: at the end, or further up, so that what follows stands elsewhere.
        6 => board.terms.truncate(at.max(1)),
        7 => {
            let more = random.from_to(1, 4) as usize;
            board.terms.resize(count + more, board.terms[at].clone())
        }
        8 => board.terms.insert(at, board.terms[at].clone()),
        9 if count > 1 => {
            board.terms.remove(at);
        }
        10 => board.terms.swap(at, random.index(count)),
        11 => board.terms.swap(at, (at + 1).min(count - 1)),
        12 | 13 => change_orders(random, board),
        _ => change_kind(random, board),
    }
}

/// One of the three things that a term says.
fn change_term(random: &mut Random, board: &mut Said, at: usize) {
    let l: u32 = board.orders.iter().map(|&o| u32::from(o)).sum();
    let most = board.most_prefactors();
    let size = second::table_size(board.kind) as u64;
    let Said { kind, terms, .. } = board;
    let term = &mut terms[at];
    let length = term.prefactors.len();
    let place = random.index(length + 1);
    match random.below(7) {
        0 => term.scale = rolls::scale(random),
        1 | 2 => term.boys = rolls::boys_order(random, *kind, l) as u8,
        3 | 4 if place < length => term.prefactors[place] = random.below(size) as u8,
        5 if place < length => {
            term.prefactors.remove(place);
        }
        6 if length < most => term.prefactors.insert(place, random.below(size) as u8),
        _ => term.scale = 1 + term.scale % 2,
    }
}

/// An order raised, or two exchanged; within the limits, so that the terms read as before.
fn change_orders(random: &mut Random, board: &mut Said) {
    let used = second::orders_used(board.kind);
    let (at, other) = (random.index(used), random.index(used));
    let mut orders = board.orders;
    if random.once_in(2) {
        orders.swap(at, other);
    } else {
        orders[at] += 1;
    }
    let sum = |centre: &[u8]| centre.iter().sum::<u8>();
    if orders.chunks(3).all(|centre| sum(centre) <= NOW.order_sum) {
        board.orders = orders;
    }
}

/// Another kind with the same orders, which may have terms that it can't have. Where it uses more
/// orders they are 0 or not; where it uses fewer they are cut.
fn change_kind(random: &mut Random, board: &mut Said) {
    let used = second::orders_used(board.kind);
    board.kind = match random.below(3) {
        0 => random.below(5) as u8,
        _ => (board.kind + 1).min(4),
    };
    let uses = second::orders_used(board.kind);
    board.orders[uses..].fill(0);
    if uses > used && random.once_in(2) {
        board.orders[used] = random.from_to(1, NOW.order_sum.into()) as u8;
    }
}

/// What a board has that can't be read, most likely.
fn unreadable(random: &mut Random, roll: Vec<u8>) -> Vec<u8> {
    match random.below(8) {
        0 => rolls::any(random),
        1 => form2_rolls::any(random),
        2 => Vec::new(),
        3 => {
            // The first number of the other form.
            let added = Form::of(&roll).other().added();
            let mut roll = roll;
            roll[0] = roll[0] % 16 + added;
            roll
        }
        _ => rolls::damaged(random, roll),
    }
}

/// The rolls of two boards, each in either form; in one of three pairs one can't be read, or none
/// can.
pub fn any(random: &mut Random) -> Pair {
    let board = board(random);
    let other = match random.below(10) {
        0 => self::board(random),
        _ => other_board(random, &board),
    };
    let mut pair = (board.write(any_form(random)), other.write(any_form(random)));
    let bad = random.below(12);
    if bad == 0 || bad == 1 {
        pair.0 = unreadable(random, pair.0);
    }
    if bad == 1 || bad == 2 || bad == 3 {
        pair.1 = unreadable(random, pair.1);
    }
    if random.once_in(2) {
        (pair.1, pair.0)
    } else {
        pair
    }
}

/// The bytes of two rolls that fit into a line together.
const ROLLS_OF_A_LINE: usize = (LONGEST_LINE - "compare  ".len()) / 2;

/// A form 2 roll of at most this length, which is large, with as many terms of the most prefactors as
/// fit, all of them alike.
fn of_long_terms(most: usize, prefactor: u8) -> Vec<u8> {
    let board = |count: usize| Said {
        kind: 4,
        orders: [6, 0, 0, 6, 0, 0, 6, 0, 0, 6, 0, 0],
        terms: vec![
            Term {
                scale: 1,
                boys: NOW.l(4),
                prefactors: vec![prefactor; NOW.l(4).into()],
            };
            count
        ],
    };
    let of = |count: usize| board(count).write(Form::Two);
    let each = of(3).len() - of(2).len();
    // The count of so many takes three bytes, that of one term a byte.
    let first = of(1).len() + 2;
    of(1 + (most - first) / each)
}

/// Two rolls whose comparison is about as long as one can be: every term differs.
pub fn of_long_lines() -> Pair {
    let most = ROLLS_OF_A_LINE / 2;
    (of_long_terms(most, 22), of_long_terms(most, 21))
}

/// The same with all terms but one on one side.
pub fn of_one_side() -> Pair {
    let one = rust_side::roll(0, &[0; 12]);
    let most = ROLLS_OF_A_LINE - one.len();
    (one, of_long_terms(most, 22))
}

/// Overlap Ax1 with every one or two terms of scale 1 or 2 and [], [0], [1] or [2].
fn small_boards() -> Vec<Said> {
    let lists: [&[u8]; 4] = [&[], &[0], &[1], &[2]];
    let term = |at: usize| Term {
        scale: 1 + (at / 4) as u32,
        boys: 0,
        prefactors: lists[at % 4].to_vec(),
    };
    let mut orders = [0; 12];
    orders[0] = 1;
    let board = |terms| Said {
        kind: 0,
        orders,
        terms,
    };
    let one = (0..8).map(|at| board(vec![term(at)]));
    let two = (0..64).map(|at| board(vec![term(at / 8), term(at % 8)]));
    one.chain(two).collect()
}

/// Every two of 72 small rolls, in each form in turn; and of a small overlap and a small Coulomb roll,
/// in each form, all that one byte makes of it, beside it, on each side in turn.
pub fn tried_one_by_one() -> Vec<Pair> {
    let forms = [Form::One, Form::Two];
    let mut pairs = Vec::new();
    let boards = small_boards();
    for left in &boards {
        for right in &boards {
            let at = pairs.len() % 4;
            pairs.push((left.write(forms[at / 2]), right.write(forms[at % 2])));
        }
    }
    for (kind, orders) in [rolls::SMALL[0], rolls::SMALL[4]] {
        for form in forms {
            let mut changed = Vec::new();
            let roll = rust_side::roll_in(form, kind, &orders);
            rolls::cut_and_changed(&roll, &mut changed);
            for (at, changed) in changed.into_iter().enumerate() {
                let beside = rust_side::roll_in(forms[at / 2 % 2], kind, &orders);
                pairs.push(match at % 2 {
                    0 => (changed, beside),
                    _ => (beside, changed),
                });
            }
        }
    }
    pairs
}
