//! What the small cabinet is asked: every request of its profile and what lies just outside, their
//! rolls, and rolls that differ from these by a byte or a term.

use crate::confirm_rolls;
use crate::lines::{append_room, numbers};
use crate::random::Random;
use crate::requests;
use crate::rust_side;
use crate::salvage_rolls::{self, Stored};
use crate::second::{self, Form, PROFILE_KINDS, PROFILE_ORDER_SUM};
use crate::{form2_rolls, rolls};

/// Every request of the profile: 16 of overlap, 256 of Coulomb.
pub fn every_request() -> Vec<(u8, [u8; 12])> {
    let of = |&kind: &u8| {
        let all = requests::every_within(kind, PROFILE_ORDER_SUM).into_iter();
        all.map(move |orders| (kind, orders))
    };
    PROFILE_KINDS.iter().flat_map(of).collect()
}

/// The expansion of each request of the profile, and the same in form 2.
pub fn tried_one_by_one() -> Vec<Vec<u8>> {
    let all = every_request();
    let of = |form| {
        let roll = move |(kind, orders): &(u8, [u8; 12])| rust_side::roll_in(form, *kind, orders);
        all.iter().map(roll)
    };
    of(Form::One).chain(of(Form::Two)).collect()
}

/// The roll itself; then once each roll that differs from it in one byte, that has one byte more, and
/// that has one less.
pub fn beside(roll: &[u8], each: &mut dyn FnMut(&[u8])) {
    each(roll);
    let mut changed = roll.to_vec();
    for at in 0..roll.len() {
        for byte in (0..=255).filter(|&byte| byte != roll[at]) {
            changed[at] = byte;
            each(&changed);
        }
        changed[at] = roll[at];
    }
    // A byte put behind its like is the same as before it.
    for at in 0..=roll.len() {
        let mut longer = [&roll[..at], &[0], &roll[at..]].concat();
        for byte in 0..=255 {
            if at == 0 || roll[at - 1] != byte {
                longer[at] = byte;
                each(&longer);
            }
        }
    }
    for at in 0..roll.len() {
        if at == 0 || roll[at - 1] != roll[at] {
            each(&[&roll[..at], &roll[at + 1..]].concat());
        }
    }
}

fn any_request(random: &mut Random) -> (u8, [u8; 12]) {
    let kind = random.one_of(&[0, 4, 4]);
    let mut orders = [0; 12];
    for centre in orders[..second::orders_used(kind)].chunks_mut(3) {
        let at = random.index(4);
        if at < 3 {
            centre[at] = 1;
        }
    }
    (kind, orders)
}

/// A request just outside the profile: an order sum of 2 on a centre, or another kind.
fn outside(random: &mut Random) -> (u8, [u8; 12]) {
    let (mut kind, mut orders) = any_request(random);
    match random.below(3) {
        0 => {
            kind = random.from_to(1, 3) as u8;
            orders[second::orders_used(kind)..].fill(0);
        }
        1 => {
            let centre = 3 * random.index(second::orders_used(kind) / 3);
            orders[centre..centre + 3].fill(0);
            orders[centre + random.index(3)] += 1;
            orders[centre + random.index(3)] += 1;
        }
        _ => {
            let used = second::orders_used(kind);
            orders[random.index(used)] += random.from_to(1, 2) as u8;
        }
    }
    (kind, orders)
}

fn any_stored(random: &mut Random) -> Stored {
    let (kind, orders) = any_request(random);
    Stored::of(Form::One, kind, &orders)
}

/// One byte set to another value, mostly a low one.
fn one_byte_changed(random: &mut Random, mut roll: Vec<u8>) -> Vec<u8> {
    let at = random.index(roll.len());
    roll[at] = match random.below(5) {
        0 => random.bits() as u8,
        1 => roll[at] ^ 1 << random.below(8),
        2 => roll[at].wrapping_add(1),
        _ => random.below(24) as u8,
    };
    roll
}

/// Any roll that the small cabinet may be handed.
pub fn any(random: &mut Random) -> Vec<u8> {
    let stored = any_stored(random);
    let roll = stored.write();
    match random.below(40) {
        0..=4 => roll,
        5..=13 => one_byte_changed(random, roll),
        14 | 15 => {
            let at = random.index(roll.len() + 1);
            let byte = random.one_of(&[0, 1, 2, 22, 127, 128, 255]);
            [&roll[..at], &[byte], &roll[at..]].concat()
        }
        16 | 17 => {
            let at = random.index(roll.len());
            [&roll[..at], &roll[at + 1..]].concat()
        }
        18 | 19 => roll[..random.index(roll.len())].to_vec(),
        20..=25 => confirm_rolls::of_other_terms(random, &stored),
        26..=28 => confirm_rolls::of_another_request(random, stored),
        29 => salvage_rolls::with_another_header(random, &stored),
        30..=34 => {
            let (kind, orders) = outside(random);
            let form = random.one_of(&[Form::One, Form::One, Form::Two]);
            cut_or_whole(random, Stored::of(form, kind, &orders).write())
        }
        35 => {
            let stored = Stored {
                form: Form::Two,
                ..stored
            };
            cut_or_whole(random, stored.write())
        }
        36 => rolls::damaged(random, roll),
        37 => rolls::any(random),
        38 => form2_rolls::any(random),
        _ => confirm_rolls::any(random),
    }
}

/// Outside the profile what follows the header is not looked at.
fn cut_or_whole(random: &mut Random, roll: Vec<u8>) -> Vec<u8> {
    match random.below(4) {
        0 => roll[..random.index(roll.len())].to_vec(),
        1 => one_byte_changed(random, roll),
        2 => rolls::damaged(random, roll),
        _ => roll,
    }
}

/// A request of the profile, of number `at` first, or one outside it or outside the limits; a buffer
/// and a start around each boundary.
pub fn expand(random: &mut Random, at: u64) -> Vec<u8> {
    let all = every_request();
    let (kind, mut orders) = match all.get(at as usize) {
        Some(request) => *request,
        None if random.once_in(2) => any_request(random),
        None => outside(random),
    };
    let mut kind = u64::from(kind);
    if at >= all.len() as u64 {
        match random.below(12) {
            0 => orders[random.index(12)] = random.one_of(&[1, 2, 6, 7, 127, 255]),
            1 => orders[random.index(6)] = random.one_of(&[2, 6, 7, 86, 255]),
            2 => kind = random.one_of(&[5, 6, 16, 20, 255, 256]),
            _ => {}
        }
    }
    let mut line = numbers("small-expand", kind, &orders);
    if at >= all.len() as u64 && !random.once_in(3) {
        let need = requests::length_expanded(kind.min(255) as u8, &orders);
        append_room(random, &mut line, need);
    }
    line
}
