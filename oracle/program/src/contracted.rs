//! Questions about contracted functions: right ones, those with a fault, and those in which several
//! faults meet.

use crate::floats::{self, Taste};
use crate::lines::{append, append_centres, append_float, append_floats, with_roll};
use crate::parse::{Contracted, Counted, Primitive, MOST_HOST};
use crate::random::Random;
use crate::{requests, rolls, rust_side};

/// A question of any sort.
pub fn any(random: &mut Random) -> Vec<u8> {
    let mut asked = if random.once_in(5) {
        at_the_edges(random)
    } else {
        ordinary(random)
    };
    random.put_faults(&FAULTS, &mut asked);
    line(random, &asked)
}

fn line(random: &mut Random, asked: &Contracted) -> Vec<u8> {
    let mut line = with_roll("contracted", &asked.roll);
    for function in [&asked.left, &asked.right] {
        append(&mut line, function.count.into());
        for primitive in &function.list {
            append_centres(random, &mut line, &[primitive.centre]);
            append_float(random, &mut line, primitive.norm);
            append_float(random, &mut line, primitive.coefficient);
        }
    }
    append(&mut line, asked.host.len() as u64);
    append_floats(random, &mut line, &asked.host);
    line
}

/// How many primitives; one and ten often.
fn count(random: &mut Random, most: u64) -> u8 {
    match random.below(6) {
        0 => 1,
        1 => most as u8,
        2 => random.from_to(1, most) as u8,
        _ => random.from_to(1, most.min(4)) as u8,
    }
}

/// A function's primitives, mostly around one centre, as a basis has them.
fn function(random: &mut Random, taste: Taste, count: u8) -> Counted {
    let around_one = !random.once_in(3);
    let origin = floats::centre(random, taste).r;
    let primitive = |_| {
        let mut centre = floats::centre(random, taste);
        if around_one {
            centre.r = origin;
        }
        Primitive {
            centre,
            norm: floats::float(random, taste),
            coefficient: floats::float(random, taste),
        }
    };
    let list = (0..count).map(primitive).collect();
    Counted { count, list }
}

/// The Rust's own list and aux, or other terms or another aux, with floats of any taste. A long list
/// has few primitives, since S and T expand for each pair anew.
fn ordinary(random: &mut Random) -> Contracted {
    let mut taste = floats::taste(random);
    let own = !random.once_in(3);
    let kind = random.below(2) as u8;
    let long = random.once_in(10);
    let roll = match long {
        _ if !own => rolls::legal_of(random, kind),
        true => rolls::fresh_of(random, kind),
        false => rust_side::roll(kind, &requests::small(random, kind)),
    };
    if own && random.once_in(2) {
        taste = Taste::Ordinary;
    }
    let most = if own && long { 2 } else { 10 };
    let counts = [count(random, most), count(random, most)];
    let [left, mut right] = counts.map(|count| function(random, taste, count));
    if random.once_in(4) {
        let place = left.list[0].centre.r;
        right.list.iter_mut().for_each(|p| p.centre.r = place);
    }
    let mut asked = Contracted {
        roll,
        left,
        right,
        host: Vec::new(),
    };
    asked.host = host(random, taste, kind, own, &asked);
    asked
}

/// Mostly the Rust's own numbers where they are wanted; now and then all of them but one.
fn host(random: &mut Random, taste: Taste, kind: u8, own: bool, asked: &Contracted) -> Vec<f64> {
    let mut all = asked.centres();
    if !own || random.once_in(6) {
        return all.map(|_| floats::float(random, taste)).collect();
    }
    let mut host: Vec<f64> = all.by_ref().map(|c| rust_side::aux(kind, &c)).collect();
    if random.once_in(6) {
        let at = random.index(host.len());
        host[at] = floats::float(random, taste);
    }
    host
}

/// A term without prefactors, or one that is 0.0, so that the value of a pair is its host number or
/// 0.0: zeros of both signs, and sums around the largest float and the smallest.
fn at_the_edges(random: &mut Random) -> Contracted {
    let roll: &[u8] = random.one_of(&[
        &[0, 0, 0, 0, 0, 0, 0, 1, 1, 0, 0],
        // Overlap Ax1, both functions around one centre: prefactor 0 is 0.0.
        &[0, 1, 0, 0, 0, 0, 0, 1, 1, 0, 1, 0],
    ]);
    let most = f64::MAX;
    let factors = [
        [1.0, -1.0, 0.0, -0.0, 0.5, -0.5],
        [1.0, -1.0, 5e-324, -5e-324, 1e-160, -1e-160],
        [1.0, -1.0, most, -most, 1e154, most / 2.0],
    ];
    let factors = random.one_of(&factors);
    let counts = [count(random, 3), count(random, 3)];
    let [mut left, mut right] = counts.map(|count| function(random, Taste::Ordinary, count));
    let place = left.list[0].centre.r;
    for primitive in left.list.iter_mut().chain(&mut right.list) {
        primitive.centre.r = place;
        primitive.centre.z = random.one_of(&[0.5, 1.0, 2.0]);
        primitive.norm = random.one_of(&[1.0, 1.0, -1.0, 0.0, -0.0]);
        primitive.coefficient = random.one_of(&factors);
    }
    let pairs = left.list.len() * right.list.len();
    Contracted {
        roll: roll.to_vec(),
        left,
        right,
        host: (0..pairs).map(|_| random.one_of(&factors)).collect(),
    }
}

/// What makes a question wrong. Those that come after one another may undo each other.
type Fault = fn(&mut Random, &mut Contracted);

const FAULTS: [Fault; 11] = [
    wrong_count,
    wrong_count,
    another_count,
    wrong_host,
    bad_roll,
    other_kind,
    not_finite,
    not_finite,
    exponent_not_above_0,
    too_far,
    too_large,
];

fn either<'a>(random: &mut Random, asked: &'a mut Contracted) -> &'a mut Counted {
    match random.below(2) {
        0 => &mut asked.left,
        _ => &mut asked.right,
    }
}

fn any_primitive<'a>(random: &mut Random, asked: &'a mut Contracted) -> Option<&'a mut Primitive> {
    let list = &mut either(random, asked).list;
    let at = random.index(list.len().max(1));
    list.get_mut(at)
}

/// 15: none, or more than there may be, and none follow.
fn wrong_count(random: &mut Random, asked: &mut Contracted) {
    let function = either(random, asked);
    function.count = random.one_of(&[0, 0, 11, 11, 12, 16, 128, 255]);
    function.list.clear();
}

/// One more or one less than there are. What is missing or too much is read as something else.
fn another_count(random: &mut Random, asked: &mut Contracted) {
    let function = either(random, asked);
    function.count = match random.below(2) {
        0 => function.count.saturating_add(1),
        _ => function.count.saturating_sub(1),
    };
}

/// 16: one less, one more, those of a row, of the sum of both counts, of a square, none, most.
fn wrong_host(random: &mut Random, asked: &mut Contracted) {
    let (left, right) = (asked.left.list.len(), asked.right.list.len());
    let most = MOST_HOST as usize;
    let count = match random.below(9) {
        0 => asked.host.len().saturating_sub(1),
        1 => asked.host.len() + 1,
        2 => left,
        3 => right,
        4 => left + right,
        5 => left * left,
        6 => right * right,
        7 => 0,
        _ => random.one_of(&[most, 101, 100]),
    };
    asked.host.resize(count, 0.5);
}

/// 7 or 14.
fn bad_roll(random: &mut Random, asked: &mut Contracted) {
    let cut = random.index(asked.roll.len().max(1));
    match random.below(3) {
        0 => asked.roll.truncate(cut),
        1 => asked.roll.push(0),
        _ => asked.roll = rolls::damaged(random, asked.roll.clone()),
    }
}

/// 1.
fn other_kind(random: &mut Random, asked: &mut Contracted) {
    let kind = random.one_of(&[2, 3, 4]);
    asked.roll = match random.below(3) {
        0 => rolls::legal_of(random, kind),
        _ => rust_side::roll(kind, &requests::small(random, kind)),
    };
}

/// 8: a coordinate, an exponent, a norm, a coefficient or a host number.
fn not_finite(random: &mut Random, asked: &mut Contracted) {
    let wrong = random.one_of(&[f64::INFINITY, f64::NEG_INFINITY, f64::NAN]);
    let (which, axis) = (random.below(5), random.index(3));
    let at = random.index(asked.host.len().max(1));
    if which == 4 {
        if let Some(host) = asked.host.get_mut(at) {
            *host = wrong;
        }
    } else if let Some(primitive) = any_primitive(random, asked) {
        match which {
            0 => primitive.centre.r[axis] = wrong,
            1 => primitive.centre.z = wrong,
            2 => primitive.norm = wrong,
            _ => primitive.coefficient = wrong,
        }
    }
}

/// 9.
fn exponent_not_above_0(random: &mut Random, asked: &mut Contracted) {
    let wrong = random.one_of(&[0.0, -0.0, -1.0, -5e-324, f64::MIN]);
    if let Some(primitive) = any_primitive(random, asked) {
        primitive.centre.z = wrong;
    }
}

/// 11: the squared distance of a pair.
fn too_far(random: &mut Random, asked: &mut Contracted) {
    let (axis, far) = (random.index(3), random.one_of(&[1e155, -1e200, f64::MAX]));
    if let Some(primitive) = any_primitive(random, asked) {
        primitive.centre.r[axis] = far;
    }
}

/// 11: a value, a product or a sum.
fn too_large(random: &mut Random, asked: &mut Contracted) {
    let large = random.one_of(&[f64::MAX, f64::MIN, 1e200, -1e160]);
    let (which, at) = (random.below(3), random.index(asked.host.len().max(1)));
    if let Some(host) = asked.host.get_mut(at) {
        *host = large;
    }
    if let Some(primitive) = any_primitive(random, asked) {
        match which {
            0 => primitive.norm = large,
            1 => primitive.coefficient = large,
            _ => {}
        }
    }
}
