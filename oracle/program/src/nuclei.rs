//! Questions about lists of nuclei: right ones, those with a fault, and those in which several
//! faults meet.

use crate::floats::{self, Taste};
use crate::lines::{append, append_centres, append_float, append_floats, with_roll};
use crate::parse::{Centre, Nuclei};
use crate::random::Random;
use crate::second::NOW;
use crate::{requests, rolls, rust_side};

/// A question of any sort.
pub fn any(random: &mut Random) -> Vec<u8> {
    let mut asked = if random.once_in(6) {
        at_the_edges(random)
    } else {
        ordinary(random)
    };
    random.put_faults(&FAULTS, &mut asked);
    line(random, &asked)
}

fn line(random: &mut Random, asked: &Nuclei) -> Vec<u8> {
    let mut line = with_roll("nuclei", &asked.roll);
    append_centres(random, &mut line, &asked.pair);
    append(&mut line, asked.count.into());
    append_centres(random, &mut line, &asked.list);
    append_float(random, &mut line, asked.aux);
    append_floats(random, &mut line, &asked.boys);
    line
}

/// How many nuclei; the language's limits often.
fn count(random: &mut Random) -> u8 {
    match random.below(12) {
        0..=2 => 1,
        3 | 4 => 2,
        5 => 31,
        6 => 32,
        7 => random.from_to(1, 32) as u8,
        _ => random.from_to(2, 6) as u8,
    }
}

/// With a charge that it may have. Its exponent is not looked at.
fn nucleus(random: &mut Random, taste: Taste) -> Centre {
    let mut nucleus = floats::centre(random, taste);
    nucleus.charge = floats::right_charge(random);
    if random.once_in(2) {
        nucleus.z = floats::unused(random);
    }
    nucleus
}

/// Now and then two nuclei stand at one place, or one at that of a function.
fn nuclei(random: &mut Random, taste: Taste, pair: &[Centre; 2], count: u8) -> Vec<Centre> {
    let mut list: Vec<_> = (0..count).map(|_| nucleus(random, taste)).collect();
    if random.once_in(4) {
        let (from, to) = (random.index(list.len()), random.index(list.len()));
        list[to].r = list[from].r;
    }
    if random.once_in(4) {
        let at = random.index(list.len());
        list[at].r = random.one_of(pair).r;
    }
    list
}

/// The Rust's own list and aux, or other terms or another aux, with floats of any taste.
fn ordinary(random: &mut Random) -> Nuclei {
    let mut taste = floats::taste(random);
    let own = !random.once_in(3);
    let roll = match random.below(4) {
        _ if !own => rolls::legal_of(random, 2),
        0 => rolls::fresh_of(random, 2),
        _ => rust_side::roll(2, &requests::small(random, 2)),
    };
    if own && random.once_in(2) {
        taste = Taste::Ordinary;
    }
    let pair = [floats::centre(random, taste), floats::centre(random, taste)];
    let count = count(random);
    let list = nuclei(random, taste, &pair, count);
    let mut asked = Nuclei {
        roll,
        pair,
        count,
        list,
        aux: 0.0,
        boys: Vec::new(),
    };
    asked.aux = if own && !random.once_in(5) {
        rust_side::aux(2, &asked.centres(&asked.list[0]))
    } else {
        floats::float(random, taste)
    };
    let boys_taste = if random.once_in(2) {
        Taste::Ordinary
    } else {
        taste
    };
    let right = of_each(&asked.roll) * asked.list.len();
    asked.boys = floats::boys(random, boys_taste, right);
    asked
}

/// The Boys numbers of a nucleus; some number where the roll has none.
fn of_each(roll: &[u8]) -> usize {
    NOW.open(roll).map_or(3, |header| usize::from(header.l) + 1)
}

/// A term without prefactors, so that the value of a nucleus is aux times its Boys number: zeros of
/// both signs, and sums around the largest float and the smallest.
fn at_the_edges(random: &mut Random) -> Nuclei {
    let pair = [(); 2].map(|_| floats::centre(random, Taste::Ordinary));
    let count = count(random);
    let list = nuclei(random, Taste::Ordinary, &pair, count);
    let most = f64::MAX;
    let factors = [
        [1.0, -1.0, 0.0, -0.0, 5e-324, -5e-324],
        [most, -most, most / 2.0, most / 118.0, most / 119.0, 1e300],
    ];
    let factors = random.one_of(&factors);
    let numbers = [0.0, -0.0, 1.0, -1.0, 0.5, -0.5, 1.0 / 118.0, 5e-324];
    Nuclei {
        roll: rust_side::roll(2, &[0; 12]),
        pair,
        count,
        aux: random.one_of(&factors),
        boys: list.iter().map(|_| random.one_of(&numbers)).collect(),
        list,
    }
}

/// What makes a question wrong. Those that come after one another may undo each other.
type Fault = fn(&mut Random, &mut Nuclei);

const FAULTS: [Fault; 10] = [
    bad_roll,
    other_kind,
    wrong_count,
    another_count,
    too_much_charge,
    not_finite,
    exponent_not_above_0,
    wrong_boys,
    too_far,
    too_large,
];

/// 7 or 14.
fn bad_roll(random: &mut Random, asked: &mut Nuclei) {
    let cut = random.index(asked.roll.len().max(1));
    match random.below(3) {
        0 => asked.roll.truncate(cut),
        1 => asked.roll.push(0),
        _ => asked.roll = rolls::damaged(random, asked.roll.clone()),
    }
}

/// 1.
fn other_kind(random: &mut Random, asked: &mut Nuclei) {
    let kind = random.one_of(&[0, 1, 3, 4]);
    asked.roll = match random.below(3) {
        0 => rolls::legal_of(random, kind),
        _ => rust_side::roll(kind, &requests::small(random, kind)),
    };
}

/// 17: none, or more than there may be. The list may stay, and is then aux and Boys numbers.
fn wrong_count(random: &mut Random, asked: &mut Nuclei) {
    asked.count = random.one_of(&[0, 0, 33, 33, 34, 64, 128, 255]);
    if !random.once_in(3) {
        asked.list.clear();
    }
}

/// One more or one less than there are. What is missing or too much is read as something else.
fn another_count(random: &mut Random, asked: &mut Nuclei) {
    asked.count = match random.below(2) {
        0 => asked.count.saturating_add(1),
        _ => asked.count.saturating_sub(1),
    };
}

/// 17.
fn too_much_charge(random: &mut Random, asked: &mut Nuclei) {
    for _ in 0..random.from_to(1, 2) {
        let charge = floats::too_much(random);
        if let Some(nucleus) = any_nucleus(random, asked) {
            nucleus.charge = charge;
        }
    }
}

fn any_nucleus<'a>(random: &mut Random, asked: &'a mut Nuclei) -> Option<&'a mut Centre> {
    let at = random.index(asked.list.len().max(1));
    asked.list.get_mut(at)
}

/// 8: a coordinate or an exponent of a function, a coordinate of a nucleus, aux, or a Boys number.
fn not_finite(random: &mut Random, asked: &mut Nuclei) {
    let wrong = random.one_of(&[f64::INFINITY, f64::NEG_INFINITY, f64::NAN]);
    let (function, axis) = (random.index(2), random.index(3));
    let number = random.index(asked.boys.len().max(1));
    match random.below(5) {
        0 => asked.pair[function].r[axis] = wrong,
        1 => asked.pair[function].z = wrong,
        2 => asked.aux = wrong,
        3 if number < asked.boys.len() => asked.boys[number] = wrong,
        _ => {
            if let Some(nucleus) = any_nucleus(random, asked) {
                nucleus.r[axis] = wrong;
            }
        }
    }
}

/// 9.
fn exponent_not_above_0(random: &mut Random, asked: &mut Nuclei) {
    let wrong = [0.0, -0.0, -1.0, -5e-324, f64::MIN];
    asked.pair[random.index(2)].z = random.one_of(&wrong);
}

/// 10: one less, one more, those of one nucleus, of one less and of one more, and none.
fn wrong_boys(random: &mut Random, asked: &mut Nuclei) {
    let (each, all) = (of_each(&asked.roll), asked.boys.len());
    let count = match random.below(7) {
        0 => all.saturating_sub(1),
        1 => all + 1,
        2 => each,
        3 => all.saturating_sub(each),
        4 => all + each,
        5 => all.saturating_sub(asked.list.len()),
        _ => 0,
    };
    asked.boys.resize(count, 0.5);
}

/// 11: a geometry number of one nucleus.
fn too_far(random: &mut Random, asked: &mut Nuclei) {
    let axis = random.index(3);
    if let Some(nucleus) = any_nucleus(random, asked) {
        nucleus.r[axis] = random.one_of(&[1e155, -1e200, f64::MAX]);
    }
}

/// 11: a value, a product or the sum.
fn too_large(random: &mut Random, asked: &mut Nuclei) {
    asked.aux = random.one_of(&[f64::MAX, f64::MIN, 1e307, -1e306]);
    let number = random.index(asked.boys.len().max(1));
    if let Some(number) = asked.boys.get_mut(number) {
        *number = random.one_of(&[1.0, 10.0, 1e10, f64::MAX]);
    }
}
