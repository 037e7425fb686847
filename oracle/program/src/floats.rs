//! Floats, charges and centres for questions: ordinary, extreme and wrong ones.

use crate::parse::Centre;
use crate::random::Random;

/// How wild the floats of one question are.
#[derive(Clone, Copy, PartialEq)]
pub enum Taste {
    /// Values as a laboratory has them.
    Ordinary,
    /// Ordinary, with an extreme one here and there.
    Mixed,
    /// Zeros of both signs, subnormals and what multiplies to such, among numbers of few bits.
    Small,
    /// Finite values of any size.
    Extreme,
    /// Any bits at all, among them infinities and no numbers.
    Any,
}

pub fn taste(random: &mut Random) -> Taste {
    match random.below(20) {
        0..=10 => Taste::Ordinary,
        11..=14 => Taste::Mixed,
        15..=17 => Taste::Extreme,
        _ => Taste::Any,
    }
}

/// For I and D: sums of extreme values are seldom finite, those of small ones are.
pub fn matrix_taste(random: &mut Random) -> Taste {
    match random.below(20) {
        0..=5 => Taste::Ordinary,
        6..=9 => Taste::Mixed,
        10..=14 => Taste::Small,
        15..=16 => Taste::Extreme,
        _ => Taste::Any,
    }
}

const EXTREMES: [f64; 15] = [
    0.0,
    5e-324,
    2.225e-308,
    f64::MIN_POSITIVE,
    1e-300,
    1e-160,
    1e-154,
    1.0,
    1e154,
    1e160,
    1e300,
    8.9e307,
    f64::MAX,
    f64::EPSILON,
    0.5,
];

fn ordinary(random: &mut Random) -> f64 {
    match random.below(4) {
        0 => few_bits(random),
        _ => 10.0 * random.fraction() - 5.0,
    }
}

/// Sums and products are often exact, and values are often equal.
fn few_bits(random: &mut Random) -> f64 {
    random.from_to(0, 16) as f64 / 4.0 - 2.0
}

fn small(random: &mut Random) -> f64 {
    let size = match random.below(8) {
        0..=2 => 0.0,
        3 => 5e-324,
        4 => f64::from_bits(random.bits() >> 12),
        5 => f64::MIN_POSITIVE * random.fraction() * 4.0,
        6 => 1e-154 * random.fraction(),
        _ => few_bits(random),
    };
    either_sign(random, size)
}

fn either_sign(random: &mut Random, size: f64) -> f64 {
    if random.once_in(2) {
        -size
    } else {
        size
    }
}

fn extreme(random: &mut Random) -> f64 {
    let size = match random.below(4) {
        0 => f64::from_bits(random.bits() >> 12),
        1 => f64::from_bits(random.bits() % 0x7ff0_0000_0000_0000),
        _ => random.one_of(&EXTREMES),
    };
    either_sign(random, size)
}

fn any(random: &mut Random) -> f64 {
    match random.below(12) {
        0 => f64::INFINITY,
        1 => f64::NEG_INFINITY,
        2 => f64::from_bits(0x7ff0_0000_0000_0001 + (random.bits() >> 13)),
        3 => f64::from_bits(random.bits()),
        4..=6 => extreme(random),
        _ => ordinary(random),
    }
}

pub fn float(random: &mut Random, taste: Taste) -> f64 {
    match taste {
        Taste::Ordinary => ordinary(random),
        Taste::Mixed if random.once_in(8) => extreme(random),
        Taste::Mixed => ordinary(random),
        Taste::Small => small(random),
        Taste::Extreme => extreme(random),
        Taste::Any => any(random),
    }
}

pub fn many(random: &mut Random, taste: Taste, count: usize) -> Vec<f64> {
    (0..count).map(|_| float(random, taste)).collect()
}

fn exponent(random: &mut Random, taste: Taste) -> f64 {
    let wrong = match taste {
        Taste::Ordinary => 400,
        _ => 30,
    };
    if random.once_in(wrong) {
        return random.one_of(&[0.0, -0.0, -1.0, -5e-324, f64::MIN]);
    }
    match taste {
        Taste::Ordinary => 0.05 + ordinary(random).abs(),
        Taste::Any => any(random),
        _ => {
            let size = float(random, taste).abs();
            if size == 0.0 {
                0.25
            } else {
                size
            }
        }
    }
}

/// Above a nucleus's limit: by little, by so much that a byte or two would lose it, and by most.
const TOO_MUCH: [u32; 11] = [
    119,
    120,
    127,
    255,
    256,
    300,
    65_535,
    65_536,
    65_537,
    1 << 31,
    u32::MAX,
];

pub fn too_much(random: &mut Random) -> u32 {
    match random.below(3) {
        0 => 256 + random.below(119) as u32,
        _ => random.one_of(&TOO_MUCH),
    }
}

/// A charge that a nucleus may have.
pub fn right_charge(random: &mut Random) -> u32 {
    match random.below(8) {
        0 => 0,
        1 => 118,
        2 => 1,
        3 => random.from_to(1, 10) as u32,
        _ => random.below(119) as u32,
    }
}

/// A nucleus's charge, one in so many above the limit.
pub fn charge(random: &mut Random, wrong: u64) -> u32 {
    if random.once_in(wrong) {
        too_much(random)
    } else {
        right_charge(random)
    }
}

/// A charge that is not looked at.
pub fn any_charge(random: &mut Random) -> u32 {
    match random.below(4) {
        0 => random.bits() as u32,
        1 => too_much(random),
        _ => right_charge(random),
    }
}

/// A centre with any charge.
pub fn centre(random: &mut Random, taste: Taste) -> Centre {
    let mut centre = Centre::default();
    for x in centre.r.iter_mut() {
        *x = float(random, taste);
    }
    centre.z = exponent(random, taste);
    centre.charge = any_charge(random);
    centre
}

/// Four centres; now and then two of them are one, or one stands at the origin.
pub fn centres(random: &mut Random, taste: Taste) -> [Centre; 4] {
    let mut centres = [Centre::default(); 4];
    for one in centres.iter_mut() {
        *one = centre(random, taste);
    }
    if random.once_in(5) {
        let (from, to) = (random.index(4), random.index(4));
        centres[to].r = centres[from].r;
        if random.once_in(2) {
            centres[to].z = centres[from].z;
        }
    }
    if random.once_in(8) {
        let at = random.index(4);
        centres[at].r = [0.0, -0.0, 0.0];
    }
    if random.once_in(20) {
        centres = [centres[0]; 4];
    }
    centres
}

/// What is as wrong as can be where a float is not looked at.
pub fn unused(random: &mut Random) -> f64 {
    random.one_of(&[f64::INFINITY, f64::NAN, f64::MAX, -1.0, -0.0])
}

/// Centres for a kind. Now and then what the kind does not use is as wrong as can be, which
/// must make no difference. The nucleus of a nuclear roll has mostly a charge that it may have.
pub fn centres_for(random: &mut Random, taste: Taste, kind: u8) -> [Centre; 4] {
    let mut centres = centres(random, taste);
    if kind < 4 && random.once_in(4) {
        centres[2].z = unused(random);
        centres[3].z = unused(random);
        centres[3].r = [unused(random); 3];
        if kind < 2 {
            centres[2].r = [unused(random); 3];
        }
    }
    if kind == 2 {
        centres[2].charge = charge(random, 12);
    }
    centres
}

/// Boys numbers lie between 0 and 1 for a host that is right.
pub fn boys(random: &mut Random, taste: Taste, count: usize) -> Vec<f64> {
    (0..count)
        .map(|_| match taste {
            Taste::Ordinary => random.fraction(),
            _ => float(random, taste),
        })
        .collect()
}
