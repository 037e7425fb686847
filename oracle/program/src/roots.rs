//! Questions about the root: floats of every sort. And Coulomb exponents whose sum is taken a root
//! of, with host's products for them.

use crate::floats::{self, Taste};
use crate::lines::append_float;
use crate::parse::Centre;
use crate::random::Random;
use crate::{rust_side, second};

/// A question of any sort; one in five about a float that has no root.
pub fn any(random: &mut Random) -> Vec<u8> {
    let x = match random.below(10) {
        0 => not_finite(random),
        1 => -with_root(random),
        _ => with_root(random),
    };
    let mut line = b"root".to_vec();
    append_float(random, &mut line, x);
    line
}

/// 8: infinities, and no numbers of either sign, quiet and not.
fn not_finite(random: &mut Random) -> f64 {
    let infinite = f64::INFINITY.to_bits();
    let sign = random.below(2) << 63;
    let fraction = match random.below(6) {
        0 | 1 => 0,
        2 => 1,
        3 => 1 << 51,
        4 => (1 << 52) - 1,
        _ => random.bits() >> 12,
    };
    f64::from_bits(sign + infinite + fraction)
}

/// Finite, and 0 or above; -0.0 too.
pub fn with_root(random: &mut Random) -> f64 {
    match random.below(20) {
        0 => random.one_of(&[0.0, -0.0]),
        1 => random.one_of(&[5e-324, f64::MIN_POSITIVE, f64::MAX, 1.0, 2.0, 4.0, 0.5]),
        2..=4 => of_any_exponent(random),
        5..=7 => subnormal(random),
        8..=10 => {
            let square = square(random);
            beside(random, square)
        }
        11 | 12 => {
            let square = rounded_square(random);
            beside(random, square)
        }
        13 => {
            let power = f64::from_bits(random.from_to(1, 2_046) << 52);
            beside(random, power)
        }
        14 => floats::float(random, Taste::Ordinary).abs(),
        15 => subnormal_near_halfway(random),
        _ => near_halfway(random),
    }
}

/// Each exponent as often as any other, the subnormals' too.
fn of_any_exponent(random: &mut Random) -> f64 {
    f64::from_bits((random.below(2_047) << 52) + (random.bits() >> 12))
}

/// Of each length as often as of any other.
fn subnormal(random: &mut Random) -> f64 {
    let length = random.from_to(1, 52);
    f64::from_bits(1 << (length - 1) | random.bits() >> 12 & ((1 << (length - 1)) - 1))
}

/// A whole number of up to 26 bits, squared, times a power of 4.
fn square(random: &mut Random) -> f64 {
    let length = random.from_to(1, 26);
    let whole = random.from_to(1, (1 << length) - 1);
    let power = random.below(1_040) as i32 - 537;
    let scaled = whole as f64 * 2_f64.powi(power);
    if scaled * scaled < f64::INFINITY {
        scaled * scaled
    } else {
        (whole * whole) as f64
    }
}

/// The square of any float, rounded: the root is that float again.
fn rounded_square(random: &mut Random) -> f64 {
    let exponent = random.from_to(1_023 - 510, 1_023 + 510);
    let x = f64::from_bits((exponent << 52) + (random.bits() >> 12));
    x * x
}

/// A float above 0, the next one below it or the next one above it.
fn beside(random: &mut Random, x: f64) -> f64 {
    let bits = x.to_bits();
    let beside = f64::from_bits(random.one_of(&[bits - 1, bits, bits + 1]));
    Some(beside).filter(|x| x.is_finite()).unwrap_or(x)
}

/// A float whose root lies as near to the middle of two floats as one has, or nearly so.
pub fn near_halfway(random: &mut Random) -> f64 {
    loop {
        let is_odd = random.below(2);
        let near = 8 * (random.below(1 << 12) as i128 - (1 << 11)) + 1;
        // An even exponent leaves 52 zeros behind its 53 bits, an odd one 53.
        let found = halfway(near, 104 + is_odd as u32, 52 + is_odd as u32);
        if let [first, ..] = found[..] {
            let m = if random.once_in(2) {
                first
            } else {
                found[found.len() - 1]
            };
            let exponent = 2 * random.below(1_023) + is_odd + 1;
            return f64::from_bits((exponent << 52) + m as u64 - (1 << 52));
        }
    }
}

/// A subnormal of 43 to 52 bits whose root lies near to the middle of two floats.
pub fn subnormal_near_halfway(random: &mut Random) -> f64 {
    let length = random.from_to(43, 52) as u32;
    // Its length decides how it is scaled, since the exponent is even.
    let top = 104 + (length - 1) % 2;
    let zeros = top - (length - 1);
    let mut near = 8 * (random.below(1 << 12) as i128) + 1;
    loop {
        if let [m, ..] = halfway(near, top, zeros)[..] {
            return f64::from_bits(m as u64);
        }
        near += 8;
    }
}

/// All m with m 2^zeros from 2^top up to 2^(top + 1) and 4 m 2^zeros + near the square of an odd
/// number, where near is 1 more than a multiple of 8. The half of that odd number is the middle of
/// two whole numbers, and the smaller near is, the nearer to it lies the root of m 2^zeros.
pub fn halfway(near: i128, top: u32, zeros: u32) -> Vec<u128> {
    let places = zeros + 2;
    let modulo = (1_u128 << places) - 1;
    let near = near as u128;
    // Of the four odd numbers with that square modulo 2^places one is found place by place.
    let mut odd: u128 = 1;
    for place in 3..places {
        if odd.wrapping_mul(odd).wrapping_sub(near) >> place & 1 == 1 {
            odd += 1 << (place - 1);
        }
    }
    let half = 1_u128 << (places - 1);
    let others = [odd, odd.wrapping_neg()].map(|odd| [odd, odd.wrapping_add(half)]);
    let scaled = others.concat().into_iter().filter_map(|odd| {
        let odd = odd & modulo;
        let square = odd.checked_mul(odd)?;
        Some(square.wrapping_sub(near) >> 2)
    });
    let is_in_range = |m: &u128| m >> top == 1;
    scaled.filter(is_in_range).map(|m| m >> zeros).collect()
}

/// Sets the exponents of a Coulomb question so that their sum is out of the ordinary.
pub fn exponents(random: &mut Random, centres: &mut [Centre; 4]) {
    let z = match random.below(8) {
        0 | 1 => of_another_order(random),
        2 => [(); 4].map(|_| power(random, -500, 500)),
        3 => {
            let size = power(random, -500, -1);
            [(); 4].map(|_| size * (1.0 + random.fraction()))
        }
        4 => largest(random),
        5 => too_large(random),
        6 => [(); 4].map(|_| subnormal(random)),
        _ => [random.one_of(&[0.25, 1.0, 2.25, 0.5, 2_f64.powi(-300), 2_f64.powi(300)]); 4],
    };
    for (centre, z) in centres.iter_mut().zip(z) {
        centre.z = z;
        // The products of large exponents and coordinates are to be finite.
        if z > 1e100 {
            centre.r = centre.r.map(|x| x % 0.125);
        }
    }
}

/// 2^least to 2^most times 1.0 to 2.0.
fn power(random: &mut Random, least: i64, most: i64) -> f64 {
    let power = least + random.below((most - least) as u64) as i64;
    2_f64.powi(power as i32) * (1.0 + random.fraction())
}

/// Two exponents, and two of about half of the last place of their sum: from the left both may be
/// lost, and added up first they are not.
fn of_another_order(random: &mut Random) -> [f64; 4] {
    let (a, b) = (power(random, -20, 20), power(random, -20, 20));
    let place = f64::from_bits((a + b).to_bits() + 1) - (a + b);
    let mut z = [a, b, 0.0, 0.0];
    for small in &mut z[2..] {
        *small = place * random.one_of(&[0.25, 0.375, 0.5, 0.5, 0.625, 0.75, 1.5, 2.5]);
    }
    if random.once_in(4) {
        z.rotate_left(2);
    }
    z
}

/// A sum near to the largest float, all geometry numbers finite.
fn largest(random: &mut Random) -> [f64; 4] {
    let large = power(random, 1_000, 1_022);
    let mut z = [large, large, power(random, -60, -1), power(random, -60, -1)];
    if random.once_in(2) {
        z[1] = f64::MAX - large;
    }
    if random.once_in(2) {
        z.rotate_left(2);
    }
    z
}

/// An infinite sum of finite exponents; rho is then never finite either.
fn too_large(random: &mut Random) -> [f64; 4] {
    let pairs = [
        [f64::MAX / 2.0; 4],
        [
            f64::MAX / 2.0,
            f64::MAX / 2.0,
            2_f64.powi(970),
            2_f64.powi(969),
        ],
        [f64::MAX, 1.0, 2_f64.powi(970), 1.0],
        [2_f64.powi(969), 2_f64.powi(969), f64::MAX, 1.0],
        [2_f64.powi(916), 1.0, 2_f64.powi(970), f64::MAX],
        [1.0, f64::MAX, 1.0, f64::MAX],
    ];
    random.one_of(&pairs)
}

/// A host's product for these centres: where the quotient is large or small, exact or not, or around
/// the largest float and the smallest.
pub fn product(random: &mut Random, centres: &[Centre; 4]) -> f64 {
    let root = second::root(second::sum_of_exponents(centres)).unwrap_or(1.0);
    let quotient = floats::float(random, Taste::Ordinary);
    let size = match random.below(8) {
        0 => quotient * root,
        1 => f64::MAX * root.min(1.0),
        2 => random.one_of(&[f64::MAX, 1e300, 1e160]),
        3 => f64::from_bits(random.below(64)),
        4 => subnormal(random),
        5 => f64::MIN_POSITIVE * root,
        6 => rust_side::aux(4, centres) * 2_f64.powi(random.below(2_000) as i32 - 1_000),
        _ => quotient,
    };
    // A root of no number is none; such centres are refused.
    let size = Some(size).filter(|x| x.is_finite()).unwrap_or(quotient);
    if random.once_in(3) {
        -size
    } else {
        size
    }
}
