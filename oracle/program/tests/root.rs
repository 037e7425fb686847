//! Q-12: the root over whole numbers, the question `root`, and Coulomb evaluations whose aux is k1 k2.

mod shared;

use oracle::answer::same;
use oracle::floats;
use oracle::parse::Centre;
use oracle::random::Random;
use oracle::{roots, rust_side, second};
use shared::{ask, bits};

#[test]
fn roots_by_hand() {
    let cases = [
        // Both zeros, whole roots, halves and quarters.
        ("0", "0000000000000000"),
        ("8000000000000000", "8000000000000000"),
        ("3ff0000000000000", "3ff0000000000000"),
        ("4010000000000000", "4000000000000000"),
        ("4022000000000000", "4008000000000000"),
        ("3fd0000000000000", "3fe0000000000000"),
        ("4002000000000000", "3ff8000000000000"),
        // 2, 3 and 1/2: 1.6a09e667f3bcc908.., 1.bb67ae8584caa73b.., 1.6a09e667f3bcc908.. / 2.
        ("4000000000000000", "3ff6a09e667f3bcd"),
        ("4008000000000000", "3ffbb67ae8584caa"),
        ("3fe0000000000000", "3fe6a09e667f3bcd"),
        // Around 1.0: 1 + u has the root 1 + u/2 - u^2/8 .., which is just below the middle.
        ("3ff0000000000001", "3ff0000000000000"),
        ("3ff0000000000002", "3ff0000000000001"),
        ("3ff0000000000003", "3ff0000000000001"),
        ("3ff0000000000004", "3ff0000000000002"),
        ("3fefffffffffffff", "3fefffffffffffff"),
        ("3feffffffffffffe", "3fefffffffffffff"),
        ("3feffffffffffffd", "3feffffffffffffe"),
        // 2^-1074, twice, three times and four times that: 2^-537 times the roots of 1 to 4.
        ("1", "1e60000000000000"),
        ("2", "1e66a09e667f3bcd"),
        ("3", "1e6bb67ae8584caa"),
        ("4", "1e70000000000000"),
        // The largest subnormal, 2^-1022 (1 - 2^-52), the smallest float that is none, and the next.
        ("fffffffffffff", "1fffffffffffffff"),
        ("10000000000000", "2000000000000000"),
        ("10000000000001", "2000000000000000"),
        // The largest float and the one before: 2^512 (1 - 2^-54 ..) is just below the middle.
        ("7fefffffffffffff", "5fefffffffffffff"),
        ("7feffffffffffffe", "5fefffffffffffff"),
        // The largest even and odd powers of 2.
        ("7fd0000000000000", "5fe0000000000000"),
        ("7fe0000000000000", "5fe6a09e667f3bcd"),
        // 94906265^2, the largest square below 2^53, and one less and more: 0.35 of the last place.
        ("433ffffff8eff971", "4196a09e64000000"),
        ("433ffffff8eff970", "4196a09e64000000"),
        ("433ffffff8eff972", "4196a09e64000000"),
    ];
    for (x, root) in cases {
        assert_eq!(ask(&format!("root {}", x)), format!("root {}", root));
    }
}

#[test]
fn refusals_of_the_root() {
    // 8: infinities and no numbers of both signs.
    for x in [
        "7ff0000000000000",
        "fff0000000000000",
        "7ff8000000000000",
        "fff8000000000000",
        "7ff0000000000001",
        "fff0000000000001",
        "7fffffffffffffff",
        "ffffffffffffffff",
    ] {
        assert_eq!(ask(&format!("root {}", x)), "refused 8", "{}", x);
    }
    // 18: below 0, from the smallest to the largest.
    for x in [
        "8000000000000001",
        "800fffffffffffff",
        "8010000000000000",
        "bff0000000000000",
        "c010000000000000",
        "ffefffffffffffff",
    ] {
        assert_eq!(ask(&format!("root {}", x)), "refused 18", "{}", x);
    }
}

#[test]
fn lines_that_are_no_question() {
    for line in [
        "root",
        "root ",
        "root  0",
        "root 0 ",
        "root 0 0",
        " root 0",
        "Root 0",
        "roots 0",
        "root0",
        "root -",
        "root -0",
        "root +1",
        "root 1.0",
        "root 0x1",
        "root nan",
        "root 3FF0000000000000",
        "root 00000000000000000",
        "root 13ff0000000000000",
        "root 0\r",
        "root\t0",
    ] {
        assert_eq!(ask(line), "?", "{}", line);
    }
}

/// Counts the inputs at which the second reading and the machine were held together.
#[derive(Default)]
struct Held(u64);

impl Held {
    fn hold(&mut self, x: f64) {
        let root = second::root(x).expect("finite, and not below 0");
        let machine = x.sqrt();
        assert_eq!(root.to_bits(), machine.to_bits(), "{:e}", x);
        self.0 += 1;
    }

    /// A float above 0 and the two beside it.
    fn hold_beside(&mut self, x: f64) {
        for bits in x.to_bits() - 1..=x.to_bits() + 1 {
            let x = f64::from_bits(bits);
            if x.is_finite() {
                self.hold(x);
            }
        }
    }
}

const FRACTIONS: u64 = 1 << 52;

/// All exponents: the ends of each, its middle, and others.
fn hold_exponents(held: &mut Held, random: &mut Random) {
    let ends = [0, 1, 2, 3, FRACTIONS / 2, FRACTIONS - 2, FRACTIONS - 1];
    for exponent in 0..=2_046 {
        for &fraction in &ends {
            held.hold(f64::from_bits((exponent << 52) + fraction));
        }
        for _ in 0..200 {
            held.hold(f64::from_bits((exponent << 52) + random.below(FRACTIONS)));
        }
    }
}

/// Subnormals of every length, the short ones all.
fn hold_subnormals(held: &mut Held, random: &mut Random) {
    for length in 1..=52 {
        let (least, most) = (1 << (length - 1), (1 << length) - 1);
        if length <= 12 {
            (least..=most).for_each(|bits| held.hold(f64::from_bits(bits)));
            continue;
        }
        for &bits in &[least, least + 1, most - 1, most] {
            held.hold(f64::from_bits(bits));
        }
        for _ in 0..4_000 {
            held.hold(f64::from_bits(random.from_to(least, most)));
        }
    }
}

/// Squares that are floats, and the floats beside them: their roots are exact, and no other is.
fn hold_squares(held: &mut Held, random: &mut Random) {
    let small = 1..=100_000;
    let large = (0..50_000).map(|_| random.from_to(1 << 25, 94_906_265));
    for whole in small.chain(large.collect::<Vec<_>>()) {
        let square = (whole * whole) as f64;
        assert_eq!(square as u64, whole * whole);
        for power in [-536, -100, 0, 450] {
            let scale = 2_f64.powi(power);
            let (x, root) = (square * scale * scale, whole as f64 * scale);
            // A small one may lose its last bits where it is subnormal; none does where it is even.
            if x / scale / scale == square {
                assert_eq!(second::root(x), Ok(root));
                held.hold_beside(x);
            }
        }
    }
    for _ in 0..100_000 {
        let root = f64::from_bits((random.from_to(513, 1_533) << 52) + random.below(FRACTIONS));
        assert_eq!(second::root(root * root), Ok(root));
        held.hold_beside(root * root);
    }
}

/// The nearest roots to the middle of two floats, on either side: near / 4 is what is missing to the
/// square of the middle, in units of the last place of both.
fn hold_halfway(held: &mut Held) {
    for t in -100_000..=100_000_i128 {
        let near = 8 * t + 1;
        // Even exponents, and odd ones.
        for (top, zeros, exponent) in [(104, 52, 1_023), (105, 53, 1_024)] {
            for m in roots::halfway(near, top, zeros) {
                let x = f64::from_bits((exponent << 52) + m as u64 - FRACTIONS);
                held.hold(x);
                let root = second::root(x).expect("it has one");
                // From 1.0 up to 2.0, so that its last place is 2^-52.
                let q = (root * FRACTIONS as f64) as i128;
                let middle = if near > 0 { 2 * q + 1 } else { 2 * q - 1 };
                assert_eq!(middle * middle - near, 4 * ((m as i128) << zeros));
            }
        }
    }
}

/// The machine's root at some millions of floats.
#[test]
fn the_machine_and_the_second_reading() {
    let mut random = Random::new(1);
    let mut held = Held::default();
    hold_exponents(&mut held, &mut random);
    hold_subnormals(&mut held, &mut random);
    hold_squares(&mut held, &mut random);
    hold_halfway(&mut held);
    for _ in 0..200_000 {
        held.hold(roots::with_root(&mut random));
    }
    assert!(held.0 > 2_000_000, "{}", held.0);
    println!("{} roots", held.0);
}

/// Centres of any taste; half of them have exponents with a sum out of the ordinary.
fn centres(random: &mut Random) -> [Centre; 4] {
    let taste = floats::taste(random);
    let mut centres = floats::centres(random, taste);
    if random.once_in(2) {
        roots::exponents(random, &mut centres);
    }
    centres
}

/// The Rust's own product, divided as here, is the Rust's own s: get_aux's last line is kept.
#[test]
fn the_own_product_gives_the_own_s() {
    let mut random = Random::new(2);
    let (mut finite, mut of_another_order) = (0, 0);
    for _ in 0..200_000 {
        let centres = centres(&mut random);
        let product = rust_side::aux(4, &centres);
        let own = rust_side::own_s(&centres);
        let s = rust_side::s_of_product(product, &centres);
        assert!(same(&[s], &[own]), "{:?}", centres);
        if own.is_finite() && own > 0.0 {
            assert!(rust_side::is_own_aux(4, &centres, product));
            let [a, b, c, d] = centres.map(|c| c.z);
            let pairs = product / ((a + b) + (c + d)).sqrt();
            finite += 1;
            of_another_order += u32::from(pairs.to_bits() != own.to_bits());
        }
    }
    assert!(finite > 80_000 && of_another_order > 5_000);
}

/// The second reading divides to the same bits, wherever it comes to dividing.
#[test]
fn both_divide_alike() {
    let mut random = Random::new(3);
    let (mut held, mut infinite, mut subnormal) = (0, 0, 0);
    for _ in 0..200_000 {
        let centres = centres(&mut random);
        let sum = second::sum_of_exponents(&centres);
        if centres.iter().all(|c| c.z > 0.0) && sum.is_finite() {
            let product = roots::product(&mut random, &centres);
            let s = second::s_of_product(product, &centres);
            let rust = rust_side::s_of_product(product, &centres);
            assert_eq!(s.to_bits(), rust.to_bits(), "{:e} {:?}", product, centres);
            held += 1;
            infinite += u32::from(s.is_infinite());
            subnormal += u32::from(s.is_subnormal());
        }
    }
    assert!(held > 100_000 && infinite > 2_000 && subnormal > 2_000);
}

/// Exponents above 0 with an infinite sum have another geometry number that is not finite, and so
/// have those with a subnormal one, or a table entry: 11 never comes by the sum alone.
#[test]
fn the_sum_is_never_alone_in_being_infinite() {
    let mut random = Random::new(4);
    let (mut infinite, mut subnormal) = (0, 0);
    for at in 0..300_000 {
        let largest = f64::MAX.to_bits();
        let mut any = || match at % 3 {
            // Near the largest float, around half of its last place, and small.
            0 => f64::from_bits(largest - random.one_of(&[2, 64]) * random.below(1 << 52)),
            1 => match random.below(3) {
                0 => f64::from_bits(largest - random.below(4)),
                1 => f64::from_bits(((1_023 + random.from_to(900, 972)) << 52) + random.below(3)),
                _ => f64::from_bits(random.from_to(1, largest)),
            },
            _ => f64::from_bits(random.from_to(1, 1 << 51)),
        };
        let z = [any(), any(), any(), any()];
        let centre = |z: f64| Centre {
            z,
            ..Centre::default()
        };
        let centres = z.map(centre);
        let sum = second::sum_of_exponents(&centres);
        let (mut numbers, table) = second::geometry_and_table(4, &centres);
        assert_eq!(numbers.pop().map(f64::to_bits), Some(sum.to_bits()));
        let all_finite = numbers.iter().chain(&table).all(|x| x.is_finite());
        if sum.is_infinite() || sum.is_subnormal() {
            assert!(!all_finite, "{:?}", z);
            infinite += u32::from(sum.is_infinite());
            subnormal += u32::from(sum.is_subnormal());
        }
    }
    let counts = (infinite, subnormal);
    assert!(infinite > 50_000 && subnormal > 40_000, "{:?}", counts);
}

const S: &str = "0400000000000000000000000001010000";
const ONE: &str = "3ff0000000000000";
const MOST: &str = "7fefffffffffffff";
const SMALL: &str = "3cb0000000000000";

/// Coulomb s,s,s,s by `eval` and by `grouped`, all at the origin, with these exponents and the rest.
fn coulomb(z: [&str; 4], rest: &str) -> String {
    let centres = z.map(|z| format!("0 0 0 {} 0", z)).join(" ");
    let [eval, grouped] =
        ["eval", "grouped 40"].map(|words| ask(&format!("{} {} {} {}", words, S, centres, rest)));
    assert_eq!(eval, grouped);
    eval
}

/// The value is F(0) times k1 k2 over the root.
#[test]
fn coulomb_values_by_hand() {
    let [half, quarter] = ["3fe0000000000000", "3fd0000000000000"];
    let [large, one_and_a_half] = ["3ff2000000000000", "3ff8000000000000"];
    let cases = [
        // The roots of 4, 1 and 2; the last is rounded before it divides, or this would end in d.
        ([ONE; 4], ONE, "3fe0000000000000"),
        ([ONE; 4], "4000000000000000", ONE),
        ([quarter; 4], ONE, ONE),
        ([half; 4], ONE, "3fe6a09e667f3bcc"),
        // 9/8, 9/8, 2^-52, 2^-52: from the left 9/4, and by pairs or from the right one place more.
        ([large, large, SMALL, SMALL], one_and_a_half, ONE),
        ([large, SMALL, large, SMALL], one_and_a_half, ONE),
        // The other way round from the left one place more, and from the right 9/4.
        (
            [SMALL, SMALL, large, large],
            one_and_a_half,
            "3fefffffffffffff",
        ),
        // 2^-6 each, the root 2^-2: the largest quotient that there is.
        (["3f90000000000000"; 4], "7fcfffffffffffff", MOST),
        // Quotients of half of the smallest float, of one and a half, and of two and a half.
        ([ONE; 4], "1", "0000000000000000"),
        ([ONE; 4], "3", "0000000000000002"),
        ([ONE; 4], "5", "0000000000000002"),
        ([ONE; 4], "8000000000000003", "8000000000000002"),
        // A quotient of -0.0 is added to 0.0.
        ([ONE; 4], "8000000000000000", "0000000000000000"),
        ([ONE; 4], "8000000000000001", "0000000000000000"),
        // A sum of the largest float, whose square is not needed.
        (
            ["7fdfffffffffffff", "7fdfffffffffffff", SMALL, SMALL],
            "5fefffffffffffff",
            ONE,
        ),
    ];
    for (z, product, value) in cases {
        let rest = format!("{} {}", product, ONE);
        assert_eq!(coulomb(z, &rest), format!("value {}", value), "{:?}", z);
    }
}

/// 8, 9, 10, 11, and 18 never.
#[test]
fn refusals_of_coulomb() {
    let tiny = "3f90000000000000";
    let infinite = "7ff0000000000000";
    let zero = "8000000000000000";
    let with = |product: &str, boys: &str| format!("{} {}", product, boys);
    let cases = [
        // The quotient is infinite, also times 0.0.
        ([tiny; 4], with("7fd0000000000000", ONE), "refused 11"),
        ([tiny; 4], with("ffefffffffffffff", ONE), "refused 11"),
        ([tiny; 4], with(MOST, "0"), "refused 11"),
        // The sum is infinite, and so is rho; a product of 0.0 saves nothing.
        ([MOST; 4], with("0", ONE), "refused 11"),
        ([MOST, ONE, MOST, ONE], with(ONE, ONE), "refused 11"),
        // A sum of 4 times the smallest float.
        (["1"; 4], with("0", ONE), "refused 11"),
        // Those before 11.
        ([MOST; 4], with(infinite, ONE), "refused 8"),
        ([MOST, MOST, MOST, infinite], with(ONE, ONE), "refused 8"),
        ([MOST, MOST, MOST, zero], with(ONE, ONE), "refused 9"),
        (
            [ONE, ONE, ONE, "bff0000000000000"],
            with(ONE, ONE),
            "refused 9",
        ),
        (
            [ONE, ONE, ONE, "ffefffffffffffff"],
            with(ONE, ONE),
            "refused 9",
        ),
        ([MOST; 4], ONE.to_string(), "refused 10"),
        ([tiny; 4], with(MOST, &with(ONE, ONE)), "refused 10"),
    ];
    for (z, rest, expected) in cases {
        assert_eq!(coulomb(z, &rest), expected, "{:?} {}", z, rest);
    }
}

/// A table has no s; where the sum of exponents is infinite it is 11 as an evaluation is.
#[test]
fn tables_beside_it() {
    let table = |z: f64| {
        ask(&format!(
            "table 4{}",
            format!(" 0 0 0 {} 0", bits(z)).repeat(4)
        ))
    };
    assert!(table(1.0).starts_with("table 0000000000000000 "));
    assert!(table(1.0).ends_with(" 3fc0000000000000"));
    assert_eq!(table(f64::MAX / 2.0), "refused 11");
    assert_eq!(table(f64::MAX / 4.0), "refused 11");
}

/// Of other kinds the host's number is what it was.
#[test]
fn other_kinds_divide_nothing() {
    for (kind, boys) in [(0, ""), (1, ""), (2, " 3ff0000000000000"), (3, "")] {
        let mut roll = Vec::new();
        oracle::parse::write_roll(&mut roll, &rust_side::roll(kind, &[0; 12]));
        let roll = String::from_utf8(roll).expect("digits are text");
        let centres = format!("0 0 0 {} 1 ", ONE).repeat(4);
        let asked = format!("eval {} {}{}{}", roll, centres, ONE, boys);
        // Kinetic s,s starts at e (3 - 2 e ab), which is 3/2.
        let value = if kind == 1 { "3ff8000000000000" } else { ONE };
        assert_eq!(ask(&asked), format!("value {}", value), "{}", kind);
    }
}
