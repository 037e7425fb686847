//! the element of two contracted functions, and the question `contracted`.

mod shared;

use oracle::answer::{rust_element, same, Way};
use oracle::parse::{self, Centre, Contracted, Counted, Line, Primitive, Question};
use oracle::questions::write_all;
use oracle::rust_side;
use oracle::second::{self, NOW};
use shared::{ask, bits, value};

/// Overlap s,s: the value of a pair is its host number.
const SS: &str = "0000000000000001010000";
/// Overlap Ax1: [0].
const AX1: &str = "000100000000000101000100";
/// Kinetic s,s: the value of a pair is its host number times e (3.0 - 2.0 e ab).
const KINETIC: &str = "0100000000000001010000";

/// A primitive on the x axis.
fn at(x: f64, exponent: f64, norm: f64, coefficient: f64) -> String {
    let [x, exponent] = [x, exponent].map(bits);
    let [norm, coefficient] = [norm, coefficient].map(bits);
    format!("{} 0 0 {} 1 {} {}", x, exponent, norm, coefficient)
}

/// A primitive at the origin, of exponent 1.0.
fn of(norm: f64, coefficient: f64) -> String {
    at(0.0, 1.0, norm, coefficient)
}

fn asked(roll: &str, left: &[String], right: &[String], host: &[f64]) -> String {
    let mut words = vec!["contracted".to_string(), roll.to_string()];
    for function in [left, right] {
        words.push(function.len().to_string());
        words.extend_from_slice(function);
    }
    words.push(host.len().to_string());
    words.extend(host.iter().map(|&number| bits(number)));
    words.join(" ")
}

fn element(roll: &str, left: &[String], right: &[String], host: &[f64]) -> String {
    ask(&asked(roll, left, right, host))
}

#[test]
fn one_primitive_each() {
    assert_eq!(
        element(SS, &[of(1.0, 1.0)], &[of(1.0, 1.0)], &[2.5]),
        value(2.5)
    );
    assert_eq!(
        element(SS, &[of(2.0, 3.0)], &[of(5.0, 7.0)], &[0.5]),
        value(105.0)
    );
    // cb (ca ((na nb) v)); five other ways to multiply end in 4d or 4e.
    assert_eq!(
        element(SS, &[of(0.1, 0.7)], &[of(0.8, 0.8)], &[0.9]),
        "value 3fa4a4d2b2bfdb4f"
    );
    // Rp is 1.5, so prefactor 0 is 1.5.
    let (left, right) = (at(0.0, 1.0, 1.0, 1.0), at(2.0, 3.0, 1.0, 1.0));
    assert_eq!(element(AX1, &[left], &[right], &[4.0]), value(6.0));
    // e is 0.5; ab is 0 and 4.
    let near = at(0.0, 1.0, 1.0, 1.0);
    let far = at(2.0, 1.0, 1.0, 1.0);
    assert_eq!(
        element(KINETIC, &[near.clone()], &[near.clone()], &[2.0]),
        value(3.0)
    );
    assert_eq!(element(KINETIC, &[near], &[far], &[2.0]), value(-1.0));
}

/// The pair of left i and right j has the host number j (left count) + i.
#[test]
fn host_numbers_go_right_function_outer() {
    // 13 (3 (2 11) 1 + 7 (5 11) 2) + 19 (3 (2 17) 3 + 7 (5 17) 4); 64,969 the other way round.
    let left = [of(2.0, 3.0), of(5.0, 7.0)];
    let right = [of(11.0, 13.0), of(17.0, 19.0)];
    assert_eq!(
        element(SS, &left, &right, &[1.0, 2.0, 3.0, 4.0]),
        value(61_902.0)
    );
    // Each host number is a digit of its own.
    let powers = |list: &[f64]| -> Vec<String> { list.iter().map(|&c| of(1.0, c)).collect() };
    let host = [1.0, 2.0, 3.0, 4.0, 5.0, 6.0];
    let (two, three) = (powers(&[1.0, 1e1]), powers(&[1.0, 1e2, 1e4]));
    assert_eq!(element(SS, &two, &three, &host), value(654_321.0));
    let (three, two) = (powers(&[1.0, 1e1, 1e2]), powers(&[1.0, 1e3]));
    assert_eq!(element(SS, &three, &two, &host), value(654_321.0));
    let ten = powers(&[1.0, 1e1, 1e2, 1e3, 1e4, 1e5, 1e6, 1e7, 1e8, 1e9]);
    let host = [1.0, 2.0, 3.0, 4.0, 5.0, 6.0, 7.0, 8.0, 9.0, 1.0];
    let one = powers(&[1.0]);
    assert_eq!(element(SS, &ten, &one, &host), value(1_987_654_321.0));
    assert_eq!(element(SS, &one, &ten, &host), value(1_987_654_321.0));
    assert_eq!(element(SS, &ten, &ten, &[0.0; 100]), value(0.0));
}

/// A pair's geometry is that of its own primitives.
#[test]
fn each_pair_has_its_own_geometry() {
    // Ax1, all exponents 1.0: prefactor 0 is half the way from left to right.
    let left = [at(0.0, 1.0, 1.0, 1.0), at(2.0, 1.0, 1.0, 10.0)];
    let right = [at(4.0, 1.0, 1.0, 1.0), at(-6.0, 1.0, 1.0, 100.0)];
    // 2 and 1; -3 and -4.
    assert_eq!(
        element(AX1, &left, &right, &[1.0; 4]),
        value(12.0 - 4_300.0)
    );
}

/// The inner sum is over the left function; each begins at 0.0 and goes from the first on.
#[test]
fn the_order_of_sums() {
    let left = [of(1.0, 1.4), of(1.0, 0.3)];
    let right = [of(1.0, 0.9), of(1.0, 1.5)];
    // Inner sums over the right function, and one sum of all, end in 01.
    assert_eq!(
        element(SS, &left, &right, &[1.4, 1.4, 1.0, 1.3]),
        "value 40134ed916872b02"
    );
    // 1 is lost in 10^16 where it comes before the two cancel, within the inner sum and the outer.
    let list = |coefficients: [f64; 3]| coefficients.map(|c| of(1.0, c));
    let (lost, kept) = (list([1e16, 1.0, -1e16]), list([1e16, -1e16, 1.0]));
    let one = [of(1.0, 1.0)];
    for (function, expected) in [(lost, 0.0), (kept, 1.0)] {
        assert_eq!(element(SS, &function, &one, &[1.0; 3]), value(expected));
        assert_eq!(element(SS, &one, &function, &[1.0; 3]), value(expected));
    }
    // Products of -0.0 are lost in 0.0.
    let minus = [of(1.0, -1.0)];
    assert_eq!(element(SS, &minus, &one, &[0.0]), value(0.0));
    assert_eq!(element(SS, &one, &minus, &[0.0]), value(0.0));
    assert_eq!(element(SS, &one, &one, &[-0.0]), value(0.0));
    assert_eq!(element(SS, &[of(-1.0, 1.0)], &one, &[0.0]), value(0.0));
}

#[test]
fn counts_from_1_to_10() {
    let with = |left: &str, right: &str, host: &str| {
        ask(&format!("contracted {} {} {} {}", SS, left, right, host))
    };
    let list = |count: usize| vec![of(1.0, 1.0); count].join(" ");
    let one = format!("1 {}", list(1));
    assert_eq!(with(&one, &one, "1 0"), value(0.0));
    let ten = format!("10 {}", list(10));
    let zeros = |count: usize| format!("{}{}", count, " 0".repeat(count));
    assert_eq!(with(&ten, &one, &zeros(10)), value(0.0));
    assert_eq!(with(&ten, &ten, &zeros(100)), value(0.0));
    for count in ["0", "11", "12", "128", "255"] {
        assert_eq!(with(count, &one, "1 0"), "refused 15");
        assert_eq!(with(&one, count, "1 0"), "refused 15");
        assert_eq!(with(count, count, "0"), "refused 15");
        assert_eq!(with(count, &one, "128 0"), "?");
    }
    for count in ["256", "01", "00", "", "-1", "x", "4294967297"] {
        assert_eq!(with(&format!("{} {}", count, list(1)), &one, "1 0"), "?");
        assert_eq!(with(&one, &format!("{} {}", count, list(1)), "1 0"), "?");
        assert_eq!(with(&one, &one, &format!("{} 0", count)), "?");
    }
    // None follow 11, so that a primitive's x stands where the next count should.
    assert_eq!(with(&format!("11 {}", list(11)), &one, "11 0"), "?");
    assert_eq!(with(&format!("2 {}", list(1)), &one, "1 0"), "?");
    assert_eq!(with(&format!("1 {}", list(2)), &one, "1 0"), "?");
}

#[test]
fn the_host_list_has_left_times_right() {
    let list = |count: usize| vec![of(1.0, 1.0); count];
    for (left, right) in [(1, 1), (2, 3), (3, 2), (10, 10)] {
        for count in [
            0,
            1,
            left * right - 1,
            left * right + 1,
            left + right,
            100,
            128,
        ] {
            let answer = element(SS, &list(left), &list(right), &vec![1.0; count]);
            let expected = match count == left * right {
                true => value(count as f64),
                false => "refused 16".to_string(),
            };
            assert_eq!(answer, expected, "{} {} {}", left, right, count);
        }
    }
    let one = format!("1 {} 1 {}", of(1.0, 1.0), of(1.0, 1.0));
    let host = |host: &str| ask(&format!("contracted {} {} {}", SS, one, host));
    assert_eq!(host(&format!("128{}", " 0".repeat(128))), "refused 16");
    for wrong in [
        format!("129{}", " 0".repeat(129)),
        "2 0".to_string(),
        "1 0 0".to_string(),
        "1".to_string(),
        "0 0".to_string(),
        "".to_string(),
        "1 x".to_string(),
        "01 0".to_string(),
    ] {
        assert_eq!(host(&wrong), "?", "{}", wrong);
    }
    assert_eq!(host("0"), "refused 16");
}

/// 15, 16, 7 or 14, 1, 8, 9, 11: each beside all that come after it.
#[test]
fn the_order_of_refusals() {
    let (good, zero) = (of(1.0, 1.0), at(0.0, 0.0, 1.0, 1.0));
    let far = at(1e155, 1.0, 1.0, 1.0);
    let infinite = f64::INFINITY;
    let question = |roll: &str, left: &[&String], host: &[f64]| {
        let left: Vec<String> = left.iter().map(|p| p.to_string()).collect();
        element(roll, &left, &[far.clone()], host)
    };
    let nuclear = "0200000000000001010000";
    assert_eq!(question("-", &[], &[infinite]), "refused 15");
    assert_eq!(question("-", &[&zero], &[infinite, infinite]), "refused 16");
    assert_eq!(question("-", &[&zero], &[infinite]), "refused 14 at 0");
    assert_eq!(question("8000", &[&zero], &[infinite]), "refused 7 at 0");
    assert_eq!(
        question(&nuclear[..20], &[&zero], &[infinite]),
        "refused 14 at 10"
    );
    assert_eq!(question(nuclear, &[&zero], &[infinite]), "refused 1");
    assert_eq!(question(SS, &[&zero], &[infinite]), "refused 8");
    assert_eq!(question(SS, &[&zero], &[1.0]), "refused 9");
    assert_eq!(question(SS, &[&good], &[1.0]), "refused 11");
    for kind in [2, 3, 4] {
        let mut roll = Vec::new();
        parse::write_roll(&mut roll, &rust_side::roll(kind, &[0; 12]));
        let roll = String::from_utf8(roll).expect("digits are text");
        assert_eq!(question(&roll, &[&good], &[infinite]), "refused 1");
        assert_eq!(question(&roll, &[&good], &[]), "refused 16");
    }
    // Each over all pairs before the next: the last primitive's fault counts before one of the first
    // that is looked for later.
    let near = [of(1.0, 1.0)];
    let infinite = at(infinite, 1.0, 1.0, 1.0);
    let cases = [
        ([&zero, &infinite], "refused 8"),
        ([&far, &infinite], "refused 8"),
        ([&far, &zero], "refused 9"),
        ([&far, &good], "refused 11"),
        ([&good, &far], "refused 11"),
    ];
    for (list, expected) in cases {
        let list = list.map(String::clone);
        assert_eq!(element(SS, &list, &near, &[1.0; 2]), expected);
        assert_eq!(element(SS, &near, &list, &[1.0; 2]), expected);
    }
}

/// Coordinates, exponents, norms, coefficients and host numbers are used; an exponent is above 0.
#[test]
fn used_floats() {
    let good = "0 0 0 3ff0000000000000 1 3ff0000000000000 3ff0000000000000";
    let with = |place: usize, word: &str| {
        let mut words: Vec<&str> = good.split(' ').collect();
        words[place] = word;
        words.join(" ")
    };
    for roll in [SS, KINETIC] {
        for wrong in [f64::INFINITY, f64::NEG_INFINITY, f64::NAN].map(bits) {
            for place in [0, 1, 2, 3, 5, 6] {
                let (good, wrong) = (good.to_string(), with(place, &wrong));
                let list = [good.clone(), wrong];
                assert_eq!(
                    element(roll, &list, &[good.clone()], &[1.0; 2]),
                    "refused 8"
                );
                assert_eq!(element(roll, &[good], &list, &[1.0; 2]), "refused 8");
            }
        }
        let list = [good.to_string(), good.to_string()];
        for at in 0..4 {
            let mut host = [1.0; 4];
            host[at] = f64::NAN;
            assert_eq!(element(roll, &list, &list, &host), "refused 8");
        }
        for exponent in [0.0, -0.0, -1.0, f64::MIN].map(bits) {
            let wrong = [list[0].clone(), with(3, &exponent)];
            assert_eq!(element(roll, &wrong, &list, &[1.0; 4]), "refused 9");
            assert_eq!(element(roll, &list, &wrong, &[1.0; 4]), "refused 9");
        }
        // Norms and coefficients may be 0 or below.
        let odd = [of(0.0, -1.0), of(-1.0, -0.0)];
        assert_eq!(element(roll, &odd, &odd, &[1.0; 4]), value(0.0));
    }
}

#[test]
fn results_that_are_not_finite() {
    let most = f64::MAX;
    let one = [of(1.0, 1.0)];
    assert_eq!(element(SS, &one, &one, &[most]), value(most));
    // The product of the norms alone, though the value is 0.0.
    let large = [of(1e200, 1.0)];
    assert_eq!(element(SS, &large, &large, &[0.0]), "refused 11");
    assert_eq!(element(SS, &large, &one, &[1e200]), "refused 11");
    assert_eq!(element(SS, &[of(1.0, 2.0)], &one, &[most]), "refused 11");
    assert_eq!(element(SS, &one, &[of(1.0, 2.0)], &[most]), "refused 11");
    assert_eq!(
        element(SS, &[of(1.0, 2.0)], &[of(1.0, 0.5)], &[most]),
        "refused 11"
    );
    assert_eq!(
        element(SS, &[of(1.0, 0.5)], &[of(1.0, 2.0)], &[most]),
        value(most)
    );
    // Sums, inner and outer, on the way too.
    let two = [of(1.0, 1.0), of(1.0, 1.0)];
    assert_eq!(element(SS, &two, &one, &[most, -most]), value(0.0));
    assert_eq!(element(SS, &two, &one, &[most, most]), "refused 11");
    assert_eq!(element(SS, &one, &two, &[most, most]), "refused 11");
    assert_eq!(element(SS, &one, &two, &[most, -most]), value(0.0));
    assert_eq!(
        element(SS, &two, &[of(1.0, 0.0)], &[most, most]),
        "refused 11"
    );
    let three = [of(1.0, 1.0), of(1.0, 1.0), of(1.0, -1.0)];
    assert_eq!(element(SS, &three, &one, &[most; 3]), "refused 11");
    // A kinetic value: 1.5 times 10^150 times its host number.
    let tight = [at(0.0, 1e150, 1.0, 1.0)];
    assert_eq!(element(KINETIC, &tight, &tight, &[1e200]), "refused 11");
    assert_eq!(element(KINETIC, &tight, &tight, &[0.0]), value(0.0));
    // A geometry number that overlap has no use for: za zb in e.
    let tight = [at(0.0, 1e160, 1.0, 1.0)];
    assert_eq!(element(SS, &tight, &tight, &[1.0]), "refused 11");
}

/// Random questions that are well-formed, as lines and as they are read.
fn questions(count: u64, seed: u64) -> Vec<(String, Contracted)> {
    let mut asked = Vec::new();
    assert!(write_all("contracted", count, seed, &mut asked).expect("memory takes all"));
    let mut found = Vec::new();
    for line in asked.split(|&byte| byte == b'\n') {
        if let Line::Asks(Question::Contracted(asked)) = parse::line(line) {
            let line = std::str::from_utf8(line).expect("a question is text");
            found.push((line.to_string(), asked));
        }
    }
    found
}

/// The line of a question.
fn text(asked: &Contracted) -> String {
    let primitive = |p: &Primitive| {
        let [x, y, z] = p.centre.r.map(bits);
        let [exponent, norm, coefficient] = [p.centre.z, p.norm, p.coefficient].map(bits);
        let charge = p.centre.charge;
        format!(
            "{} {} {} {} {} {} {}",
            x, y, z, exponent, charge, norm, coefficient
        )
    };
    let mut words = vec!["contracted".to_string(), roll_text(&asked.roll)];
    for function in [&asked.left, &asked.right] {
        words.push(function.count.to_string());
        words.extend(function.list.iter().map(primitive));
    }
    words.push(asked.host.len().to_string());
    words.extend(asked.host.iter().map(|&number| bits(number)));
    words.join(" ")
}

fn roll_text(roll: &[u8]) -> String {
    let mut text = Vec::new();
    parse::write_roll(&mut text, roll);
    String::from_utf8(text).expect("digits are text")
}

fn told(answer: &str) -> Option<f64> {
    let digits = answer.strip_prefix("value ")?;
    let bits = u64::from_str_radix(digits, 16).expect("hexadecimal digits");
    Some(f64::from_bits(bits))
}

/// What `eval` tells of a pair.
fn single(asked: &Contracted, left: &Centre, right: &Centre, aux: f64) -> f64 {
    let centre = |centre: &Centre| {
        let [x, y, z] = centre.r.map(bits);
        format!("{} {} {} {} 1", x, y, z, bits(centre.z))
    };
    let roll = roll_text(&asked.roll);
    let (a, b) = (centre(left), centre(right));
    let unused = "0 0 0 0 1 0 0 0 0 1";
    let answer = ask(&format!(
        "eval {} {} {} {} {}",
        roll,
        a,
        b,
        unused,
        bits(aux)
    ));
    told(&answer).expect("a pair of an element that is told")
}

/// The element is the sum over the values that `eval` tells of the pairs.
#[test]
fn elements_beside_single_pairs() {
    let mut found = 0;
    for (line, asked) in questions(3_000, 1) {
        let answer = match told(&ask(&line)) {
            Some(answer) => answer,
            None => continue,
        };
        let mut outer = 0.0;
        let mut host = asked.host.iter();
        for b in &asked.right.list {
            let mut inner = 0.0;
            for a in &asked.left.list {
                let aux = *host.next().expect("a number for each pair");
                let v = single(&asked, &a.centre, &b.centre, aux);
                inner += a.coefficient * (a.norm * b.norm * v);
            }
            outer += b.coefficient * inner;
        }
        assert_eq!(bits(answer), bits(outer));
        found += 1;
    }
    assert!(found > 1_000, "{}", found);
}

/// Any element is that of the right function without its last primitive, plus that of the last alone.
#[test]
fn the_last_primitive_on_the_right() {
    let mut found = 0;
    for (line, asked) in questions(3_000, 2) {
        let (left, last) = (
            asked.left.list.len(),
            asked.right.list.len().wrapping_sub(1),
        );
        let answer = match told(&ask(&line)) {
            Some(answer) if last > 0 => answer,
            _ => continue,
        };
        let part = |from: usize, to: usize| {
            let part = Contracted {
                right: Counted {
                    count: (to - from) as u8,
                    list: asked.right.list[from..to].to_vec(),
                },
                host: asked.host[from * left..to * left].to_vec(),
                ..asked.clone()
            };
            told(&ask(&text(&part))).expect("a part of an element that is told")
        };
        assert_eq!(bits(answer), bits(part(0, last) + part(last, last + 1)));
        found += 1;
    }
    assert!(found > 500, "{}", found);
}

#[test]
fn charges_do_not_matter() {
    let mut found = 0;
    for (line, mut asked) in questions(2_000, 3) {
        let answer = ask(&line);
        for charge in [0, 1, 119, 300, u32::MAX] {
            let both = asked.left.list.iter_mut().chain(&mut asked.right.list);
            both.for_each(|primitive| primitive.centre.charge = charge);
            assert_eq!(ask(&text(&asked)), answer);
        }
        found += u32::from(answer.starts_with("value"));
    }
    assert!(found > 500, "{}", found);
}

/// What the Rust's sums of iterators begin at: -0.0 in newer releases, 0.0 before.
fn sum_of_none() -> f64 {
    std::iter::empty::<f64>().sum()
}

/// The smallest functions at which S and the papers differ: one primitive each, a value of 0.0 and a
/// coefficient below 0. The values are 0.0 because overlap Ax1 is odd about the one centre of both.
#[test]
fn only_the_sign_of_a_zero() {
    let minus = at(0.0, 1.0, 1.0, -1.0);
    let one = at(0.0, 1.0, 1.0, 1.0);
    let own_aux = rust_side::aux(0, &[at_origin(), at_origin(), at_origin(), at_origin()]);
    let line = asked(AX1, &[minus], &[one], &[own_aux]);
    assert_eq!(ask(&line), value(0.0));
    let question = match parse::line(line.as_bytes()) {
        Line::Asks(Question::Contracted(question)) => question,
        _ => panic!("a question about contracted functions"),
    };
    let (header, terms) = NOW.check(&question.roll).expect("the roll reads");
    let (way, rust) = rust_element(&header, &terms, &question);
    assert!(matches!(way, Way::Unchanged));
    assert_eq!(bits(rust), bits(sum_of_none()));
}

fn at_origin() -> Centre {
    Centre {
        z: 1.0,
        ..Centre::default()
    }
}

/// S and T of basis.rs, by the unchanged get_ functions and by given values, and the second reading
/// come to the same bits but for the sign of a zero.
#[test]
fn the_rust_and_the_second_reading() {
    let (mut unchanged, mut fed, mut zeros) = (0, 0, 0);
    for (line, asked) in questions(5_000, 4) {
        let sum = match told(&ask(&line)) {
            Some(sum) => sum,
            None => continue,
        };
        let (header, terms) = NOW.check(&asked.roll).expect("a roll that is told reads");
        let second = second::element(header.kind, &terms, &asked);
        let by_values = rust_side::element_of_values(&header, &asked, &second.values);
        assert!(same(&[by_values + 0.0, second.element], &[sum, sum]));
        let (way, rust) = rust_element(&header, &terms, &asked);
        assert!(same(&[rust], &[by_values]));
        match way {
            Way::Unchanged => unchanged += 1,
            Way::SumLoops => fed += 1,
        }
        if bits(rust) != bits(sum) {
            assert_eq!((bits(rust), bits(sum)), (bits(-0.0), bits(0.0)));
            zeros += 1;
        }
    }
    assert!(unchanged > 500 && fed > 500, "{} {}", unchanged, fed);
    assert_eq!(zeros > 100, sum_of_none().is_sign_negative());
}
