//! a charge in each centre, and the question `nuclei`.

mod shared;

use oracle::answer::same;
use oracle::parse::{self, Centre, Line, Nuclei, Question, LONGEST_LINE};
use oracle::questions::write_all;
use oracle::random::Random;
use oracle::second::{self, NOW};
use oracle::{floats, rolls, rust_side};
use shared::{ask, bits, value};

/// Nuclear s,s: the value is aux times F(0).
const SS: &str = "0200000000000001010000";
/// Nuclear Ax1: [0] [6]o1.
const AX1: &str = "02010000000000020100010001010106";
/// Overlap s,s.
const OVERLAP: &str = "0000000000000001010000";

/// A centre on the x axis.
fn centre(x: f64, exponent: f64, charge: u32) -> String {
    format!("{} 0 0 {} {}", bits(x), bits(exponent), charge)
}

/// A function at the origin, of exponent 1.0.
fn function() -> String {
    centre(0.0, 1.0, 1)
}

/// A nucleus at the origin.
fn of_charge(charge: u32) -> String {
    centre(0.0, 0.0, charge)
}

/// Two functions, these nuclei, aux and Boys numbers.
fn asked(roll: &str, pair: [&str; 2], nuclei: &[String], aux: f64, boys: &[f64]) -> String {
    let mut line = format!("nuclei {} {} {} {}", roll, pair[0], pair[1], nuclei.len());
    for nucleus in nuclei {
        line += &format!(" {}", nucleus);
    }
    line += &format!(" {}", bits(aux));
    for &number in boys {
        line += &format!(" {}", bits(number));
    }
    line
}

/// The answer for s,s functions at the origin and nuclei of these charges there.
fn sum(charges: &[u32], aux: f64, boys: &[f64]) -> String {
    let nuclei: Vec<_> = charges.iter().map(|&charge| of_charge(charge)).collect();
    let function = function();
    ask(&asked(SS, [&function, &function], &nuclei, aux, boys))
}

/// The answer of `eval` for s,s functions at the origin and one nucleus there.
fn single(charge: u32, aux: f64, boys: &[f64]) -> String {
    let [a, b, c, d] = [function(), function(), of_charge(charge), of_charge(0)];
    let mut line = format!("eval {} {} {} {} {} {}", SS, a, b, c, d, bits(aux));
    for &number in boys {
        line += &format!(" {}", bits(number));
    }
    ask(&line)
}

#[test]
fn the_charge_times_the_old_value() {
    assert_eq!(single(1, 2.0, &[3.0]), value(6.0));
    assert_eq!(single(5, 2.0, &[3.0]), value(30.0));
    assert_eq!(single(118, 2.0, &[-3.0]), value(-708.0));
    assert_eq!(single(0, 2.0, &[3.0]), value(0.0));
    assert_eq!(single(0, 2.0, &[-3.0]), value(-0.0));
    assert_eq!(single(0, -2.0, &[3.0]), value(-0.0));
    // The old value begins at 0.0, so that a product of -0.0 is lost in it.
    assert_eq!(single(7, -0.0, &[3.0]), value(0.0));
    // 0.3 times 0.9 first, then 118 times: the other way round it would end in 5c.
    assert_eq!(single(118, 0.3, &[0.9]), "value 403fdc28f5c28f5d");
    // A subnormal number times 118 is exact.
    assert_eq!(single(118, 5e-324, &[1.0]), "value 0000000000000076");
}

#[test]
fn the_sum_of_a_list() {
    assert_eq!(sum(&[5], 2.0, &[3.0]), value(30.0));
    assert_eq!(sum(&[5, 1], 2.0, &[3.0, 0.5]), value(31.0));
    assert_eq!(sum(&[118], 0.3, &[0.9]), "value 403fdc28f5c28f5d");
    // It begins at 0.0.
    assert_eq!(sum(&[0], 2.0, &[-3.0]), value(0.0));
    assert_eq!(sum(&[0, 0, 0], -2.0, &[1.0, 2.0, 3.0]), value(0.0));
    assert_eq!(sum(&[3, 3], 1.0, &[2.0, -2.0]), value(0.0));
    // From the left: 1 is lost in 10^16 where it comes before the two cancel.
    assert_eq!(sum(&[1, 1, 1], 1.0, &[1e16, 1.0, -1e16]), value(0.0));
    assert_eq!(sum(&[1, 1, 1], 1.0, &[1e16, -1e16, 1.0]), value(1.0));
    assert_eq!(sum(&[1, 1, 1], 1.0, &[1.0, 1e16, -1e16]), value(0.0));
    // Each product is rounded before it is added: 3 times 0.1 and 3 times 0.3, not 3 times 0.4.
    assert_eq!(sum(&[3, 3], 1.0, &[0.1, 0.3]), "value 3ff3333333333333");
    let all = [1; 32];
    assert_eq!(sum(&all, 0.25, &[1.0; 32]), value(8.0));
    assert_eq!(sum(&[118; 31], 1.0, &[2.0; 31]), value(7316.0));
}

/// A at 0 and B at 2 meet at 1: prefactor 0 is 1, prefactor 6 is the nucleus's place less 1.
#[test]
fn boys_lists_follow_one_another() {
    let pair = [centre(0.0, 1.0, 9), centre(2.0, 1.0, 9)];
    let answer = |nuclei: &[String], boys: &[f64]| {
        let question = asked(AX1, [&pair[0], &pair[1]], nuclei, 1.0, boys);
        ask(&question)
    };
    let first = centre(4.0, 1.0, 8);
    let second = centre(1.0, 1.0, 3);
    let third = centre(-1.0, 1.0, 2);
    // 8 (0.5 + 3 0.25), 3 (2 + 0 7), 2 (1 - 2 4).
    assert_eq!(answer(&[first.clone()], &[0.5, 0.25]), value(10.0));
    assert_eq!(answer(&[second.clone()], &[2.0, 7.0]), value(6.0));
    assert_eq!(answer(&[third.clone()], &[1.0, 4.0]), value(-14.0));
    let all = [first, second, third];
    let boys = [0.5, 0.25, 2.0, 7.0, 1.0, 4.0];
    assert_eq!(answer(&all, &boys), value(2.0));
    // The lists of the first and the last exchanged: 8 (1 + 3 4), 6, 2 (0.5 - 2 0.25).
    let boys = [1.0, 4.0, 2.0, 7.0, 0.5, 0.25];
    assert_eq!(answer(&all, &boys), value(110.0));
    // One less, one more, those of one nucleus, and none.
    assert_eq!(answer(&all, &boys[..5]), "refused 10");
    assert_eq!(answer(&all, &[&boys[..], &[0.0]].concat()), "refused 10");
    assert_eq!(answer(&all, &boys[..2]), "refused 10");
    assert_eq!(answer(&all, &boys[..3]), "refused 10");
    assert_eq!(answer(&all, &[]), "refused 10");
}

#[test]
fn charges_up_to_118() {
    assert_eq!(single(118, 1.0, &[1.0]), value(118.0));
    assert_eq!(sum(&[118], 1.0, &[1.0]), value(118.0));
    // A byte would make 44 of 300 and 0 of 256.
    for charge in [119, 255, 256, 257, 300, 65_536, 65_537, 1 << 31, u32::MAX] {
        assert_eq!(single(charge, 1.0, &[1.0]), "refused 17");
        assert_eq!(sum(&[charge], 1.0, &[1.0]), "refused 17");
        assert_eq!(sum(&[1, charge, 1], 1.0, &[1.0; 3]), "refused 17");
        assert_eq!(sum(&[1, 1, charge], 1.0, &[1.0; 3]), "refused 17");
    }
}

/// None follow a count of 0 or above 32; what stands behind it is aux and Boys numbers.
#[test]
fn counts_from_1_to_32() {
    let function = function();
    let with_count = |count: &str, rest: &str| {
        ask(&format!(
            "nuclei {} {} {} {} {}",
            SS, function, function, count, rest
        ))
    };
    let list = |count: usize| vec![of_charge(1); count].join(" ");
    for count in ["0", "33", "34", "64", "128", "255"] {
        assert_eq!(with_count(count, "0"), "refused 17");
        assert_eq!(with_count(count, "0 0"), "refused 17");
        // An infinite number would be 8.
        assert_eq!(with_count(count, "0 7ff0000000000000"), "refused 17");
        assert_eq!(with_count(count, ""), "?");
    }
    let last = " 3ff0000000000000".repeat(34);
    assert_eq!(with_count("33", &(list(33) + &last)), "refused 17");
    assert_eq!(with_count("0", &(list(1) + &last)), "refused 17");
    assert_eq!(
        with_count("32", &(list(32) + &last[..17 * 33])),
        value(32.0)
    );
    // Of 33 centres behind a count of 32 the last is aux and four Boys numbers.
    assert_eq!(with_count("32", &(list(33) + &last)), "refused 10");
    for count in ["256", "4294967297", "032", "00", "", "-1", "+1", "1.0", "x"] {
        assert_eq!(with_count(count, &(list(1) + &last[..34])), "?");
    }
    assert_eq!(with_count("2", &(list(1) + " 3ff0000000000000")), "?");
    assert_eq!(with_count("1", &list(1)), "?");
}

/// Infinite times 0 is no number.
#[test]
fn results_that_are_not_finite() {
    let most = f64::MAX;
    assert_eq!(single(1, most, &[1.0]), value(most));
    assert_eq!(single(2, most, &[1.0]), "refused 11");
    assert_eq!(single(2, most, &[0.5]), value(most));
    assert_eq!(single(0, most, &[1.0]), value(0.0));
    assert_eq!(single(0, most, &[2.0]), "refused 11");
    assert_eq!(sum(&[1], most, &[1.0]), value(most));
    assert_eq!(sum(&[0], most, &[2.0]), "refused 11");
    assert_eq!(sum(&[1, 0], 1.0, &[1.0, 1.0]), value(1.0));
    assert_eq!(sum(&[1, 1], most, &[0.5, 0.5]), value(most));
    assert_eq!(sum(&[1, 1], most, &[1.0, 1.0]), "refused 11");
    assert_eq!(sum(&[1, 1, 1], most, &[1.0, -1.0, 1.0]), value(most));
    // On the way, though the rest would bring it back.
    assert_eq!(sum(&[1, 1, 1], most, &[1.0, 1.0, -1.0]), "refused 11");
    assert_eq!(sum(&[2, 2], most, &[1.0, -1.0]), "refused 11");
    // A geometry number of the last nucleus: its squared distance.
    let far = [of_charge(1), centre(1e155, 1.0, 0)];
    let function = function();
    let pair = [function.as_str(), &function];
    assert_eq!(ask(&asked(SS, pair, &far, 1.0, &[1.0, 1.0])), "refused 11");
}

/// 7 or 14, 1, 17, 8, 9, 10, 11: each beside all that come after it.
#[test]
fn the_order_of_refusals() {
    let far = |charge: u32| centre(1e155, 1.0, charge);
    let (good, zero) = (function(), centre(0.0, 0.0, 1));
    let most = f64::MAX;
    let infinite = f64::INFINITY;
    let question = |roll: &str, a: &str, charge: u32, aux: f64, boys: &[f64]| {
        let nuclei = [of_charge(1), far(charge)];
        ask(&asked(roll, [a, &good], &nuclei, aux, boys))
    };
    let overlap = &OVERLAP[..20];
    assert_eq!(question("-", &zero, 119, infinite, &[]), "refused 14 at 0");
    assert_eq!(
        question(overlap, &zero, 119, infinite, &[]),
        "refused 14 at 10"
    );
    let longer = format!("{}00", OVERLAP);
    assert_eq!(
        question(&longer, &zero, 119, infinite, &[]),
        "refused 7 at 11"
    );
    assert_eq!(question(OVERLAP, &zero, 119, infinite, &[]), "refused 1");
    assert_eq!(question(SS, &zero, 119, infinite, &[]), "refused 17");
    assert_eq!(question(SS, &zero, 118, infinite, &[]), "refused 8");
    assert_eq!(question(SS, &zero, 118, most, &[]), "refused 9");
    assert_eq!(question(SS, &good, 118, most, &[]), "refused 10");
    assert_eq!(question(SS, &good, 118, most, &[1.0, 1.0]), "refused 11");
    // Each roll of another kind is 1.
    for kind in [0, 1, 3, 4] {
        let mut roll = Vec::new();
        parse::write_roll(&mut roll, &rust_side::roll(kind, &[0; 12]));
        let roll = String::from_utf8(roll).expect("digits are text");
        assert_eq!(question(&roll, &good, 119, infinite, &[]), "refused 1");
    }
    // A wrong count too comes after 1 and before 8.
    let counted = |roll: &str, count: u8| {
        ask(&format!(
            "nuclei {} {} {} {} 7ff0000000000000",
            roll, zero, zero, count
        ))
    };
    for count in [0, 33, 255] {
        assert_eq!(counted("8000", count), "refused 7 at 0");
        assert_eq!(counted("-", count), "refused 14 at 0");
        assert_eq!(counted(OVERLAP, count), "refused 1");
        assert_eq!(counted(SS, count), "refused 17");
    }
}

/// Each check is made over all nuclei before the next: the last nucleus's fault counts before one of
/// the first that is looked for later.
#[test]
fn each_check_over_all_nuclei() {
    let (good, zero) = (function(), centre(0.0, 0.0, 1));
    let infinite = centre(f64::INFINITY, 1.0, 1);
    let far = centre(1e155, 1.0, 1);
    let heavy = of_charge(119);
    let near = of_charge(1);
    let question = |a: &str, nuclei: [&String; 2], boys: &[f64]| {
        let nuclei = nuclei.map(String::clone);
        ask(&asked(SS, [a, &good], &nuclei, 1.0, boys))
    };
    let boys = [1.0, 1.0];
    assert_eq!(question(&good, [&infinite, &heavy], &boys), "refused 17");
    assert_eq!(question(&good, [&far, &heavy], &boys), "refused 17");
    assert_eq!(question(&zero, [&near, &infinite], &boys), "refused 8");
    assert_eq!(question(&good, [&far, &infinite], &boys), "refused 8");
    assert_eq!(question(&good, [&near, &infinite], &boys[..1]), "refused 8");
    let last = [1.0, f64::NAN];
    assert_eq!(question(&zero, [&far, &near], &last), "refused 8");
    let beyond = [1.0, 1.0, f64::NAN];
    assert_eq!(question(&zero, [&far, &near], &beyond), "refused 8");
    assert_eq!(question(&zero, [&far, &near], &boys), "refused 9");
    assert_eq!(question(&good, [&far, &near], &boys[..1]), "refused 10");
    assert_eq!(question(&good, [&far, &near], &boys), "refused 11");
    assert_eq!(question(&good, [&near, &far], &boys), "refused 11");
    assert_eq!(question(&good, [&near, &near], &boys), value(2.0));
}

/// 17 for one centre: after 7 and 14, before 8, 9, 10 and 11.
#[test]
fn the_order_of_refusals_for_one_centre() {
    let (good, zero) = (function(), centre(0.0, 0.0, 1));
    let question = |roll: &str, a: &str, charge: u32, rest: &str| {
        let c = centre(1e155, 1.0, charge);
        let eval = format!("{} {} {} {} {} {}", roll, a, good, c, zero, rest);
        let answer = ask(&format!("eval {}", eval));
        assert_eq!(ask(&format!("grouped 0 {}", eval)), answer);
        answer
    };
    let infinite = "7ff0000000000000";
    assert_eq!(question("-", &zero, 119, infinite), "refused 14 at 0");
    assert_eq!(question("8000", &zero, 119, infinite), "refused 7 at 0");
    assert_eq!(question(SS, &zero, 119, infinite), "refused 17");
    assert_eq!(question(SS, &zero, 118, infinite), "refused 8");
    assert_eq!(question(SS, &zero, 118, "0"), "refused 9");
    assert_eq!(question(SS, &good, 118, "0"), "refused 10");
    assert_eq!(question(SS, &good, 118, "0 0"), "refused 11");
    assert_eq!(question(SS, &good, u32::MAX, "0 0"), "refused 17");
    // A wrong kind is never 17.
    assert_eq!(question(OVERLAP, &zero, 119, infinite), "refused 8");
}

/// Words that are no charge.
#[test]
fn charges_that_are_no_number() {
    let tail = format!("{} {} {} {}", function(), function(), bits(1.0), bits(1.0));
    let head = format!("{} 0 0 0 {}", function(), bits(1.0));
    let list = format!("{} {} 1 0 0 0 {}", function(), function(), bits(1.0));
    let lines = |charge: &str| {
        [
            format!("eval {} {} {} {}", SS, head, charge, tail),
            format!("grouped 0 {} {} {} {}", SS, head, charge, tail),
            format!(
                "nuclei {} {} {} 1 {}",
                SS,
                head,
                charge,
                &tail[function().len() + 1..]
            ),
            format!("nuclei {} {} {} 0 0", SS, list, charge),
        ]
    };
    for line in lines("1") {
        assert!(ask(&line).starts_with("value"), "{}", line);
    }
    for line in lines("4294967295") {
        assert_ne!(ask(&line), "?", "{}", line);
    }
    let wrong = [
        "",
        "00",
        "01",
        "0118",
        "4294967296",
        "18446744073709551617",
        "1.0",
        "-1",
        "+1",
        "a",
        "0x1",
        "3ff0000000000000",
        "4000000000000000",
    ];
    for charge in wrong {
        for line in lines(charge) {
            assert_eq!(ask(&line), "?", "{}", line);
        }
    }
    let table = |charge: &str| {
        let [a, b, c] = [function(), function(), function()];
        ask(&format!("table 0 {} {} {} 0 0 0 0{}", a, b, c, charge))
    };
    assert!(table(" 4294967295").starts_with("table "));
    for charge in ["", " ", " 01", " 4294967296", " 3ff0000000000000", " 1 1"] {
        assert_eq!(table(charge), "?");
    }
}

/// A question with its charges changed to others.
fn with_charges(words: &[&str], places: &[usize], charge: &str) -> String {
    let mut words = words.to_vec();
    for &place in places {
        words[place] = charge;
    }
    ask(&words.join(" "))
}

/// The words of some random questions of this kind that are well-formed, but for those that fill a
/// line.
fn questions(kind: &str, count: u64, seed: u64) -> Vec<Vec<String>> {
    let mut asked = Vec::new();
    assert!(write_all(kind, count, seed, &mut asked).expect("memory takes all"));
    let lines = asked.split(|&byte| byte == b'\n');
    let right = lines
        .filter(|line| line.len() < LONGEST_LINE / 2)
        .filter(|line| matches!(parse::line(line), Line::Asks(_)));
    let words = |line: &[u8]| -> Vec<String> {
        let line = std::str::from_utf8(line).expect("a question is text");
        line.split(' ').map(String::from).collect()
    };
    right.map(words).collect()
}

/// Only the charges of the nuclei are looked at.
#[test]
fn other_charges_do_not_matter() {
    let charges = |first: usize| [0, 1, 2, 3].map(|centre| first + 5 * centre + 4);
    for (kind, first) in [("eval", 2), ("grouped", 3), ("table", 2), ("nuclei", 2)] {
        let mut told = 0;
        for words in questions(kind, 4_000, 1).iter().skip(2_000) {
            let words: Vec<&str> = words.iter().map(String::as_str).collect();
            let answer = ask(&words.join(" "));
            // The roll's or the table's kind: of a nuclear one C is a nucleus.
            let is_nuclear = words[first - 1].starts_with("02");
            let places = charges(first);
            let places = match kind {
                "nuclei" => places[..2].to_vec(),
                "table" => places.to_vec(),
                _ if is_nuclear => vec![places[0], places[1], places[3]],
                _ => places.to_vec(),
            };
            for charge in ["0", "1", "119", "300", "4294967295"] {
                assert_eq!(with_charges(&words, &places, charge), answer);
            }
            told += u32::from(answer.starts_with("value") || answer.starts_with("table"));
        }
        assert!(told > 500, "{} {}", kind, told);
    }
}

/// The exponents of the nuclei are not looked at.
#[test]
fn exponents_of_nuclei_do_not_matter() {
    let mut told = 0;
    for words in questions("nuclei", 3_000, 2) {
        let words: Vec<&str> = words.iter().map(String::as_str).collect();
        let count: usize = words[12].parse().expect("a number");
        if !(1..=32).contains(&count) {
            continue;
        }
        let answer = ask(&words.join(" "));
        let places: Vec<_> = (0..count).map(|at| 13 + 5 * at + 3).collect();
        for exponent in [
            "0",
            "8000000000000000",
            "bff0000000000000",
            "7ff0000000000000",
        ] {
            assert_eq!(with_charges(&words, &places, exponent), answer);
        }
        assert_eq!(with_charges(&words, &places, "7ff8000000000001"), answer);
        told += u32::from(answer.starts_with("value"));
    }
    assert!(told > 500, "{}", told);
}

/// What a line asks about nuclei, and the line for some of them.
fn part(asked: &Nuclei, from: usize, to: usize) -> String {
    let text = |centre: &Centre| {
        let [x, y, z] = centre.r.map(bits);
        format!("{} {} {} {} {}", x, y, z, bits(centre.z), centre.charge)
    };
    let mut roll = Vec::new();
    parse::write_roll(&mut roll, &asked.roll);
    let roll = String::from_utf8(roll).expect("digits are text");
    let nuclei: Vec<_> = asked.list[from..to].iter().map(text).collect();
    let [a, b] = [text(&asked.pair[0]), text(&asked.pair[1])];
    let each = asked.boys.len() / asked.list.len();
    let boys = &asked.boys[each * from..each * to];
    self::asked(&roll, [&a, &b], &nuclei, asked.aux, boys)
}

fn told(answer: &str) -> Option<f64> {
    let digits = answer.strip_prefix("value ")?;
    let bits = u64::from_str_radix(digits, 16).expect("hexadecimal digits");
    Some(f64::from_bits(bits))
}

/// A list of one is 0.0 plus the single value; any list is its beginning plus the last product.
#[test]
fn lists_beside_single_centres() {
    let (mut single, mut longer, mut zeros) = (0, 0, 0);
    for words in questions("nuclei", 6_000, 3) {
        let line = words.join(" ");
        let asked = match parse::line(line.as_bytes()) {
            Line::Asks(Question::Nuclei(asked)) => asked,
            _ => panic!("a question about nuclei"),
        };
        let sum = match told(&ask(&line)) {
            Some(sum) => sum,
            None => continue,
        };
        let last = asked.list.len() - 1;
        // The same with one centre: no count, and a fourth centre that nobody looks at.
        let one = part(&asked, last, last + 1);
        let mut eval: Vec<&str> = one.split(' ').collect();
        eval[0] = "eval";
        eval.remove(12);
        eval.insert(17, "0 0 0 0 0");
        let product = told(&ask(&eval.join(" "))).expect("one centre of a list that is told");
        zeros += u32::from(bits(product) == bits(-0.0));
        let beginning = match last {
            0 => 0.0,
            _ => told(&ask(&part(&asked, 0, last))).expect("a beginning that is told"),
        };
        assert_eq!(bits(sum), bits(beginning + product), "{}", line);
        single += u32::from(last == 0);
        longer += u32::from(last > 0);
    }
    let counts = (single, longer, zeros);
    assert!(single > 300 && longer > 1_000 && zeros > 50, "{:?}", counts);
}

/// The unchanged get_nuclear, the sum loops that are fed from outside and the second reading add up
/// to the same bits.
#[test]
fn the_rust_and_the_second_reading() {
    let mut random = Random::new(4);
    let mut finite = 0;
    for _ in 0..3_000 {
        let roll = rolls::fresh_of(&mut random, 2);
        let (header, terms) = NOW.check(&roll).expect("a fresh roll reads");
        let taste = floats::taste(&mut random);
        let mut centre = || floats::centre(&mut random, taste);
        let pair = [centre(), centre()];
        let list: Vec<_> = (0..4).map(|_| centre()).collect();
        let each = usize::from(header.l) + 1;
        let boys = floats::boys(&mut random, taste, 4 * each);
        let mut asked = Nuclei {
            roll,
            pair,
            count: 4,
            list,
            aux: 0.0,
            boys,
        };
        asked.aux = rust_side::aux(2, &asked.centres(&asked.list[0]));
        let (mut unchanged, mut fed) = (0.0, 0.0);
        for (at, nucleus) in asked.list.iter().enumerate() {
            let centres = asked.centres(nucleus);
            let boys = &asked.boys[at * each..(at + 1) * each];
            let charge = f64::from(nucleus.charge);
            unchanged += charge * rust_side::value(&header, &centres, boys);
            fed += charge * rust_side::value_of_terms(&header, &terms, &centres, asked.aux, boys);
        }
        let second = second::sum_of_nuclei(header.l, &terms, &asked);
        assert!(same(&[unchanged, fed], &[second, second]), "{:?}", asked);
        finite += u32::from(second.is_finite());
    }
    assert!(finite > 1_500, "{}", finite);
}
