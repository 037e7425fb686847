//! terms laid out by Boys order, their sum in one pass, and the question `grouped`.

mod shared;

use oracle::answer::same;
use oracle::floats;
use oracle::odd_lines::most_grouped;
use oracle::parse::{self, Line, Question, LONGEST_LINE};
use oracle::questions::write_all;
use oracle::random::Random;
use oracle::second::{self, Entry, Header, Term, NOW};
use oracle::{rolls, rust_side};
use shared::ask;

/// A Coulomb roll that reads: an expansion, one in another order, or any terms; now and then a
/// long one.
fn coulomb(random: &mut Random, at: usize) -> (Header, Vec<Term>) {
    let roll = match at % 4 {
        _ if at % 1_000 == 999 => rolls::fresh_and_long(random),
        0 => rolls::fresh_of(random, 4),
        1 | 2 => rolls::rearranged(random),
        _ => rolls::legal_of(random, 4),
    };
    NOW.check(&roll).expect("such a roll reads")
}

fn numbers(entries: &[Entry]) -> Vec<usize> {
    entries.iter().map(|entry| entry.number).collect()
}

/// The list as it is, each term with its number.
fn listed(terms: &[Term]) -> Vec<Entry<'_>> {
    let numbered = (1..).zip(terms);
    numbered
        .map(|(number, term)| Entry { number, term })
        .collect()
}

#[test]
fn the_groups_of_a_small_roll() {
    // Coulomb Ax1 Cx1: [0,2] [0,5]o1 [4,2]o1 [4,5]o2 [22]o1.
    let terms = rust_side::terms(4, &[1, 0, 0, 0, 0, 0, 1, 0, 0, 0, 0, 0]);
    assert_eq!(numbers(&second::grouped(2, &terms)), [1, 2, 3, 5, 4]);
    // L is the orders' sum: groups may be empty, the first and the last too.
    let of_order = |boys: u8| Term {
        scale: 1,
        boys,
        ..Term::default()
    };
    let terms = [3, 1, 3, 1, 1].map(of_order);
    assert_eq!(numbers(&second::grouped(24, &terms)), [2, 4, 5, 1, 3]);
    assert_eq!(numbers(&second::grouped(3, &terms)), [2, 4, 5, 1, 3]);
}

/// No term is lost or repeated, each entry is the term of its number, orders ascend, numbers ascend
/// within an order, and by number the list comes back.
#[test]
fn grouping_is_a_rearrangement() {
    let mut random = Random::new(1);
    for at in 0..10_000 {
        let (header, terms) = coulomb(&mut random, at);
        let mut entries = second::grouped(header.l, &terms);
        for two in entries.windows(2) {
            let place = |entry: &Entry| (entry.term.boys, entry.number);
            assert!(place(&two[0]) < place(&two[1]));
        }
        entries.sort_by_key(|entry| entry.number);
        assert!(entries == listed(&terms));
    }
}

/// As document 01 says it: i from 0 to L, and for each i through the whole list.
fn outer_loop(l: u8, terms: &[Term], table: &[f64], s: f64, boys: &[f64]) -> f64 {
    let mut sum = 0.0;
    for i in 0..=l {
        for term in terms.iter().filter(|term| term.boys == i) {
            let prefactors = term.prefactors.iter().map(|&p| table[usize::from(p)]);
            let g = prefactors.fold(1.0, |g, entry| g * entry);
            sum += f64::from(term.scale) * (boys[usize::from(i)] * s) * g;
        }
    }
    sum
}

/// One pass over the groups has the bits of the outer loop over i, and of the Rust's own loops.
#[test]
fn one_pass_has_the_same_bits() {
    let mut random = Random::new(2);
    let (mut finite, mut in_list_order, mut backwards) = (0, 0, 0);
    for at in 0..20_000 {
        let (header, terms) = coulomb(&mut random, at);
        let taste = floats::taste(&mut random);
        let centres = floats::centres(&mut random, taste);
        let product = floats::float(&mut random, taste);
        let s = rust_side::s_of_product(product, &centres);
        let boys = floats::boys(&mut random, taste, usize::from(header.l) + 1);
        let (_, table) = second::geometry_and_table(4, &centres);
        let mut entries = second::grouped(header.l, &terms);
        let sum = |entries: &[Entry]| second::sum_of_groups(entries, &table, s, &boys);
        let value = sum(&entries);
        let outer = outer_loop(header.l, &terms, &table, s, &boys);
        let rust = rust_side::value_of_terms(&header, &terms, &centres, product, &boys);
        assert!(same(&[value, value], &[outer, rust]), "{:?}", header);
        if value.is_finite() {
            finite += 1;
            in_list_order += u32::from(sum(&listed(&terms)).to_bits() != value.to_bits());
            entries.sort_by_key(|entry| (entry.term.boys, terms.len() - entry.number));
            backwards += u32::from(sum(&entries).to_bits() != value.to_bits());
        }
    }
    // The list as it is and groups from their ends would often give other bits.
    let counts = (finite, in_list_order, backwards);
    assert!(
        finite > 12_000 && in_list_order > 2_000 && backwards > 2_000,
        "{:?}",
        counts
    );
}

/// What `eval` answers, but for 6 where a Coulomb roll reads and the buffer is under 40 bytes a term.
#[test]
fn grouped_beside_eval() {
    let mut asked = Vec::new();
    assert!(write_all("grouped", 5_000, 3, &mut asked).expect("memory takes all"));
    let (mut short, mut others) = (0, 0);
    for line in asked.split(|&byte| byte == b'\n') {
        if let Line::Asks(Question::Grouped { buffer, evaluation }) = parse::line(line) {
            let line = std::str::from_utf8(line).expect("a question is text");
            let roll = line.splitn(3, ' ').last().expect("a question has words");
            let is_short = match NOW.check(&evaluation.roll) {
                Ok((header, _)) => header.kind == 4 && buffer < 40 * header.count as usize,
                Err(_) => false,
            };
            let expected = match is_short {
                true => "refused 6".to_string(),
                false => ask(&format!("eval {}", roll)),
            };
            short += u32::from(is_short);
            others += u32::from(!is_short);
            assert_eq!(ask(line), expected);
        }
    }
    assert!(short > 500 && others > 3_000, "{} {}", short, others);
}

const ONE: &str = "3ff0000000000000";
const INFINITE: &str = "7ff0000000000000";
const MINUS_ZERO: &str = "8000000000000000";
const MOST: &str = "7fefffffffffffff";

/// `grouped` with this exponent on D, the others 1.0, all at the origin; aux and Boys numbers follow.
/// With 1.0 on D the root of a Coulomb roll is 2.0.
fn asked(buffer: usize, roll: &str, exponent: &str, rest: &str) -> String {
    let centre = format!("0 0 0 {} 1", ONE);
    let centres = format!("{} {} {} 0 0 0 {} 1", centre, centre, centre, exponent);
    ask(&format!("grouped {} {} {} {}", buffer, roll, centres, rest))
}

#[test]
fn refusals_of_grouped() {
    let s = "0400000000000000000000000001010000";
    let good = format!("{} {}", ONE, ONE);
    let wrong = format!("{} {}", ONE, INFINITE);
    let large = format!("{} {}", MOST, MOST);
    let value = "value 3fe0000000000000".to_string();
    let cases = [
        (40, s, ONE, good.as_str(), value.as_str()),
        (41, s, ONE, &good, &value),
        (67_108_864, s, ONE, &good, &value),
        (39, s, ONE, &good, "refused 6"),
        (0, s, ONE, &good, "refused 6"),
        // Reading comes before 6.
        (0, "-", ONE, &good, "refused 14 at 0"),
        (0, &s[..32], ONE, &good, "refused 14 at 16"),
        (0, "14", ONE, &good, "refused 7 at 0"),
        (0, &format!("{}00", s), ONE, &good, "refused 7 at 17"),
        // 6 comes before 8, 9, 10 and 11.
        (40, s, MINUS_ZERO, &wrong, "refused 8"),
        (39, s, MINUS_ZERO, &wrong, "refused 6"),
        (40, s, MINUS_ZERO, ONE, "refused 9"),
        (39, s, MINUS_ZERO, ONE, "refused 6"),
        (40, s, ONE, ONE, "refused 10"),
        (39, s, ONE, ONE, "refused 6"),
        (40, s, ONE, &large, "refused 11"),
        (39, s, ONE, &large, "refused 6"),
    ];
    for (buffer, roll, exponent, rest, expected) in cases {
        let answer = asked(buffer, roll, exponent, rest);
        assert_eq!(answer, expected, "{} {} {}", buffer, roll, rest);
    }
}

/// For kinds 0 to 3 the buffer is not looked at.
#[test]
fn other_kinds_need_no_buffer() {
    for kind in 0..4 {
        let roll = rust_side::roll(kind, &[0; 12]);
        let mut text = Vec::new();
        parse::write_roll(&mut text, &roll);
        let roll = String::from_utf8(text).expect("digits are text");
        let rest = [ONE, "3ff0000000000000 3ff0000000000000"][usize::from(kind == 2)];
        let answers = [0, 39, 40].map(|buffer| asked(buffer, &roll, ONE, rest));
        assert!(answers[0].starts_with("value "), "{}", answers[0]);
        assert!(answers.iter().all(|answer| *answer == answers[0]));
    }
}

#[test]
fn as_many_terms_as_a_line_holds() {
    let line = String::from_utf8(most_grouped()).expect("a question is text");
    assert!((LONGEST_LINE - 6..=LONGEST_LINE).contains(&line.len()));
    assert!(ask(&line).starts_with("value "));
    let (words, rest) = line.split_at(line.find(" 04").expect("a Coulomb roll"));
    let buffer: usize = words["grouped ".len()..].parse().expect("a number");
    assert_eq!(buffer % 40, 0);
    assert_eq!(ask(&format!("grouped {}{}", buffer - 1, rest)), "refused 6");
}

#[test]
fn lines_that_are_no_question() {
    let s = "0400000000000000000000000001010000";
    // Four centres of five words each, aux and a Boys number.
    let floats = " 0".repeat(22);
    assert_eq!(ask(&format!("grouped 40 {}{}", s, floats)), "refused 9");
    let lines = [
        format!("grouped 67108865 {}{}", s, floats),
        format!("grouped 18446744073709551616 {}{}", s, floats),
        format!("grouped 040 {}{}", s, floats),
        format!("grouped +40 {}{}", s, floats),
        format!("grouped  40 {}{}", s, floats),
        format!("grouped {}{}", s, floats),
        format!("grouped - {}{}", s, floats),
        format!("grouped 40{}", floats),
        format!("grouped 40 {}{}", s, &floats[..40]),
        format!("grouped 40 {}{} ", s, floats),
        format!("grouped 40 {}{} 00000000000000000", s, floats),
        "grouped".to_string(),
        "grouped 40".to_string(),
        format!("grouped 40 {}", s),
    ];
    for line in lines {
        assert_eq!(ask(&line), "?", "{}", line);
    }
}
