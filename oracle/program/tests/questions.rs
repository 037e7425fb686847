//! The random questions: as many lines as asked for, and every kind of answer among them.

use oracle::answer::answer_all;
use oracle::compare_rolls;
use oracle::diff::class;
use oracle::form2_rolls;
use oracle::form2_runs::{self, Asked};
use oracle::parse::LONGEST_LINE;
use oracle::parse::{self, write_roll, Contracted, Evaluation, Line, Nuclei, Primitive, Question};
use oracle::questions::{write_all, KINDS};
use oracle::requests;
use oracle::rolls::{to_be_cut, tried_one_by_one};
use oracle::runs;
use oracle::salvage_rolls;
use oracle::second::{self, Form, NOW};
use oracle::small_rolls;
use oracle::texts;
use std::collections::{BTreeMap, BTreeSet};
use std::io::{self, Write};

fn questions(kind: &str, count: u64, seed: u64) -> Vec<u8> {
    let mut lines = Vec::new();
    assert!(write_all(kind, count, seed, &mut lines).expect("memory takes all"));
    lines
}

fn answers(questions: &[u8]) -> Vec<u8> {
    let mut lines = Vec::new();
    answer_all(questions, &mut lines).expect("memory takes all");
    lines
}

fn lines(text: &[u8]) -> Vec<&[u8]> {
    let text = text.strip_suffix(b"\n").unwrap_or(text);
    text.split(|&byte| byte == b'\n').collect()
}

#[test]
fn every_kind_of_answer_comes_up() {
    for kind in KINDS {
        let expected: &[&str] = match kind {
            "shell" => &["shell", "refused  2", "refused  5", "refused  6"],
            "component" => &["component", "refused  2", "refused 13"],
            "expand" | "expand2" => &[
                "roll",
                "refused  1",
                "refused  2",
                "refused  3",
                "refused  4",
                "refused  5",
                "refused  6",
            ],
            "measure" => &[
                "measured",
                "refused  1",
                "refused  2",
                "refused  3",
                "refused  4",
            ],
            "total" => &[
                "total",
                "total none",
                "refused  1",
                "refused  2",
                "refused  3",
            ],
            "scales" => &["scales", "refused  7", "refused 14"],
            "list" => &["listing", "refused  6", "refused  7", "refused 14"],
            "open" | "check" | "open2" | "check2" => &["opened", "refused  7", "refused 14"],
            "next" | "next2" => &["term", "end", "refused  7", "refused 14"],
            "form1" | "form2" => &[
                "roll",
                "refused  5",
                "refused  6",
                "refused  7",
                "refused 14",
            ],
            "salvage" => &[
                "salvaged same none",
                "salvaged same bytes",
                "salvaged same unknown",
                "salvaged other none",
                "salvaged other bytes",
                "salvaged other unknown",
                "refused  4",
                "refused  5",
                "refused  6",
                "refused  7",
                "refused 14",
            ],
            "compare" => &[
                "compared equal",
                "compared header",
                "compared terms",
                "refused  7 left",
                "refused  7 right",
                "refused 14 left",
                "refused 14 right",
            ],
            "small" => &[
                "opened",
                "refused  7",
                "refused 14",
                "refused 19",
                "refused 20",
            ],
            "small-expand" => &[
                "roll",
                "refused  1",
                "refused  2",
                "refused  3",
                "refused  5",
                "refused  6",
                "refused 19",
            ],
            "confirm" => &[
                "confirmed",
                "refused  4",
                "refused  7",
                "refused 14",
                "refused 20",
            ],
            "export" => &[
                "text",
                "refused  5",
                "refused  6",
                "refused  7",
                "refused 14",
            ],
            "import" => &[
                "roll",
                "refused  5",
                "refused  6",
                "refused 21",
                "refused 22",
            ],
            "eval" => &[
                "value",
                "refused  7",
                "refused  8",
                "refused  9",
                "refused 10",
                "refused 11",
                "refused 14",
                "refused 17",
            ],
            "grouped" => &[
                "value",
                "refused  6",
                "refused  7",
                "refused  8",
                "refused  9",
                "refused 10",
                "refused 11",
                "refused 14",
                "refused 17",
            ],
            "nuclei" => &[
                "value",
                "refused  1",
                "refused  7",
                "refused  8",
                "refused  9",
                "refused 10",
                "refused 11",
                "refused 14",
                "refused 17",
            ],
            "contracted" => &[
                "value",
                "refused  1",
                "refused  7",
                "refused  8",
                "refused  9",
                "refused 11",
                "refused 14",
                "refused 15",
                "refused 16",
            ],
            "root" => &["root", "refused  8", "refused 18"],
            "table" => &[
                "table",
                "refused  1",
                "refused  8",
                "refused  9",
                "refused 11",
            ],
            _ => &["J", "refused  8", "refused 11", "refused 12"],
        };
        let asked = questions(kind, 3_000, 1);
        let answered = answers(&asked);
        let on_top = if kind == "component" { 50_625 } else { 0 };
        assert_eq!(lines(&asked).len(), 3_000 + on_top, "{}", kind);
        assert_eq!(lines(&answered).len(), 3_000 + on_top, "{}", kind);
        let found: BTreeSet<String> = lines(&answered).into_iter().map(class).collect();
        let both = ["?", "the same line"];
        let expected = expected.iter().chain(&both).map(|word| word.to_string());
        assert_eq!(found, expected.collect(), "{}", kind);
    }
}

/// What one float is.
fn sort(float: &f64) -> &'static str {
    match (float.is_nan(), float.is_infinite(), float.to_bits()) {
        (true, ..) => "no number",
        (_, true, _) => "infinite",
        (.., 0) => "0.0",
        (.., 0x8000_0000_0000_0000) => "-0.0",
        _ if float.is_subnormal() => "subnormal",
        _ => "normal",
    }
}

/// Is I, or D, the same with two of its indices exchanged?
fn symmetric(n: usize, entries: &[f64], places: [usize; 2]) -> bool {
    let rank = if entries.len() == n * n { 2 } else { 4 };
    let mirror = |number: usize| {
        let mut at: Vec<usize> = (0..rank).rev().map(|p| number / n.pow(p) % n).collect();
        at.swap(places[0], places[1]);
        at.iter().fold(0, |number, at| number * n + at)
    };
    let bits = |at: usize| entries[at].to_bits();
    (0..entries.len()).all(|at| bits(at) == bits(mirror(at)))
}

/// What there is to find in a question: its size, its symmetries and its sorts of float.
fn sorts(n: usize, i: &[f64], d: &[f64]) -> BTreeSet<String> {
    let floats = i.iter().chain(d).map(sort).map(String::from);
    let mut found: BTreeSet<String> = floats.collect();
    found.insert(format!("size {}", n));
    if (2..17).contains(&n) && (i.len(), d.len()) == (n * n * n * n, n * n) {
        let [left, right] = [[0, 1], [2, 3]].map(|pair| symmetric(n, i, pair));
        found.insert(symmetries(symmetric(n, d, [0, 1]), left, right));
    }
    found
}

fn symmetries(d: bool, left: bool, right: bool) -> String {
    format!("symmetric: D {}, I {} {}", d, left, right)
}

/// I and D come with every symmetry and without, of every size, and of every sort of float; each
/// of these also where J and K are told.
#[test]
fn matrices_of_every_sort() {
    for kind in ["jk", "jkl"] {
        let asked = questions(kind, 5_000, 1);
        let answered = answers(&asked);
        let (mut all, mut told) = (BTreeSet::new(), BTreeSet::new());
        for (question, answer) in lines(&asked).into_iter().zip(lines(&answered)) {
            if let Line::Asks(Question::JK { n, i, d, .. }) = parse::line(question) {
                let found = sorts(n as usize, &i, &d);
                if answer.starts_with(b"J") {
                    told.extend(found.iter().cloned());
                }
                all.extend(found);
            }
        }
        let sizes = (1..17).map(|n| format!("size {}", n));
        let with = (0..8).map(|at| symmetries(at & 4 > 0, at & 2 > 0, at & 1 > 0));
        let finite = ["0.0", "-0.0", "subnormal", "normal"].map(String::from);
        for expected in sizes.chain(with).chain(finite) {
            assert!(told.contains(&expected), "{}: {}", kind, expected);
        }
        assert!(all.contains("infinite") && all.contains("no number"));
    }
}

/// What a root was asked of.
fn sort_of_root(x: f64) -> Vec<String> {
    let mut found = vec![sort(&x).to_string()];
    if x.is_subnormal() && x > 0.0 {
        found.push(format!("length {}", 64 - x.to_bits().leading_zeros()));
    }
    let root = x.sqrt();
    if root > 0.0 && root * root == x && root.to_bits() % (1 << 26) == 0 {
        found.push("square".to_string());
    }
    if x < 0.0 && x.is_finite() {
        found.push("below 0".to_string());
    }
    found
}

/// Subnormals of each length, squares, zeros, and floats of each refusal; every exponent.
#[test]
fn roots_of_every_sort() {
    let asked = questions("root", 50_000, 1);
    let (mut found, mut exponents) = (BTreeSet::new(), BTreeSet::new());
    for question in lines(&asked) {
        if let Line::Asks(Question::Root(x)) = parse::line(question) {
            found.extend(sort_of_root(x));
            exponents.insert(x.to_bits() >> 52);
        }
    }
    let lengths = (1..=52).map(|length| format!("length {}", length));
    let sorts = "0.0,-0.0,subnormal,normal,infinite,no number,square,below 0";
    for expected in lengths.chain(sorts.split(',').map(String::from)) {
        assert!(found.contains(&expected), "{}", expected);
    }
    assert!((0..=2_047).all(|exponent| exponents.contains(&exponent)));
}

/// What there is to find in a Coulomb evaluation that is answered by a value or by 11.
fn sorts_of_quotient(asked: &Evaluation, is_value: bool) -> Vec<&'static str> {
    let [a, b, c, d] = asked.centres.map(|centre| centre.z);
    let sum = ((a + b) + c) + d;
    let s = asked.aux / sum.sqrt();
    let others = [
        asked.aux / ((a + b) + (c + d)).sqrt(),
        asked.aux / (a + (b + (c + d))).sqrt(),
    ];
    let (_, table) = second::geometry_and_table(4, &asked.centres);
    let is_finite = table.iter().all(|x| x.is_finite());
    let sorts = [
        (is_value && others[0] != s, "not by pairs"),
        (is_value && others[1] != s, "not from the right"),
        (
            is_value && asked.aux * (1.0 / sum.sqrt()) != s,
            "no inverse",
        ),
        (is_value && s.is_subnormal(), "subnormal quotient"),
        (is_value && s == 0.0 && asked.aux != 0.0, "quotient of 0.0"),
        (is_value && sum > 1e305, "large sum"),
        (is_value && sum < 1e-100, "small sum"),
        (
            !is_value && s.is_infinite() && is_finite,
            "infinite quotient",
        ),
        (!is_value && sum.is_infinite(), "infinite sum"),
        (!is_value && sum.is_subnormal(), "subnormal sum"),
    ];
    let found = sorts.iter().filter(|(is_so, _)| *is_so);
    found.map(|(_, sort)| *sort).collect()
}

/// Sums that depend on the order, large and small ones, and quotients that are large and small.
#[test]
fn quotients_of_every_sort() {
    for kind in ["eval", "grouped"] {
        let asked = questions(kind, 20_000, 1);
        let answered = answers(&asked);
        let mut counts = BTreeMap::new();
        for (question, answer) in lines(&asked).into_iter().zip(lines(&answered)) {
            let evaluation = match parse::line(question) {
                Line::Asks(Question::Eval(evaluation)) => evaluation,
                Line::Asks(Question::Grouped { evaluation, .. }) => evaluation,
                _ => continue,
            };
            let is_value = answer.starts_with(b"value");
            if evaluation.roll.first() == Some(&4) && (is_value || answer == b"refused 11") {
                for sort in sorts_of_quotient(&evaluation, is_value) {
                    *counts.entry(sort).or_insert(0) += 1;
                }
            }
        }
        assert_eq!(counts.len(), 10, "{}: {:?}", kind, counts);
        assert!(counts.values().all(|&count| count >= 5), "{:?}", counts);
    }
}

/// What there is to find in a question about nuclei: its count, charges, exponents and Boys numbers.
fn sorts_of_nuclei(asked: &Nuclei) -> BTreeSet<String> {
    let mut found = BTreeSet::new();
    found.insert(format!("count {}", asked.count));
    for nucleus in &asked.list {
        found.insert(format!("charge {}", nucleus.charge));
        found.insert(format!("exponent {}", sort(&nucleus.z)));
        if (256..=374).contains(&nucleus.charge) {
            found.insert("charge that a byte takes for another".to_string());
        }
    }
    for function in &asked.pair {
        found.insert(format!("charge of a function {}", function.charge));
    }
    for number in &asked.boys {
        found.insert(format!("Boys number {}", sort(number)));
    }
    if let Ok(header) = NOW.open(&asked.roll) {
        let each = usize::from(header.l) + 1;
        let right = each * asked.list.len();
        let count = asked.boys.len();
        let named = [
            (right, "as many Boys numbers as asked for"),
            (right + 1, "one Boys number too many"),
            (right.wrapping_sub(1), "one Boys number too few"),
            (each, "the Boys numbers of one nucleus"),
            (0, "no Boys number"),
        ];
        let named = named.iter().filter(|(number, _)| *number == count);
        found.extend(named.map(|(_, name)| name.to_string()));
    }
    found
}

/// Every count, charge and number of Boys numbers at a limit and beyond it comes up; those that are
/// right, and what is not looked at, also where a value is told.
#[test]
fn nuclei_of_every_sort() {
    let asked = questions("nuclei", 5_000, 1);
    let answered = answers(&asked);
    let (mut all, mut told) = (BTreeSet::new(), BTreeSet::new());
    for (question, answer) in lines(&asked).into_iter().zip(lines(&answered)) {
        if let Line::Asks(Question::Nuclei(asked)) = parse::line(question) {
            let found = sorts_of_nuclei(&asked);
            if answer.starts_with(b"value") {
                told.extend(found.iter().cloned());
            }
            all.extend(found);
        }
    }
    let counts = [1, 2, 3, 31, 32].map(|count| format!("count {}", count));
    let charges = [0, 1, 2, 117, 118].map(|charge| format!("charge {}", charge));
    let not_looked_at = [0, 1, 118, 119, 255, 256, 300, u32::MAX];
    let not_looked_at = not_looked_at.map(|charge| format!("charge of a function {}", charge));
    let exponents = [
        "0.0",
        "-0.0",
        "subnormal",
        "normal",
        "infinite",
        "no number",
    ];
    let exponents = exponents.map(|sort| format!("exponent {}", sort));
    let finite = ["0.0", "-0.0", "subnormal", "normal"];
    let finite = finite.map(|sort| format!("Boys number {}", sort));
    let right = ["as many Boys numbers as asked for".to_string()];
    let expected = counts.iter().chain(&charges).chain(&not_looked_at);
    for expected in expected.chain(&exponents).chain(&finite).chain(&right) {
        assert!(told.contains(expected), "{}", expected);
    }
    let wrong = [
        "count 0",
        "count 33",
        "count 255",
        "charge 119",
        "charge 300",
        "charge 4294967295",
        "charge that a byte takes for another",
        "Boys number infinite",
        "Boys number no number",
        "one Boys number too many",
        "one Boys number too few",
        "the Boys numbers of one nucleus",
        "no Boys number",
    ];
    for expected in wrong {
        assert!(all.contains(expected), "{}", expected);
    }
}

/// What there is to find in a question about contracted functions: counts, charges, and what its floats
/// are.
fn sorts_of_contracted(asked: &Contracted) -> BTreeSet<String> {
    let mut found = BTreeSet::new();
    for (side, function) in [("left", &asked.left), ("right", &asked.right)] {
        found.insert(format!("{} {}", side, function.count));
        for primitive in &function.list {
            let Primitive {
                centre,
                norm,
                coefficient,
            } = primitive;
            found.insert(format!("charge {}", centre.charge));
            found.insert(format!("norm {}", sort(norm)));
            found.insert(format!("coefficient {}", sort(coefficient)));
            found.insert(format!("exponent {}", sort(&centre.z)));
        }
    }
    for number in &asked.host {
        found.insert(format!("host number {}", sort(number)));
    }
    let right = asked.left.list.len() * asked.right.list.len();
    let count = asked.host.len();
    let named = [
        (right, "as many host numbers as asked for"),
        (right + 1, "one host number too many"),
        (right.wrapping_sub(1), "one host number too few"),
        (asked.left.list.len(), "the host numbers of a left function"),
        (0, "no host number"),
        (128, "most host numbers"),
    ];
    let named = named.iter().filter(|(number, _)| *number == count);
    found.extend(named.map(|(_, name)| name.to_string()));
    if let Ok(header) = NOW.open(&asked.roll) {
        found.insert(format!("kind {}", header.kind));
    }
    found
}

/// Every count and length at a limit and beyond it, and every sort of float, comes up; those that are
/// right, and what is not looked at, also where a value is told.
#[test]
fn contracted_functions_of_every_sort() {
    let asked = questions("contracted", 5_000, 1);
    let answered = answers(&asked);
    let (mut all, mut told) = (BTreeSet::new(), BTreeSet::new());
    for (question, answer) in lines(&asked).into_iter().zip(lines(&answered)) {
        if let Line::Asks(Question::Contracted(asked)) = parse::line(question) {
            let found = sorts_of_contracted(&asked);
            if answer.starts_with(b"value") {
                told.extend(found.iter().cloned());
            }
            all.extend(found);
        }
    }
    let sides = ["left", "right"];
    let counts = |counts: &[u8]| -> Vec<String> {
        let of = |side| {
            counts
                .iter()
                .map(move |count| format!("{} {}", side, count))
        };
        sides.iter().flat_map(of).collect()
    };
    let charges = [0, 1, 118, 119, 256, 300, u32::MAX].map(|charge| format!("charge {}", charge));
    let floats = ["norm", "coefficient", "host number"];
    let of = |sorts: &[&str]| -> Vec<String> {
        let of = |name| sorts.iter().map(move |sort| format!("{} {}", name, sort));
        floats.iter().flat_map(of).collect()
    };
    let others = ["kind 0", "kind 1", "as many host numbers as asked for"].map(String::from);
    let right = counts(&[1, 2, 3, 4, 5, 6, 7, 8, 9, 10]);
    let finite = of(&["0.0", "-0.0", "subnormal", "normal"]);
    for expected in right.iter().chain(&charges).chain(&finite).chain(&others) {
        assert!(told.contains(expected), "{}", expected);
    }
    let wrong = [
        "exponent 0.0",
        "exponent -0.0",
        "kind 2",
        "kind 3",
        "kind 4",
        "one host number too many",
        "one host number too few",
        "the host numbers of a left function",
        "no host number",
        "most host numbers",
    ];
    let wrong = wrong.map(String::from);
    let (counts, floats) = (counts(&[0, 11, 255]), of(&["infinite", "no number"]));
    for expected in wrong.iter().chain(&counts).chain(&floats) {
        assert!(all.contains(expected), "{}", expected);
    }
}

/// checks/questions counts on this number.
#[test]
fn rolls_that_are_tried_one_by_one() {
    let tried = tried_one_by_one();
    let cut: usize = to_be_cut().iter().map(Vec::len).sum();
    assert_eq!((to_be_cut().len(), cut), (200, 6_927));
    assert_eq!(tried.len(), cut + 22_364);
    let asked = questions("check", 50_000, 1);
    let mut line = b"check ".to_vec();
    for (asked, roll) in lines(&asked).into_iter().zip(&tried) {
        line.truncate(6);
        write_roll(&mut line, roll);
        assert!(asked == line);
    }
}

/// checks/questions counts on this number.
#[test]
fn rolls_of_form_2_that_are_tried_one_by_one() {
    let tried = form2_rolls::tried_one_by_one();
    let cut: usize = form2_rolls::to_be_cut().iter().map(Vec::len).sum();
    assert_eq!((form2_rolls::to_be_cut().len(), cut), (100, 3_291));
    // The small rolls have 19, 19, 19, 22 and 25 bytes.
    let small = 19 + 19 + 19 + 22 + 25;
    assert_eq!(tried.len(), cut + 256 * small + small + 5);
    let asked = questions("check2", 50_000, 1);
    let mut line = b"check2 ".to_vec();
    for (asked, roll) in lines(&asked).into_iter().zip(&tried) {
        line.truncate(7);
        write_roll(&mut line, roll);
        assert!(asked == line);
    }
}

/// checks/questions counts on this number.
#[test]
fn damaged_rolls_that_are_tried_one_by_one() {
    let tried = salvage_rolls::tried_one_by_one();
    // Of the small rolls, which have 183 bytes in all, 78 of them orders: cut, left out, doubled, set.
    let bytes = (183 + 10) + 2 * 183 + 8 * 78 + 256 * (183 - 78);
    // By the number of terms: counts with terms, exchanged, doubled or left out.
    let terms = |n: usize| 3 * (n + 3) * (n + 1) + n * (n - 1) / 2 + 6 * n;
    let terms: usize = [2, 2, 2, 1, 2, 3, 6, 5].map(terms).iter().sum();
    assert_eq!(tried.len(), bytes + 2 * terms);
    assert_eq!(tried.len(), 29_621);
    // A question may name a buffer after the roll.
    let asked = questions("salvage", 50_000, 1);
    let mut line = b"salvage ".to_vec();
    for (asked, roll) in lines(&asked).into_iter().zip(&tried) {
        line.truncate(8);
        write_roll(&mut line, roll);
        assert!(asked == line || asked.starts_with(&[&line[..], b" "].concat()));
    }
}

/// checks/questions counts on this number. The same damaged rolls are to be confirmed, all of them.
#[test]
fn requests_of_the_profile_that_are_tried_one_by_one() {
    let tried = small_rolls::tried_one_by_one();
    assert_eq!(tried.len(), 2 * 272);
    let small = questions("small", 1_088, 1);
    let confirm = questions("confirm", 50_000, 1);
    let damaged = salvage_rolls::tried_one_by_one();
    for (word, asked, tried) in [("small ", &small, &tried), ("confirm ", &confirm, &damaged)] {
        let mut line = word.as_bytes().to_vec();
        for (asked, roll) in lines(asked).into_iter().zip(tried) {
            line.truncate(word.len());
            write_roll(&mut line, roll);
            assert!(asked == line);
        }
    }
    // Every request is expanded first.
    let expand = questions("small-expand", 272, 1);
    let different: BTreeSet<&[u8]> = lines(&expand).into_iter().collect();
    assert!(different.len() > 250);
}

/// checks/questions counts on this number.
#[test]
fn texts_that_are_tried_one_by_one() {
    let tried = texts::tried_one_by_one();
    // The small texts have 30, 30, 28, 28 and 40 characters and 3, 3, 3, 2 and 3 lines. Of n characters and 27
    // to try: cut, inserted, exchanged, lost; of n lines: as they are, doubled, lost, exchanged, with three counts.
    let characters = |n: usize| n + 27 * (n + 1) + 27 * n + n;
    let lines_of = |n: usize| 3 * (1 + 2 * n + n * (n - 1) / 2);
    let all: usize = [30, 30, 28, 28, 40].map(characters).iter().sum();
    let all_lines: usize = [3, 3, 3, 2, 3].map(lines_of).iter().sum();
    assert_eq!(tried.len(), 1 + all + all_lines);
    assert_eq!(tried.len(), 9_010);
    // A question may name a buffer after the text.
    let asked = questions("import", 18_020, 1);
    let mut line = b"import ".to_vec();
    for (asked, text) in lines(&asked).into_iter().zip(&tried) {
        line.truncate(7);
        write_roll(&mut line, text);
        assert!(asked == line || asked.starts_with(&[&line[..], b" "].concat()));
    }
}

/// checks/questions counts on this number.
#[test]
fn pairs_that_are_tried_one_by_one() {
    let tried = compare_rolls::tried_one_by_one();
    // The small rolls have 17, 19, 22 and 24 bytes.
    let bytes = 17 + 19 + 22 + 24;
    assert_eq!(tried.len(), 72 * 72 + 256 * bytes + bytes + 4);
    assert_eq!(tried.len(), 26_262);
    let asked = questions("compare", 50_000, 1);
    for (asked, (left, right)) in lines(&asked).into_iter().zip(&tried) {
        let mut line = b"compare ".to_vec();
        write_roll(&mut line, left);
        line.push(b' ');
        write_roll(&mut line, right);
        assert!(asked == line);
    }
}

#[test]
fn a_seed_gives_the_same_questions() {
    assert!(questions("eval", 200, 5) == questions("eval", 200, 5));
    assert!(questions("eval", 200, 5) != questions("eval", 200, 6));
}

/// The lines of a run.
fn run(write: impl FnOnce(&mut dyn Write) -> io::Result<()>) -> Vec<u8> {
    let mut text = Vec::new();
    write(&mut text).expect("memory takes all");
    text
}

#[test]
fn every_request_is_asked_once() {
    for (kind, count) in [(0, 7_056), (3, 592_704)] {
        let whole = run(|out| runs::every_request(kind, 0, 1, out));
        let different: BTreeSet<&[u8]> = lines(&whole).into_iter().collect();
        assert_eq!(different.len(), count);
        let parts: Vec<_> = (0..7)
            .map(|part| run(|out| runs::every_request(kind, part, 7, out)))
            .collect();
        let parts: BTreeSet<&[u8]> = parts.iter().flat_map(|part| lines(part)).collect();
        assert!(parts == different);
    }
}

#[test]
fn every_total_is_asked_once() {
    for (kind, most, count) in [(0, 4, 1_225), (3, 4, 42_875), (2, 6, 7_056)] {
        let whole = run(|out| runs::every_total(kind, most, out));
        let different: BTreeSet<&[u8]> = lines(&whole).into_iter().collect();
        assert_eq!((different.len(), lines(&whole).len()), (count, count));
    }
    // The scales of the same requests' rolls, in the same order.
    for kind in [0, 1, 2] {
        let totals = answers(&run(|out| runs::every_total(kind, 3, out)));
        let scales = answers(&run(|out| runs::every_scales(kind, 3, out)));
        assert_eq!((lines(&totals).len(), lines(&scales).len()), (400, 400));
        for (total, scales) in lines(&totals).into_iter().zip(lines(&scales)) {
            let number = scales.strip_prefix(b"scales ").expect("a roll reads");
            let told = total.strip_prefix(b"total ").expect("a total is told");
            assert!(told == number || kind == 1 && told == b"none");
        }
    }
}

#[test]
fn every_component_is_asked_once() {
    let text = run(|out| runs::every_component(6, out));
    let asked = lines(&text);
    assert_eq!(asked.len(), 614_656);
    assert_eq!(asked[614_655], b"component 6 6 6 6 614655");
}

#[test]
fn requests_within_the_cap_and_around_it() {
    let within = answers(&run(|out| runs::within_the_cap(40, 1, out)));
    let around = answers(&run(|out| runs::around_the_cap(100, 1, out)));
    let classes = |text: &[u8]| lines(text).into_iter().map(class).collect::<BTreeSet<_>>();
    assert_eq!(lines(&within).len(), 40);
    assert!(classes(&within).iter().eq(["roll"]));
    assert_eq!(lines(&around).len(), 100);
    assert!(classes(&around).iter().eq(["measured", "refused  4"]));
}

/// Of every request its roll, moved; a remark where it is too long for a line.
#[test]
fn every_expansion_is_moved_once() {
    for asked in [
        Asked::Expand2,
        Asked::Move(Form::One),
        Asked::Move(Form::Two),
    ] {
        let whole = run(|out| form2_runs::every_request(asked, 0, 0, 1, out));
        let different: BTreeSet<&[u8]> = lines(&whole).into_iter().collect();
        assert_eq!(different.len(), 7_056);
        assert!(answers(&whole)
            .split(|&b| b == b'\n')
            .all(|line| line.is_empty() || line.starts_with(b"roll ")));
    }
    // Nuclear Ax6 Bx6 has 4,665,226 bytes in form 1.
    let long = [6, 0, 0, 6, 0, 0, 0, 0, 0, 0, 0, 0];
    let at = requests::every(2).iter().position(|&orders| orders == long);
    let at = at.expect("it is a request");
    let remark = run(|out| form2_runs::every_request(Asked::Move(Form::Two), 2, at, 7_056, out));
    assert!(remark == b"# too long for a line: kind 2 6 0 0 6 0 0 0 0 0 0 0 0\n");
}

#[test]
fn coulomb_moved_within_the_cap() {
    for word in ["expand2", "form1", "form2"] {
        let asked = Asked::named(word).expect("a run of form 2");
        let text = run(|out| form2_runs::within_the_cap(asked, 40, 1, out));
        assert_eq!(lines(&text).len(), 40);
        assert!(lines(&text)
            .iter()
            .all(|line| line.len() <= LONGEST_LINE && line.starts_with(word.as_bytes())));
        let answered = answers(&text);
        assert!(lines(&answered)
            .iter()
            .all(|line| line.starts_with(b"roll ")));
    }
    assert!(Asked::named("expand").is_none());
}
