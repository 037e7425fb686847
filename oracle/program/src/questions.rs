//! Random questions of one kind: ordinary, extreme and wrong ones.

use crate::compare_rolls::{self, Pair};
use crate::cursors::{self, Walk};
use crate::floats::{self, Taste};
use crate::lines::{append, append_centres, append_float, append_floats, append_room};
use crate::lines::{append_room_up_to, grouping_buffer, numbers, with_roll, with_rolls};
use crate::parse::{LARGEST_EXPORT, LONGEST_LINE, MOST_BOYS, MOST_HOST};
use crate::random::Random;
use crate::second::{self, Form, NOW};
use crate::{confirm_rolls, contracted, form2_rolls, matrices, nuclei, odd_lines, requests};
use crate::{rolls, roots, runs, rust_side, salvage_rolls, small_rolls, texts};
use std::io::{self, Write};

/// The kinds of question, as `oracle/ask-both` names them.
pub const KINDS: [&str; 31] = [
    "shell",
    "component",
    "expand",
    "measure",
    "total",
    "list",
    "open",
    "check",
    "scales",
    "next",
    "expand2",
    "open2",
    "check2",
    "next2",
    "form2",
    "form1",
    "salvage",
    "compare",
    "small",
    "small-expand",
    "confirm",
    "export",
    "import",
    "eval",
    "grouped",
    "nuclei",
    "contracted",
    "root",
    "table",
    "jk",
    "jkl",
];

/// From this count on every roll that is tried one by one comes up; below it at most half of the
/// questions are about these.
const ALL_TRIED: u64 = 50_000;

/// The bytes of the longest roll that fits into a line after `scales`.
const ROLL_OF_A_LINE: usize = (LONGEST_LINE - "scales ".len()) / 2;

/// Writes `count` questions of a kind; false where there is no such kind. `component` has all
/// 50,625 components of four shells of order 4 on top.
pub fn write_all(kind: &str, count: u64, seed: u64, out: &mut dyn Write) -> io::Result<bool> {
    if !KINDS.contains(&kind) && fixed_kind(kind).is_none() {
        return Ok(false);
    }
    if kind == "component" {
        runs::every_component(4, out)?;
    }
    let one_by_one = match kind {
        "list" | "open" | "check" | "scales" | "next" | "eval" | "grouped" | "form2" | "export" => {
            rolls::tried_one_by_one()
        }
        "open2" | "check2" | "next2" | "form1" => form2_rolls::tried_one_by_one(),
        "salvage" | "confirm" => salvage_rolls::tried_one_by_one(),
        "small" => small_rolls::tried_one_by_one(),
        "import" => texts::tried_one_by_one(),
        _ => Vec::new(),
    };
    let pairs = match kind {
        "compare" => compare_rolls::tried_one_by_one(),
        _ => Vec::new(),
    };
    let most_tried = if count < ALL_TRIED { count / 2 } else { count };
    let mut random = Random::new(seed);
    for at in 0..count {
        let tried = one_by_one.get(at as usize).filter(|_| at < most_tried);
        let pair = pairs.get(at as usize).filter(|_| at < most_tried);
        let mut line = match (tried, pair) {
            (Some(roll), _) => about_roll(&mut random, kind, roll, Walk::ToTheStop),
            (_, Some((left, right))) => with_rolls(kind, left, right),
            _ => match at_a_limit(kind, count - at) {
                Some(line) => line,
                None => question(&mut random, kind, at),
            },
        };
        // The last line has no line feed, which makes no difference; an empty one needs it.
        if at + 1 < count || line.is_empty() {
            line.push(b'\n');
        }
        out.write_all(&line)?;
    }
    out.flush()?;
    Ok(true)
}

/// `expand` or `expand2` with one kind of integral only.
fn fixed_kind(kind: &str) -> Option<u8> {
    let (word, kind) = kind.rsplit_once("-kind-")?;
    let kind = kind.parse().ok()?;
    let is_known = (word == "expand" || word == "expand2") && kind <= 4;
    Some(kind).filter(|_| is_known)
}

/// The last lines but one of a run stand at a limit of the language and one beyond it.
fn at_a_limit(kind: &str, from_end: u64) -> Option<Vec<u8>> {
    let compared = |(left, right): Pair| with_rolls(kind, &left, &right);
    match from_end {
        6 if kind == "grouped" => Some(odd_lines::most_grouped()),
        5 => Some(odd_lines::longest(kind, LONGEST_LINE)),
        4 => Some(odd_lines::longest(kind, LONGEST_LINE + 1)),
        3 if kind == "eval" => Some(odd_lines::with_boys("eval", MOST_BOYS)),
        3 if kind == "grouped" => Some(odd_lines::with_boys("grouped 0", MOST_BOYS)),
        3 if kind == "scales" => Some(with_roll(kind, &rolls::of_largest_scales(ROLL_OF_A_LINE))),
        3 if kind == "salvage" => Some(with_roll(
            kind,
            &salvage_rolls::of_the_most_terms(Form::One),
        )),
        2 if kind == "salvage" => Some(with_roll(
            kind,
            &salvage_rolls::of_the_most_terms(Form::Two),
        )),
        3 if kind == "confirm" => Some(with_roll(
            kind,
            &salvage_rolls::of_the_most_terms(Form::One),
        )),
        3 if kind == "compare" => Some(compared(compare_rolls::of_long_lines())),
        2 if kind == "compare" => Some(compared(compare_rolls::of_one_side())),
        3 if kind == "export" => Some(with_roll(kind, &texts::of_the_longest_text())),
        3 if kind == "import" => Some(with_roll(kind, &texts::of_most_lines("1,0\n"))),
        2 if kind == "import" => Some(with_roll(kind, &texts::of_most_lines("1,0"))),
        3 if kind == "nuclei" => Some(odd_lines::nuclei_with_boys(MOST_BOYS)),
        2 if kind == "nuclei" => Some(odd_lines::nuclei_with_boys(MOST_BOYS + 1)),
        3 if kind == "contracted" => Some(odd_lines::contracted_with_host(MOST_HOST)),
        2 if kind == "contracted" => Some(odd_lines::contracted_with_host(MOST_HOST + 1)),
        2 if kind == "eval" => Some(odd_lines::with_boys("eval", MOST_BOYS + 1)),
        2 if kind == "grouped" => Some(odd_lines::with_boys("grouped 0", MOST_BOYS + 1)),
        _ => None,
    }
}

/// A question of the kind; one in fifty is malformed, and as many of those with centres have a wrong
/// charge.
fn question(random: &mut Random, kind: &str, at: u64) -> Vec<u8> {
    let line = match kind {
        "shell" => shell(random, at),
        "component" => component(random),
        "measure" => measure(random),
        "total" => total(random),
        "list" | "open" | "check" | "scales" | "next" => {
            let roll = rolls::any(random);
            about_roll(random, kind, &roll, Walk::Anywhere)
        }
        "open2" | "check2" | "next2" | "form1" => {
            let roll = form2_rolls::any(random);
            about_roll(random, kind, &roll, Walk::Anywhere)
        }
        "form2" => {
            let roll = form2_rolls::any_of_form_1(random);
            about_roll(random, kind, &roll, Walk::Anywhere)
        }
        "salvage" => {
            let roll = salvage_rolls::any(random);
            about_roll(random, kind, &roll, Walk::Anywhere)
        }
        "small" => with_roll(kind, &small_rolls::any(random)),
        "small-expand" => small_rolls::expand(random, at),
        "confirm" => with_roll(kind, &confirm_rolls::any(random)),
        "export" => {
            let roll = form2_rolls::any_of_form_1(random);
            export(random, &roll)
        }
        "import" => {
            let text = texts::any(random);
            import(random, &text)
        }
        "compare" => {
            let (left, right) = compare_rolls::any(random);
            with_rolls(kind, &left, &right)
        }
        "eval" => eval(random),
        "grouped" => grouped(random),
        "nuclei" => nuclei::any(random),
        "contracted" => contracted::any(random),
        "root" => roots::any(random),
        "table" => table(random),
        "jk" => jk(random, at),
        "jkl" => jkl(random, at),
        _ if kind.starts_with("expand2") => expand(random, Form::Two, fixed_kind(kind)),
        _ => expand(random, Form::One, fixed_kind(kind)),
    };
    if random.once_in(50) {
        odd_lines::malformed(random, line)
    } else if has_charges(kind) && random.once_in(50) {
        odd_lines::wrong_charge(random, kind, line)
    } else {
        line
    }
}

/// Are there centres in a question of the kind?
fn has_charges(kind: &str) -> bool {
    ["eval", "grouped", "nuclei", "contracted", "table"].contains(&kind)
}

fn about_roll(random: &mut Random, kind: &str, roll: &[u8], walk: Walk) -> Vec<u8> {
    match kind {
        "next" => cursors::next(random, Form::One, roll, walk),
        "next2" => cursors::next(random, Form::Two, roll, walk),
        "form1" => moved(random, Form::One, roll),
        "form2" => moved(random, Form::Two, roll),
        "salvage" => salvage(random, roll),
        "export" => export(random, roll),
        "import" => import(random, roll),
        "eval" => evaluation(random, "eval", roll, Taste::Ordinary, true),
        "grouped" => grouped_of(random, roll, Taste::Ordinary, true),
        _ => with_roll(kind, roll),
    }
}

fn shell(random: &mut Random, at: u64) -> Vec<u8> {
    let m = match random.below(8) {
        _ if at < 256 => at,
        0 => random.below(258),
        _ => random.below(u64::from(NOW.order_sum) + 2),
    };
    let mut line = format!("shell {}", m).into_bytes();
    if at >= 256 && !random.once_in(10) {
        append_room(random, &mut line, 3 * (m + 1) * (m + 2) / 2);
    }
    line
}

fn component(random: &mut Random) -> Vec<u8> {
    let shells = random.one_of(&[2, 4]);
    let mut line = b"component".to_vec();
    let mut count = 1;
    for _ in 0..shells {
        let m = match random.below(40) {
            0 => random.below(258),
            1 => u64::from(NOW.order_sum) + 1,
            _ => random.below(u64::from(NOW.order_sum) + 1),
        };
        count *= (m + 1) * (m + 2) / 2;
        append(&mut line, m);
    }
    let number = match random.below(8) {
        0 => count,
        1 => count - 1,
        2 => count + 1,
        3 => random.one_of(&[0, u32::MAX.into(), 1 << 31, 1 << 16, 1 << 32]),
        4 => random.below(1 << 32),
        _ => random.below(count),
    };
    append(&mut line, number);
    line
}

/// A request with a buffer and a start around each boundary.
fn expand(random: &mut Random, form: Form, fixed_kind: Option<u8>) -> Vec<u8> {
    let (kind, orders) = request(random, fixed_kind);
    let word = match form {
        Form::One => "expand",
        Form::Two => "expand2",
    };
    let mut line = numbers(word, kind, &orders);
    if random.once_in(2) {
        let need = match form {
            Form::One => requests::length_expanded(kind as u8, &orders),
            Form::Two => form2_rolls::length_expanded(kind as u8, &orders),
        };
        append_room(random, &mut line, need);
    }
    line
}

/// A roll to be moved, with a buffer and a start around each boundary.
fn moved(random: &mut Random, to: Form, roll: &[u8]) -> Vec<u8> {
    let word = match to {
        Form::One => "form1",
        Form::Two => "form2",
    };
    let mut line = with_roll(word, roll);
    if random.once_in(2) {
        append_room(random, &mut line, form2_rolls::length_moved(to, roll));
    }
    line
}

/// A damaged roll, with a buffer and a start around each boundary for the fresh one.
fn salvage(random: &mut Random, roll: &[u8]) -> Vec<u8> {
    let mut line = with_roll("salvage", roll);
    if random.once_in(3) {
        append_room(random, &mut line, salvage_rolls::length_salvaged(roll));
    }
    line
}

/// A roll to be exported, with a buffer and a start around each boundary for its text.
fn export(random: &mut Random, roll: &[u8]) -> Vec<u8> {
    let mut line = with_roll("export", roll);
    if random.once_in(3) {
        let need = texts::length_exported(roll);
        append_room_up_to(random, &mut line, need, LARGEST_EXPORT);
    }
    line
}

/// A text to be imported, with a buffer and a start around each boundary for its roll.
fn import(random: &mut Random, text: &[u8]) -> Vec<u8> {
    let mut line = with_roll("import", text);
    if random.once_in(3) {
        append_room(random, &mut line, texts::length_imported(text));
    }
    line
}

fn measure(random: &mut Random) -> Vec<u8> {
    let (kind, orders) = request(random, None);
    numbers("measure", kind, &orders)
}

/// Mostly of a kind whose total is claimed.
fn total(random: &mut Random) -> Vec<u8> {
    let fixed_kind = match random.below(10) {
        0 => None,
        _ => Some(random.one_of(&[0, 2, 3])),
    };
    let (kind, orders) = request(random, fixed_kind);
    numbers("total", kind, &orders)
}

/// A request, mostly a small one, now and then a wrong one.
fn request(random: &mut Random, fixed_kind: Option<u8>) -> (u64, [u8; 12]) {
    let kind = match fixed_kind {
        Some(kind) => u64::from(kind),
        None => match random.below(30) {
            0 => random.below(257),
            1 => 5,
            _ => random.below(5),
        },
    };
    let legal_kind = kind.min(4) as u8;
    let mut orders = requests::of_any_size(random, legal_kind);
    let used = second::orders_used(legal_kind);
    match random.below(16) {
        0 => orders[random.index(used)] += random.from_to(1, 4) as u8,
        1 => orders[random.index(used)] = random.bits() as u8,
        2 => orders[random.index(12)] = random.one_of(&[1, 4, 5, 6, 7, 9, 127, 128, 255]),
        _ => {}
    }
    (kind, orders)
}

/// An evaluation: the Rust's own list and aux, or other terms or another aux, or a wrong one.
fn eval(random: &mut Random) -> Vec<u8> {
    let mut taste = floats::taste(random);
    let way = random.below(20);
    let roll = match way {
        0..=10 if random.once_in(1_000) => rolls::fresh_and_long(random),
        0..=10 => rolls::fresh(random),
        11..=17 => rolls::legal(random),
        _ => rolls::any(random),
    };
    if way <= 10 && random.once_in(2) {
        taste = Taste::Ordinary;
    }
    evaluation(random, "eval", &roll, taste, way <= 10)
}

/// An evaluation with a grouping buffer: mostly a Coulomb roll, of the Rust's own list or another;
/// now and then a nuclear one, whose charge is looked at, or any.
fn grouped(random: &mut Random) -> Vec<u8> {
    let mut taste = floats::taste(random);
    let way = random.below(20);
    let roll = match way {
        0..=6 if random.once_in(200) => rolls::fresh_and_long(random),
        0..=6 => rolls::fresh_of(random, 4),
        7 => rolls::fresh_of(random, 2),
        8..=11 => rolls::rearranged(random),
        12..=14 => rolls::legal_of(random, 4),
        15 => rolls::legal(random),
        16 => {
            let roll = rolls::fresh_of(random, 4);
            rolls::damaged(random, roll)
        }
        _ => rolls::any(random),
    };
    if way <= 11 && random.once_in(2) {
        taste = Taste::Ordinary;
    }
    grouped_of(random, &roll, taste, way <= 11)
}

/// One of a roll, with a buffer around each boundary.
fn grouped_of(random: &mut Random, roll: &[u8], taste: Taste, own: bool) -> Vec<u8> {
    let terms = match NOW.open(roll) {
        Ok(header) => header.count.into(),
        Err(_) => random.from_to(1, 6),
    };
    let words = format!("grouped {}", grouping_buffer(random, terms));
    evaluation(random, &words, roll, taste, own)
}

/// An evaluation of a roll, by the words before it, mostly with the Rust's own aux where that is
/// wanted. One in three of a Coulomb roll has exponents with a sum out of the ordinary.
fn evaluation(random: &mut Random, words: &str, roll: &[u8], taste: Taste, own: bool) -> Vec<u8> {
    let (kind, l) = match NOW.open(roll) {
        Ok(header) => (header.kind, header.l),
        Err(_) => (random.below(5) as u8, random.below(26) as u8),
    };
    let mut centres = floats::centres_for(random, taste, kind);
    let for_the_root = kind == 4 && random.once_in(3);
    if for_the_root {
        roots::exponents(random, &mut centres);
    }
    let aux = if for_the_root && !random.once_in(4) {
        roots::product(random, &centres)
    } else if own && !random.once_in(5) {
        rust_side::aux(kind, &centres)
    } else {
        floats::float(random, taste)
    };
    let right = match kind {
        2 | 4 => usize::from(l) + 1,
        _ => 0,
    };
    let count = match random.below(40) {
        0 => right + 1,
        1 => right.saturating_sub(1),
        2 => random.index(20),
        _ => right,
    };
    let mut line = with_roll(words, roll);
    append_centres(random, &mut line, &centres);
    append_float(random, &mut line, aux);
    let boys_taste = if random.once_in(2) {
        Taste::Ordinary
    } else {
        taste
    };
    for number in floats::boys(random, boys_taste, count) {
        append_float(random, &mut line, number);
    }
    line
}

fn table(random: &mut Random) -> Vec<u8> {
    let kind = match random.below(40) {
        0 => random.below(257),
        1 => 5,
        _ => random.below(5),
    };
    let taste = floats::taste(random);
    let mut line = format!("table {}", kind).into_bytes();
    let centres = floats::centres_for(random, taste, kind.min(4) as u8);
    append_centres(random, &mut line, &centres);
    line
}

/// Every size from 1 to 16 comes up; large ones less often, since a line of size 16 has a
/// million digits.
fn matrix_size(random: &mut Random, at: u64) -> u64 {
    match random.below(50) {
        _ if at < 16 => at + 1,
        0 => random.from_to(9, 16),
        1..=9 => random.from_to(5, 8),
        _ => random.from_to(1, 4),
    }
}

fn wrong_size(random: &mut Random) -> u64 {
    random.one_of(&[
        0,
        17,
        18,
        255,
        256,
        1 << 16,
        1 << 32,
        1 << 62,
        1 << 63,
        u64::MAX,
    ])
}

fn jk(random: &mut Random, at: u64) -> Vec<u8> {
    if random.once_in(25) && at >= 16 {
        return format!("jk {}", wrong_size(random)).into_bytes();
    }
    let n = matrix_size(random, at);
    let (i, d) = matrices::any(random, n as usize);
    let mut line = format!("jk {}", n).into_bytes();
    append_floats(random, &mut line, &i);
    append_floats(random, &mut line, &d);
    line
}

/// Right lengths, and each of the four wrong by little or by much.
fn jkl(random: &mut Random, at: u64) -> Vec<u8> {
    let n = if random.once_in(25) && at >= 16 {
        wrong_size(random)
    } else {
        matrix_size(random, at)
    };
    let size = if n <= 16 { n } else { random.below(4) };
    let matrix = size * size;
    let mut lengths = [matrix * matrix, matrix, matrix, matrix];
    if !random.once_in(3) {
        let which = random.index(4);
        let most = if which == 0 { 65_537 } else { 1_024 };
        lengths[which] = match random.below(6) {
            0 => 0,
            1 => lengths[which].saturating_sub(1),
            2 => lengths[which] + 1,
            3 => random.below(20),
            4 if which == 0 && !random.once_in(20) => size * matrix,
            4 => most,
            _ => lengths[which],
        };
    }
    let mut line = format!("jkl {}", n).into_bytes();
    for &length in &lengths {
        append(&mut line, length);
    }
    // Those of another length are cut or go on with 1.0.
    let (mut i, mut d) = matrices::any(random, size.max(1) as usize);
    i.resize(lengths[0] as usize, 1.0);
    d.resize(lengths[1] as usize, 1.0);
    append_floats(random, &mut line, &i);
    append_floats(random, &mut line, &d);
    line
}
