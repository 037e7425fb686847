//! Lines at the edges of the question language: malformed ones and the longest.

use crate::lines::with_roll;
use crate::parse::{self, LONGEST_LINE, MOST_LISTED, MOST_PRIMITIVES};
use crate::random::Random;
use crate::second::{BYTES_OF_AN_ENTRY, NOW};
use crate::{rolls, rust_side};

/// Spoils a line, or puts another one in its place.
pub fn malformed(random: &mut Random, mut line: Vec<u8>) -> Vec<u8> {
    let blanks: Vec<usize> = (0..line.len()).filter(|&at| line[at] == b' ').collect();
    let blank = match blanks.len() {
        0 => 0,
        _ => random.one_of(&blanks),
    };
    let last = blanks.last().copied().unwrap_or(0);
    match random.below(22) {
        0 => line.insert(blank, b' '),
        1 => line[blank] = b'\t',
        2 => line.push(b' '),
        3 => line.insert(0, b' '),
        4 => line.push(b'\r'),
        5 => line.insert(blank + 1, b'0'),
        6 => line.truncate(last),
        7 => line.extend_from_slice(b" 0"),
        8 => line.make_ascii_uppercase(),
        9 => line[blank + 1..].make_ascii_uppercase(),
        10 => line.insert(blank + 1, b'+'),
        11 => line.insert(blank + 1, b'-'),
        12 => {
            // A number or a float in the last place is changed for one out of range.
            let wrong = [
                "256",
                "4294967296",
                "18446744073709551615",
                "18446744073709551616",
                "340282366920938463463374607431768211456",
                "00",
                "0x1",
                "1.0",
                "00000000000000000",
                "nan",
            ];
            line.truncate(last);
            line.push(b' ');
            line.extend_from_slice(random.one_of(&wrong).as_bytes());
        }
        13 => {
            let end = blanks.iter().find(|&&at| at > blank).copied();
            let word = blank + 1..end.unwrap_or(line.len()).max(blank + 1);
            let wrong: &[&[u8]] = &[b"256", b"16777217", b"4294967296", b"-1", b"", b"-"];
            if word.end <= line.len() {
                let by = random.one_of(wrong).to_vec();
                line.splice(word, by);
            }
        }
        14 => line = Vec::new(),
        15 => line = b"# a comment  with\tany bytes \xff\xfe\x00".to_vec(),
        16 => line = random_line(random),
        17 => {
            let at = random.index(line.len());
            line[at] = random.bits() as u8;
        }
        18 => {
            let at = random.index(line.len());
            line.remove(at);
        }
        19 => line.insert(0, b'#'),
        20 => line.truncate(random.index(line.len() + 1)),
        _ => {
            let words: [&[u8]; 6] = [b"shell", b"expand 0", b"-", b"?", b"refused 7 at 0", b"\r"];
            line = random.one_of(&words).to_vec();
        }
    }
    // A line feed would make two lines of one.
    line.retain(|&byte| byte != b'\n');
    line
}

/// Spoils a charge of a question of this kind, or one of its counts.
pub fn wrong_charge(random: &mut Random, kind: &str, line: Vec<u8>) -> Vec<u8> {
    let mut words: Vec<Vec<u8>> = line.split(|&b| b == b' ').map(<[u8]>::to_vec).collect();
    let (charges, counts) = charges_and_counts(kind, &words);
    let places = if counts.is_empty() || !charges.is_empty() && !random.once_in(3) {
        charges
    } else {
        counts
    };
    let place = random.one_of(&places);
    let wrong = [
        "256",
        "4294967296",
        "18446744073709551617",
        "3ff0000000000000",
        "4000000000000000",
        "7ff0000000000000",
        "1.0",
        "-1",
        "+1",
        "a",
        "",
    ];
    match random.below(16) {
        0 | 1 => {
            words.remove(place);
        }
        2 => words.insert(place, b"1".to_vec()),
        3..=5 => words[place].insert(0, b'0'),
        _ => words[place] = random.one_of(&wrong).into(),
    }
    words.join(&b' ')
}

/// The places among the words of a question of its charges, each the fifth word of a centre, and of
/// its counts.
fn charges_and_counts(kind: &str, words: &[Vec<u8>]) -> (Vec<usize>, Vec<usize>) {
    // What a list takes has so many words each.
    let charges =
        |before: usize, each: usize, count: usize| (0..count).map(move |at| before + each * at + 4);
    let listed = |place: usize, most: u8| -> usize {
        let count = words.get(place).map(|word| String::from_utf8_lossy(word));
        let count = count.and_then(|word| word.parse().ok());
        count
            .filter(|&count| count <= usize::from(most))
            .unwrap_or(0)
    };
    let (places, counts): (Vec<usize>, Vec<usize>) = match kind {
        "nuclei" => {
            let all = charges(2, 5, 2).chain(charges(13, 5, listed(12, MOST_LISTED)));
            (all.collect(), vec![12])
        }
        "contracted" => {
            let (left, of_left) = (2, listed(2, MOST_PRIMITIVES));
            let right = left + 1 + 7 * of_left;
            let of_right = listed(right, MOST_PRIMITIVES);
            let host = right + 1 + 7 * of_right;
            let all = charges(left + 1, 7, of_left).chain(charges(right + 1, 7, of_right));
            (all.collect(), vec![left, right, host])
        }
        "grouped" => (charges(3, 5, 4).collect(), Vec::new()),
        _ => (charges(2, 5, 4).collect(), Vec::new()),
    };
    // A count may say more than there is.
    let there = |places: Vec<usize>| places.into_iter().filter(|&p| p < words.len()).collect();
    (there(places), there(counts))
}

fn random_line(random: &mut Random) -> Vec<u8> {
    (0..random.below(60)).map(|_| random.bits() as u8).collect()
}

/// A question of exactly this length, or a comment where none has it.
pub fn longest(kind: &str, length: usize) -> Vec<u8> {
    let mut line = match kind {
        "list" | "open" | "check" | "scales" | "open2" | "check2" | "form1" | "form2"
        | "salvage" | "small" | "confirm" | "export" | "import" => {
            format!("{} ", kind).into_bytes()
        }
        "compare" => b"compare - ".to_vec(),
        "next" => b"next 0 0 0 0 ".to_vec(),
        "next2" => b"next2 0 0 0 0 / ".to_vec(),
        _ => b"#".to_vec(),
    };
    // A roll has an even number of digits.
    if (length - line.len()) % 2 == 1 {
        line = b"#".to_vec();
    }
    line.resize(length, b'0');
    line
}

/// A centre of 1.0 and the charge 1.
const CENTRE: &[u8] = b" 3ff0000000000000 3ff0000000000000 3ff0000000000000 3ff0000000000000 1";

/// Four such centres, and an aux of 1.0.
fn ones() -> Vec<u8> {
    [&CENTRE.repeat(4)[..], b" 3ff0000000000000"].concat()
}

/// An evaluation of overlap s,s, by the words before its roll, with this many Boys numbers, where
/// none belong.
pub fn with_boys(words: &str, count: usize) -> Vec<u8> {
    let mut line = with_roll(words, &rust_side::roll(0, &[0; 12]));
    line.extend(ones());
    line.extend(b" 0".repeat(count));
    line
}

/// A question about two nuclei with this many Boys numbers, where two belong.
pub fn nuclei_with_boys(count: usize) -> Vec<u8> {
    let mut line = with_roll("nuclei", &rust_side::roll(2, &[0; 12]));
    line.extend(CENTRE.repeat(2));
    line.extend(b" 2");
    line.extend(CENTRE.repeat(2));
    line.extend(b" 3ff0000000000000");
    line.extend(b" 0".repeat(count));
    line
}

/// A question about functions of one primitive with this many host numbers, where one belongs.
pub fn contracted_with_host(count: u64) -> Vec<u8> {
    let mut line = with_roll("contracted", &rust_side::roll(0, &[0; 12]));
    for _ in 0..2 {
        line.extend(b" 1");
        line.extend(CENTRE);
        line.extend(b" 3ff0000000000000 3ff0000000000000");
    }
    line.extend(format!(" {}", count).into_bytes());
    line.extend(b" 0".repeat(count as usize));
    line
}

/// A Coulomb roll of as many terms as fit into a line, with just the buffer for its groups.
pub fn most_grouped() -> Vec<u8> {
    let mut floats = ones();
    for order in 0..=NOW.l(4) {
        floats.push(b' ');
        parse::write_float(&mut floats, 1.0 / (2.0 * f64::from(order) + 1.0));
    }
    let words = |buffer: usize| format!("grouped {:08}", buffer);
    let room = LONGEST_LINE - words(0).len() - 1 - floats.len();
    let roll = rolls::of_most_terms(room / 2);
    let count = NOW.open(&roll).expect("it reads").count;
    let mut line = with_roll(&words(BYTES_OF_AN_ENTRY * count as usize), &roll);
    line.extend(floats);
    line
}
