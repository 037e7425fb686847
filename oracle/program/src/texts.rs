//! Texts to be imported (Q-14): those of fresh rolls and of rolls that no expansion gives, with numbers, lines
//! and characters changed, lost and added; and the longest text that a roll of one line gives.

use crate::parse::LONGEST_LINE;
use crate::random::Random;
use crate::second::{self, Form, Term, NOW};
use crate::{form2_rolls, requests, rolls, rust_side};

/// The words between commas of each line.
type Lines = Vec<Vec<Vec<u8>>>;

fn text_of(roll: &[u8]) -> Vec<u8> {
    second::exported(roll).expect("it reads").into_bytes()
}

fn lines(text: &[u8]) -> Lines {
    let text = text.strip_suffix(b"\n").unwrap_or(text);
    let words = |line: &[u8]| line.split(|&b| b == b',').map(<[u8]>::to_vec).collect();
    text.split(|&b| b == b'\n').map(words).collect()
}

fn joined(lines: &Lines) -> Vec<u8> {
    let mut text = Vec::new();
    for line in lines {
        text.extend(line.join(&b','));
        text.push(b'\n');
    }
    text
}

/// The text of a roll of the Rust's own terms, or of other terms.
fn good(random: &mut Random) -> Vec<u8> {
    let kind = random.below(5) as u8;
    match random.below(400) {
        0 => text_of(&rolls::fresh_of(random, kind)),
        1..=180 => text_of(&rust_side::roll(kind, &requests::small(random, kind))),
        181..=290 => text_of(&form2_rolls::legal(random, Form::One)),
        _ => text_of(&rolls::legal(random)),
    }
}

/// A line of the text, the first as often as any other.
fn some_line<'a>(random: &mut Random, text: &'a mut Lines) -> &'a mut Vec<Vec<u8>> {
    let at = match random.below(3) {
        0 => 0,
        _ => random.index(text.len()),
    };
    &mut text[at]
}

fn some_word<'a>(random: &mut Random, text: &'a mut Lines) -> &'a mut Vec<u8> {
    let line = some_line(random, text);
    let at = random.index(line.len());
    &mut line[at]
}

fn decimal(number: u64) -> Vec<u8> {
    number.to_string().into_bytes()
}

/// A number of the text, as far as it is one.
fn value(word: &[u8]) -> u64 {
    let text = String::from_utf8_lossy(word);
    text.parse().map_or(0, |number: u64| number.min(1 << 40))
}

/// A number changed by little, to a limit or beyond, or to a string of many digits.
fn change_number(random: &mut Random, text: &mut Lines) {
    let word = some_word(random, text);
    let old = value(word);
    *word = match random.below(8) {
        0 | 1 => decimal(old + 1),
        2 => decimal(old.saturating_sub(1)),
        3 => decimal(random.below(27)),
        4 => {
            let (scale, terms) = (NOW.scale.into(), NOW.terms.into());
            decimal(random.one_of(&[scale, scale + 1, terms, terms + 1, 65_535, 65_536, 255, 256]))
        }
        5 => decimal(random.one_of(&[1 << 32, (1 << 32) + 1, (1 << 32) - 1, u64::MAX, 1 << 63])),
        6 => {
            // 2^64 and a little more: what is left of it would be within a limit.
            let low = random.below(8);
            format!(
                "{}",
                (1_u128 << random.one_of(&[64, 96, 127])) + u128::from(low)
            )
            .into_bytes()
        }
        _ => {
            let digits = random.one_of(&[10, 11, 19, 20, 21, 40, 300]);
            let digit = random.one_of(b"1239");
            let mut word = vec![b'0'; digits];
            word[0] = digit;
            word
        }
    };
}

/// A number that is not of the shape: leading zeros, signs, points, blanks, quotes, letters, nothing.
fn change_shape(random: &mut Random, text: &mut Lines) {
    let word = some_word(random, text);
    let before = [
        &b"0"[..],
        b"00",
        b"+",
        b"-",
        b" ",
        b"\"",
        b"\t",
        b"'",
        b"0x",
        b"\xef\xbb\xbf",
    ];
    let behind = [
        &b" "[..],
        b".",
        b".0",
        b"\r",
        b"\"",
        b";",
        b"e0",
        b"\0",
        b"\x0b",
        b"u",
        b"\xb2",
    ];
    match random.below(8) {
        0..=2 => *word = [random.one_of(&before), &word[..]].concat(),
        3..=5 => *word = [&word[..], random.one_of(&behind)].concat(),
        6 => word.clear(),
        _ => {
            *word = random
                .one_of(&[&b"-0"[..], b"00", b"x", b"1 2", b"1.5", b"NaN", b"1e3"])
                .to_vec()
        }
    }
}

/// A word more or less, anywhere or at a line's end.
fn change_words(random: &mut Random, text: &mut Lines) {
    let line = some_line(random, text);
    let at = random.index(line.len());
    match random.below(6) {
        0 => line.insert(at, b"0".to_vec()),
        1 => line.push(decimal(random.below(24))),
        2 | 3 if line.len() > 1 => {
            line.remove(at);
        }
        4 => line.truncate(random.from_to(1, 3) as usize),
        _ => {
            let more = random.one_of(&[3, 6, 24, 25, 26, 30]);
            line.resize(line.len() + more, b"1".to_vec());
        }
    }
}

/// The count one off, or another.
fn change_count(random: &mut Random, text: &mut Lines) {
    let there = text.len() as u64 - 1;
    if let Some(count) = text[0].last_mut() {
        *count = decimal(match random.below(8) {
            0..=2 => there + 1,
            3..=5 => there.saturating_sub(1),
            6 => random.one_of(&[0, 1, 2, NOW.terms.into(), u64::from(NOW.terms) + 1]),
            _ => random.below(2 * there + 2),
        });
    }
}

/// Another kind, or another number of orders: those of a kind or not.
fn change_kind(random: &mut Random, text: &mut Lines) {
    let first = &mut text[0];
    match random.below(3) {
        0 => first[0] = decimal(random.below(7)),
        1 => first[0] = decimal(random.one_of(&[5, 16, 20, 255, 256])),
        _ => {
            let count = first.pop().unwrap_or_default();
            first.resize(random.one_of(&[7, 10, 13, 6, 8, 1, 14]), b"0".to_vec());
            first.push(count);
        }
    }
}

/// Lines doubled, lost, exchanged, emptied or added.
fn change_lines(random: &mut Random, text: &mut Lines) {
    let at = random.index(text.len());
    match random.below(9) {
        0 => text.insert(at, text[at].clone()),
        1 => {
            text.remove(at);
        }
        2 => {
            text.pop();
        }
        3 => {
            let other = random.index(text.len());
            text.swap(at, other)
        }
        4 => text.insert(at, vec![Vec::new()]),
        5 => text.push(vec![Vec::new()]),
        6 => text.push(text[at].clone()),
        7 => text.push(vec![decimal(random.below(3)), b"0".to_vec()]),
        _ => text.push(vec![b"1".to_vec()]),
    }
    if text.is_empty() {
        text.push(vec![b"0".to_vec()]);
    }
}

/// An order, or a number of a term's line or their count, at its limit or one beyond; nothing where the first
/// line has not as many words as its kind.
fn at_a_limit(random: &mut Random, text: &mut Lines) {
    let beyond = random.below(2);
    let (kind, used) = match value(&text[0][0]) {
        kind @ 0..=4 => (kind as u8, second::orders_used(kind as u8)),
        _ => return,
    };
    if text[0].len() != used + 2 || text.len() < 2 {
        return;
    }
    let l: u64 = text[0][1..=used].iter().map(|word| value(word)).sum();
    let order = 1 + random.index(used);
    let first_of_centre = order - (order - 1) % 3;
    let centre = first_of_centre..first_of_centre + 3;
    let others: u64 = centre
        .filter(|&at| at != order)
        .map(|at| value(&text[0][at]))
        .sum();
    let at = 1 + random.index(text.len() - 1);
    let most = (l + u64::from(kind == 1)).min(30);
    let size = second::table_size(kind) as u64;
    match random.below(5) {
        0 => text[0][order] = decimal((u64::from(NOW.order_sum) + beyond).saturating_sub(others)),
        1 => text[at][0] = decimal(random.one_of(&[u64::from(NOW.scale) + beyond, 1 - beyond])),
        2 if text[at].len() > 1 => {
            let most = if kind == 2 || kind == 4 { l } else { 0 };
            text[at][1] = decimal(most + beyond);
        }
        3 => text[at].resize((2 + most + beyond) as usize, b"0".to_vec()),
        _ => {
            if let Some(last) = text[at].iter_mut().skip(2).last() {
                *last = decimal(size - 1 + beyond);
            }
        }
    }
}

const FAULTS: [fn(&mut Random, &mut Lines); 9] = [
    change_number,
    change_number,
    change_shape,
    change_words,
    change_count,
    change_kind,
    change_lines,
    at_a_limit,
    at_a_limit,
];

/// What is put into a text, or in the place of one of its characters: what it has, and what comes close.
const CHARACTERS: &[u8] = b"0123456789,\n\r +-.\";:/\te'\0\x80\xff";

/// A character inserted, lost or exchanged; the text cut, without its last line feed or with one more;
/// line ends of two characters.
fn change_characters(random: &mut Random, text: &mut Vec<u8>) {
    let at = random.index(text.len().max(1));
    let is_there = at < text.len();
    match random.below(12) {
        0 | 1 => text.insert(at, random.one_of(CHARACTERS)),
        2 | 3 if is_there => text[at] = random.one_of(CHARACTERS),
        4 | 5 if is_there => {
            text.remove(at);
        }
        6 => text.truncate(at),
        7 => {
            text.pop();
        }
        8 => text.push(random.one_of(CHARACTERS)),
        9 => {
            *text = with_ends(
                text,
                random.one_of(&[&b"\r\n"[..], b"\n\r", b"\r", b"|", b" \n", b",\n"]),
            )
        }
        10 if at + 1 < text.len() => text.swap(at, at + 1),
        _ => text.extend_from_slice(random.one_of(&[&b"\n"[..], b"1,0\n", b"1\n", b"1,0", b" \n"])),
    }
}

/// Other line ends.
fn with_ends(text: &[u8], end: &[u8]) -> Vec<u8> {
    let mut out = Vec::new();
    for &byte in text {
        if byte == b'\n' {
            out.extend_from_slice(end);
        } else {
            out.push(byte);
        }
    }
    out
}

/// No text that was exported: nothing, a line feed, any digits and commas, a roll, a listing.
fn no_text(random: &mut Random) -> Vec<u8> {
    match random.below(6) {
        0 => Vec::new(),
        1 => vec![b'\n'; random.from_to(1, 3) as usize],
        2 | 3 => {
            let alphabet = random.one_of(&[&b"0123456789,\n"[..], b"01,,\n", b"0,", CHARACTERS]);
            let length = random.below(40);
            (0..length).map(|_| random.one_of(alphabet)).collect()
        }
        4 => rolls::legal(random),
        _ => {
            let kind = random.below(5) as u8;
            let roll = rust_side::roll(kind, &requests::small(random, kind));
            second::listing(&roll).expect("it reads").into_bytes()
        }
    }
}

/// Any text to be imported, right or wrong.
pub fn any(random: &mut Random) -> Vec<u8> {
    if random.once_in(20) {
        return no_text(random);
    }
    let text = good(random);
    let mut words = lines(&text);
    random.put_faults(&FAULTS, &mut words);
    let mut text = joined(&words);
    let changes = random.one_of(&[0, 0, 0, 0, 0, 1, 1, 2]);
    for _ in 0..changes {
        change_characters(random, &mut text);
    }
    text
}

/// Of a small roll of each kind the text with each character exchanged for each, each inserted at each
/// place, and each lost; cut at each place; each line doubled and lost and each two exchanged, with the
/// count that was, one less and one more.
pub fn tried_one_by_one() -> Vec<Vec<u8>> {
    let mut texts = vec![Vec::new()];
    for (kind, orders) in &rolls::SMALL {
        let text = text_of(&rust_side::roll(*kind, orders));
        characters_tried(&text, &mut texts);
        lines_tried(&lines(&text), &mut texts);
    }
    texts
}

fn characters_tried(text: &[u8], texts: &mut Vec<Vec<u8>>) {
    texts.extend((1..=text.len()).map(|cut| text[..cut].to_vec()));
    for at in 0..=text.len() {
        for &byte in CHARACTERS {
            texts.push([&text[..at], &[byte], &text[at..]].concat());
            if at < text.len() {
                texts.push([&text[..at], &[byte], &text[at + 1..]].concat());
            }
        }
        if at < text.len() {
            texts.push([&text[..at], &text[at + 1..]].concat());
        }
    }
}

fn lines_tried(lines: &Lines, texts: &mut Vec<Vec<u8>>) {
    let mut changed = vec![lines.clone()];
    for at in 0..lines.len() {
        changed.push([&lines[..=at], &lines[at..]].concat());
        changed.push([&lines[..at], &lines[at + 1..]].concat());
        for other in 0..at {
            let mut exchanged = lines.clone();
            exchanged.swap(at, other);
            changed.push(exchanged);
        }
    }
    let count = lines.len() as u64 - 1;
    for mut lines in changed {
        for count in [count - 1, count, count + 1] {
            if let Some(last) = lines[0].last_mut() {
                *last = decimal(count);
            }
            texts.push(joined(&lines));
        }
    }
}

/// The bytes of a roll or a text that fit into a line after `export` or `import`.
const BYTES_OF_A_LINE: usize = (LONGEST_LINE - "export ".len()) / 2;

/// A roll of one line whose text is about as long as can be: terms with as many prefactors of two digits as
/// there may be.
pub fn of_the_longest_text() -> Vec<u8> {
    let term = Term {
        scale: 127,
        boys: NOW.l(4),
        prefactors: vec![22; NOW.l(4).into()],
    };
    let orders = [6, 0, 0, 6, 0, 0, 6, 0, 0, 6, 0, 0];
    let of = |count: usize| second::write_roll(4, &orders, &vec![term.clone(); count]);
    let each = of(2).len() - of(1).len();
    // The count of so many takes three bytes, that of one term a byte.
    let header = of(1).len() - each + 2;
    of((BYTES_OF_A_LINE - header) / each)
}

/// A text of one line with as many terms as fit, the last line as given.
pub fn of_most_lines(last: &str) -> Vec<u8> {
    let of = |count: usize| format!("0,0,0,0,0,0,0,{}\n", count);
    let count = (BYTES_OF_A_LINE - of(999_999).len() - last.len()) / 4 + 1;
    let mut text = of(count).into_bytes();
    text.extend(b"1,0\n".repeat(count - 1));
    text.extend_from_slice(last.as_bytes());
    text
}

/// The length of the roll that is imported; some number where there is none.
pub fn length_imported(text: &[u8]) -> u64 {
    second::imported(text).map_or(100, |(_, roll)| roll.len() as u64)
}

/// The length of the text that is exported; some number where there is none.
pub fn length_exported(roll: &[u8]) -> u64 {
    second::exported(roll).map_or(100, |text| text.len() as u64)
}
