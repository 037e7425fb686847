//! Cursors for questions: those that the reading of a roll comes to, and forged ones.

use crate::lines::append;
use crate::parse::{self, Cursor, MOST_BEFORE};
use crate::random::Random;
use crate::second::{self, Form, Step, BEFORE, NOW};

/// Where the cursor of a question stands: where the reading stops, or anywhere, forged or not.
#[derive(Clone, Copy, PartialEq)]
pub enum Walk {
    ToTheStop,
    Anywhere,
}

/// The numbers of a cursor as a question says them.
struct Said {
    kind: u64,
    l: u64,
    left: u64,
    place: u64,
    /// The prefactors of the term before, in form 2.
    before: Vec<u64>,
}

/// `next` or `next2` of a roll.
pub fn next(random: &mut Random, form: Form, roll: &[u8], walk: Walk) -> Vec<u8> {
    let length = roll.len() as u64;
    let mut said = match NOW.open_in(form, roll) {
        Ok(header) => {
            let cursor = Cursor {
                kind: header.kind,
                l: header.l,
                left: header.count,
                place: header.place as u64,
            };
            walked(random, form, cursor, roll, walk)
        }
        Err(_) => anywhere(random, form, length),
    };
    if walk == Walk::Anywhere && random.once_in(2) {
        if form == Form::Two && random.once_in(2) {
            forge_before(random, &mut said);
        } else {
            forge(random, &mut said, length);
        }
    }
    line(form, &said, roll)
}

/// Some steps from a header's cursor on, or as many as there are.
fn walked(random: &mut Random, form: Form, mut cursor: Cursor, roll: &[u8], walk: Walk) -> Said {
    let count = cursor.left;
    let steps = match random.below(4) {
        _ if walk == Walk::ToTheStop => u64::from(count),
        0 => u64::from(count),
        1 => 0,
        _ => random.below(u64::from(count) + 1),
    };
    let mut before = Vec::new();
    for _ in 0..steps {
        match NOW.next_in(form, cursor, &before, roll) {
            Ok(Step::Term(term, after)) => {
                cursor = after;
                if form == Form::Two {
                    before = term.prefactors;
                }
            }
            _ => break,
        }
    }
    Said {
        kind: cursor.kind.into(),
        l: cursor.l.into(),
        left: cursor.left.into(),
        place: cursor.place,
        before: before.iter().map(|&p| p.into()).collect(),
    }
}

fn anywhere(random: &mut Random, form: Form, length: u64) -> Said {
    let mut said = Said {
        kind: random.below(5),
        l: random.below(26),
        left: random.below(4),
        place: random.below(length + 1),
        before: Vec::new(),
    };
    if form == Form::Two {
        let count = random.below(said.l.min(4) + 1);
        said.before = (0..count).map(|_| random.below(12)).collect();
    }
    said
}

fn forge(random: &mut Random, said: &mut Said, length: u64) {
    match random.below(5) {
        0 => said.kind = random.one_of(&[0, 1, 2, 3, 4, 5, 6, 128, 255]),
        1 => said.l = random.one_of(&[0, 1, 8, 11, 12, 13, 17, 18, 19, 23, 24, 25, 128, 255]),
        2 => {
            let (now, before) = (u64::from(NOW.terms), u64::from(BEFORE.terms));
            said.left = random.one_of(&[0, 1, before, before + 1, now, now + 1, (1 << 32) - 1])
        }
        3 => said.place = random.below(length + 3),
        _ => {
            said.place = random.one_of(&[
                length,
                length + 1,
                1 << 32,
                (1 << 32) + 1,
                1 << 63,
                u64::MAX,
                u64::MAX - 1,
            ])
        }
    }
}

/// Another term before: shorter, longer, at the limit or one beyond it, with a prefactor changed
/// or not below the table size; and once in a while more than a question may say.
fn forge_before(random: &mut Random, said: &mut Said) {
    let kind = said.kind.min(4) as u8;
    let size = second::table_size(kind) as u64;
    let most = if kind == 1 { said.l + 1 } else { said.l } as usize;
    match random.below(9) {
        0 => said.before.clear(),
        1 => {
            said.before.pop();
        }
        2 => said.before.push(random.below(size)),
        3 => said.before.resize(most, random.below(size)),
        4 => said.before.resize(most + 1, random.below(size)),
        5 => said
            .before
            .resize(MOST_BEFORE + random.index(2), random.below(size)),
        what => {
            let count = random.index(most + 1);
            if said.before.is_empty() {
                said.before.resize(count.max(1), 0);
            }
            let at = random.index(said.before.len());
            said.before[at] = match what {
                6 => random.below(size),
                7 => random.one_of(&[size, size - 1]),
                _ => random.one_of(&[size + 1, 22, 23, 24, 127, 128, 255, 256]),
            };
        }
    }
    // Also where no term is left, and where there is nothing to read.
    if random.once_in(4) {
        said.left = 0;
    }
}

fn line(form: Form, said: &Said, roll: &[u8]) -> Vec<u8> {
    let mut line = match form {
        Form::One => b"next".to_vec(),
        Form::Two => b"next2".to_vec(),
    };
    for number in [said.kind, said.l, said.left, said.place] {
        append(&mut line, number);
    }
    if form == Form::Two {
        for &prefactor in &said.before {
            append(&mut line, prefactor);
        }
        line.extend_from_slice(b" /");
    }
    line.push(b' ');
    parse::write_roll(&mut line, roll);
    line
}
