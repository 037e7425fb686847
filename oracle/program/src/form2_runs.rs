//! Runs of well-formed lines of form 2: every request of a kind, and Coulomb requests within the
//! cap, each expanded, or its expansion moved from one form to the other.

use crate::lines::{numbers, with_roll};
use crate::parse::LONGEST_LINE;
use crate::random::Random;
use crate::requests;
use crate::second::{self, Form};
use std::io::{self, Write};

/// What is asked of a request.
#[derive(Clone, Copy)]
pub enum Asked {
    Expand2,
    /// The move of its roll to a form.
    Move(Form),
}

impl Asked {
    pub fn named(word: &str) -> Option<Asked> {
        match word {
            "expand2" => Some(Asked::Expand2),
            "form1" => Some(Asked::Move(Form::One)),
            "form2" => Some(Asked::Move(Form::Two)),
            _ => None,
        }
    }

    /// The question; None where its line is too long. The rolls are of the second reading's terms,
    /// which the tests hold against the Rust's.
    fn line(self, kind: u8, orders: &[u8; 12]) -> Option<Vec<u8>> {
        let (word, to) = match self {
            Asked::Expand2 => return Some(numbers("expand2", kind.into(), orders)),
            Asked::Move(Form::One) => ("form1", Form::One),
            Asked::Move(Form::Two) => ("form2", Form::Two),
        };
        let line = with_roll(word, &second::fresh_roll(to.other(), kind, orders));
        Some(line).filter(|line| line.len() <= LONGEST_LINE)
    }
}

/// Every request of a kind that is within the limits: from number `part` on every `of`th. Where a
/// roll is too long for a line, a remark stands in its place.
pub fn every_request(
    asked: Asked,
    kind: u8,
    part: usize,
    of: usize,
    out: &mut dyn Write,
) -> io::Result<()> {
    for orders in requests::every(kind).iter().skip(part).step_by(of) {
        let line = asked.line(kind, orders);
        let too_long = || numbers("# too long for a line: kind", kind.into(), orders);
        write_line(&line.unwrap_or_else(too_long), out)?;
    }
    out.flush()
}

/// Coulomb requests within the cap, of those whose roll fits a line where it is moved.
pub fn within_the_cap(asked: Asked, count: u64, seed: u64, out: &mut dyn Write) -> io::Result<()> {
    let mut random = Random::new(seed);
    let mut written = 0;
    while written < count {
        let orders = requests::within_the_cap(&mut random);
        if let Some(line) = asked.line(4, &orders) {
            write_line(&line, out)?;
            written += 1;
        }
    }
    out.flush()
}

fn write_line(line: &[u8], out: &mut dyn Write) -> io::Result<()> {
    out.write_all(line)?;
    out.write_all(b"\n")
}
