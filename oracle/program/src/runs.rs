//! Runs of well-formed lines: every component, every request of a kind, its total and its scales,
//! every roll of the small cabinet and those beside it, and Coulomb requests within the cap and around it.

use crate::lines::{numbers, with_roll};
use crate::random::Random;
use crate::{requests, rust_side, small_rolls};
use std::io::{self, Write};

/// Every component of four shells of order `m`.
pub fn every_component(m: u8, out: &mut dyn Write) -> io::Result<()> {
    let triples = rust_side::shell_list(m).len() / 3;
    for number in 0..triples.pow(4) {
        writeln!(out, "component {} {} {} {} {}", m, m, m, m, number)?;
    }
    out.flush()
}

/// Every request of a kind that is within the limits: from number `part` on every `of`th.
pub fn every_request(kind: u8, part: usize, of: usize, out: &mut dyn Write) -> io::Result<()> {
    for orders in requests::every(kind).iter().skip(part).step_by(of) {
        ask("expand", kind, orders, out)?;
    }
    out.flush()
}

/// Every request of a kind with at most this order sum on a centre, asked for its total.
pub fn every_total(kind: u8, most: u8, out: &mut dyn Write) -> io::Result<()> {
    for orders in requests::every_within(kind, most) {
        ask("total", kind, &orders, out)?;
    }
    out.flush()
}

/// The Rust's roll of each of these, whose scales are to be added.
pub fn every_scales(kind: u8, most: u8, out: &mut dyn Write) -> io::Result<()> {
    for orders in requests::every_within(kind, most) {
        out.write_all(&with_roll("scales", &rust_side::roll(kind, &orders)))?;
        out.write_all(b"\n")?;
    }
    out.flush()
}

/// The expansion of each request of the small cabinet's profile and every roll that is one byte from
/// it: from number `part` on every `of`th.
pub fn every_small(part: u64, of: u64, out: &mut dyn Write) -> io::Result<()> {
    let (mut number, mut result) = (0, Ok(()));
    for (kind, orders) in small_rolls::every_request() {
        small_rolls::beside(&rust_side::roll(kind, &orders), &mut |roll| {
            if result.is_ok() && number % of == part {
                let mut line = with_roll("small", roll);
                line.push(b'\n');
                result = out.write_all(&line);
            }
            number += 1;
        });
    }
    result?;
    out.flush()
}

/// Coulomb requests within the cap, to be expanded.
pub fn within_the_cap(count: u64, seed: u64, out: &mut dyn Write) -> io::Result<()> {
    let mut random = Random::new(seed);
    for _ in 0..count {
        ask("expand", 4, &requests::within_the_cap(&mut random), out)?;
    }
    out.flush()
}

/// Coulomb requests around the cap, to be measured.
pub fn around_the_cap(count: u64, seed: u64, out: &mut dyn Write) -> io::Result<()> {
    let mut random = Random::new(seed);
    for _ in 0..count {
        ask("measure", 4, &requests::around_the_cap(&mut random), out)?;
    }
    out.flush()
}

fn ask(word: &str, kind: u8, orders: &[u8; 12], out: &mut dyn Write) -> io::Result<()> {
    out.write_all(&numbers(word, kind.into(), orders))?;
    out.write_all(b"\n")
}
