//! The judge's program; README.md says how it is used.

use oracle::form2_runs::{self, Asked};
use oracle::second::NOW;
use oracle::{answer, diff, last_bits, questions, runs, second};
use std::env;
use std::io::{self, BufWriter, Write};
use std::process::exit;

const USAGE: &str = "usage: oracle answer < QUESTIONS
       oracle questions KIND-OF-QUESTION COUNT SEED
       oracle questions expand-all KIND [PART OF]
       oracle questions expand2-all|form2-all|form1-all KIND [PART OF]
       oracle questions total-all KIND [MOST]
       oracle questions scales-all KIND [MOST]
       oracle questions component-all
       oracle questions small-all [PART OF]
       oracle count KIND
       oracle last-bits CASES SEED
       oracle diff KIND-OF-QUESTION QUESTIONS ANSWERS-OURS ANSWERS-RUST COUNT";

fn main() {
    let words: Vec<String> = env::args().skip(1).collect();
    let words: Vec<&str> = words.iter().map(String::as_str).collect();
    match run(&words) {
        Ok(Some(true)) => {}
        Ok(Some(false)) => exit(1),
        Ok(None) => {
            eprintln!("{}", USAGE);
            exit(2);
        }
        // Whoever reads the answers may stop before their end.
        Err(error) if error.kind() == io::ErrorKind::BrokenPipe => exit(1),
        Err(error) => {
            eprintln!("oracle: {}", error);
            exit(2);
        }
    }
}

/// True or false for what was asked; None where the words make no sense.
fn run(words: &[&str]) -> io::Result<Option<bool>> {
    let mut out = BufWriter::with_capacity(1 << 16, io::stdout());
    match words {
        ["answer"] => {
            answer::answer_all(io::stdin(), &mut out)?;
            Ok(Some(true))
        }
        ["questions", rest @ ..] => questions(rest, &mut out),
        ["count", kind] => match kind.parse() {
            Ok(kind) if kind <= 4 => {
                count(kind, &mut out)?;
                Ok(Some(true))
            }
            _ => Ok(None),
        },
        ["last-bits", cases, seed] => match (cases.parse(), seed.parse()) {
            (Ok(cases), Ok(seed)) => {
                last_bits(cases, seed, &mut out)?;
                Ok(Some(true))
            }
            _ => Ok(None),
        },
        ["diff", kind, asked, ours, rust, count] => match count.parse() {
            Ok(count) => diff::compare(kind, asked, ours, rust, count, &mut out).map(Some),
            Err(_) => Ok(None),
        },
        _ => Ok(None),
    }
}

/// The order sum up to which every request is asked for its total, unless another is named.
const USUAL_MOST: u8 = 4;

fn questions(words: &[&str], out: &mut dyn Write) -> io::Result<Option<bool>> {
    let (word, numbers) = match words.split_first() {
        Some(words) => words,
        None => return Ok(None),
    };
    let numbers: Result<Vec<u64>, _> = numbers.iter().map(|word| word.parse()).collect();
    match (*word, numbers.as_deref()) {
        ("component-all", Ok([])) => runs::every_component(NOW.order_sum, out)?,
        ("small-all", Ok([])) => runs::every_small(0, 1, out)?,
        ("small-all", Ok([part, of])) if part < of => runs::every_small(*part, *of, out)?,
        ("expand-all", Ok([kind @ 0..=3])) => runs::every_request(*kind as u8, 0, 1, out)?,
        ("expand-all", Ok([kind @ 0..=3, part, of])) if part < of => {
            runs::every_request(*kind as u8, *part as usize, *of as usize, out)?
        }
        ("total-all", Ok([kind @ 0..=3])) => runs::every_total(*kind as u8, USUAL_MOST, out)?,
        ("total-all", Ok([kind @ 0..=3, most])) if *most <= NOW.order_sum.into() => {
            runs::every_total(*kind as u8, *most as u8, out)?
        }
        ("scales-all", Ok([kind @ 0..=3])) => runs::every_scales(*kind as u8, USUAL_MOST, out)?,
        ("scales-all", Ok([kind @ 0..=3, most])) if *most <= NOW.order_sum.into() => {
            runs::every_scales(*kind as u8, *most as u8, out)?
        }
        ("expand-within", Ok([count, seed])) => runs::within_the_cap(*count, *seed, out)?,
        ("measure-around", Ok([count, seed])) => runs::around_the_cap(*count, *seed, out)?,
        (word, Ok(numbers)) if form2_run(word, numbers, out)? => {}
        (kind, Ok([count, seed])) => {
            let known = questions::write_all(kind, *count, *seed, out)?;
            return Ok(Some(true).filter(|_| known));
        }
        _ => return Ok(None),
    }
    Ok(Some(true))
}

/// A run of form 2; false where the words name none.
fn form2_run(word: &str, numbers: &[u64], out: &mut dyn Write) -> io::Result<bool> {
    let named = word.rsplit_once('-');
    let named = named.and_then(|(asked, run)| Some((Asked::named(asked)?, run)));
    match (named, numbers) {
        (Some((asked, "all")), [kind @ 0..=3]) => {
            form2_runs::every_request(asked, *kind as u8, 0, 1, out)?
        }
        (Some((asked, "all")), [kind @ 0..=3, part, of]) if part < of => {
            form2_runs::every_request(asked, *kind as u8, *part as usize, *of as usize, out)?
        }
        (Some((asked, "within")), [count, seed]) => {
            form2_runs::within_the_cap(asked, *count, *seed, out)?
        }
        _ => return Ok(false),
    }
    Ok(true)
}

/// By n, in how many symmetric cases JK_direct and JK_inmem differ.
fn last_bits(cases: u64, seed: u64, out: &mut dyn Write) -> io::Result<()> {
    for n in 1..=6 {
        let differ = last_bits::count(n, cases, seed);
        writeln!(
            out,
            "n {}: of {} cases J differs in {}, K in {}",
            n, cases, differ.j, differ.k
        )?;
    }
    out.flush()
}

/// What a census of all requests of a kind shows.
fn count(kind: u8, out: &mut dyn Write) -> io::Result<()> {
    let facts = second::facts(kind);
    for (l, (all, over)) in facts.by_l.iter().enumerate() {
        writeln!(out, "L {}: {} requests, {} over the cap", l, all, over)?;
    }
    let sum = |of: fn(&(u64, u64)) -> u64| facts.by_l.iter().map(of).sum::<u64>();
    writeln!(
        out,
        "all: {} requests, {} over the cap",
        sum(|l| l.0),
        sum(|l| l.1)
    )?;
    let found = [
        ("most terms", Some(facts.most_terms)),
        ("most terms within the cap", Some(facts.most_terms_within)),
        ("fewest terms over the cap", facts.fewest_terms_over),
        (
            "largest scale within the cap",
            Some(facts.largest_scale_within),
        ),
        (
            "longest roll within the cap",
            Some(facts.longest_roll_within),
        ),
    ];
    for (title, found) in found {
        if let Some((number, orders)) = found {
            writeln!(out, "{}: {}, {:?}", title, number, orders)?;
        }
    }
    out.flush()
}
