//! Holds two lists of answers against each other.

use crate::answer::{self, Way};
use crate::parse::{self, Line, Question};
use crate::second;
use std::collections::BTreeMap;
use std::fs::File;
use std::io::{self, BufRead, BufReader, Write};

/// What is shown of a long line.
const SHOWN: usize = 300;

struct Lines(BufReader<File>);

impl Lines {
    fn open(path: &str) -> io::Result<Lines> {
        Ok(Lines(BufReader::with_capacity(1 << 16, File::open(path)?)))
    }

    /// The next line without its line feed; false at the end.
    fn next(&mut self, line: &mut Vec<u8>) -> io::Result<bool> {
        line.clear();
        if self.0.read_until(b'\n', line)? == 0 {
            return Ok(false);
        }
        if line.last() == Some(&b'\n') {
            line.pop();
        }
        Ok(true)
    }
}

#[derive(Default)]
struct Tally {
    lines: u64,
    differences: u64,
    spoiled: u64,
    answers: BTreeMap<String, u64>,
    /// Evaluations by how the oracle comes to its answer.
    unchanged: u64,
    sum_loops: u64,
    refused: u64,
    /// Elements that are -0.0 in the Rust.
    minus_zero: u64,
}

/// Compares; true where there is no difference and the count is reached.
pub fn compare(
    kind: &str,
    questions: &str,
    ours: &str,
    rust: &str,
    count: u64,
    out: &mut dyn Write,
) -> io::Result<bool> {
    let mut questions = Lines::open(questions)?;
    let mut ours = Lines::open(ours)?;
    let mut rust = Lines::open(rust)?;
    let (mut question, mut our_line, mut rust_line) = (Vec::new(), Vec::new(), Vec::new());
    let mut tally = Tally::default();
    while questions.next(&mut question)? {
        tally.lines += 1;
        let both = (ours.next(&mut our_line)?, rust.next(&mut rust_line)?);
        if both.1 {
            note(&mut tally, kind, &question, &rust_line);
        }
        if our_line == b"spoiled" {
            tally.spoiled += 1;
        }
        if both != (true, true) || our_line != rust_line {
            tally.differences += 1;
            if tally.differences == 1 {
                writeln!(out, "first difference, line {}", tally.lines)?;
                writeln!(out, "  question {}", shown(&question))?;
                show("  ours     ", both.0, &our_line, out)?;
                show("  Rust     ", both.1, &rust_line, out)?;
                show_place(&our_line, &rust_line, out)?;
            }
        }
    }
    let extra = ours.next(&mut our_line)? || rust.next(&mut rust_line)?;
    if extra {
        writeln!(out, "there are more answers than questions")?;
    }
    report(kind, &tally, count, out)?;
    out.flush()?;
    Ok(tally.differences == 0 && tally.spoiled == 0 && !extra && tally.lines >= count)
}

fn note(tally: &mut Tally, kind: &str, question: &[u8], answer: &[u8]) {
    *tally.answers.entry(class(answer)).or_insert(0) += 1;
    if !is_evaluation(kind) {
        return;
    }
    if answer.starts_with(b"refused") {
        tally.refused += 1;
    } else if answer.starts_with(b"value") {
        let (way, element) = match element(question) {
            Some((way, element)) => (Some(way), element),
            None => (way(question), 0.0),
        };
        match way {
            Some(Way::Unchanged) => tally.unchanged += 1,
            _ => tally.sum_loops += 1,
        }
        tally.minus_zero += u64::from(element.to_bits() == (-0.0_f64).to_bits());
    }
}

/// The way of a contracted element, and what S or T says itself.
fn element(question: &[u8]) -> Option<(Way, f64)> {
    let asked = match parse::line(question) {
        Line::Asks(Question::Contracted(asked)) => asked,
        _ => return None,
    };
    let (header, terms) = second::NOW.check(&asked.roll).ok()?;
    Some(answer::rust_element(&header, &terms, &asked))
}

fn is_evaluation(kind: &str) -> bool {
    ["eval", "grouped", "nuclei", "contracted"].contains(&kind)
}

fn way(question: &[u8]) -> Option<Way> {
    let (roll, centres, aux) = match parse::line(question) {
        Line::Asks(Question::Eval(asked)) => (asked.roll, *asked.centres, asked.aux),
        Line::Asks(Question::Grouped { evaluation, .. }) => {
            (evaluation.roll, *evaluation.centres, evaluation.aux)
        }
        Line::Asks(Question::Nuclei(asked)) => {
            let centres = asked.centres(asked.list.first()?);
            (asked.roll, centres, asked.aux)
        }
        _ => return None,
    };
    let (header, terms) = second::NOW.check(&roll).ok()?;
    Some(answer::way(&header, &terms, &centres, aux))
}

/// The first word; a refusal with its number and side, a total apart from none, a salvage with what it
/// says of the count and of what follows, and a comparison with what differs.
pub fn class(answer: &[u8]) -> String {
    if answer.is_empty() || answer[0] == b'#' {
        return "the same line".to_string();
    }
    let mut words = answer.split(|&b| b == b' ').map(String::from_utf8_lossy);
    let first = words.next().unwrap_or_default().to_string();
    match (first.as_str(), words.next()) {
        ("refused", Some(number)) => {
            let side = words
                .nth(2)
                .map_or(String::new(), |side| format!(" {}", side));
            format!("refused {:>2}{}", number, side)
        }
        ("total", Some(none)) if none == "none" => "total none".to_string(),
        ("compared", Some(number)) if number != "0" => "compared terms".to_string(),
        ("compared", _) if answer == b"compared 0 differ|" => "compared equal".to_string(),
        ("compared", _) => "compared header".to_string(),
        ("salvaged", _) => {
            let told: Vec<_> = words.take(10).collect();
            match &told[..] {
                [.., count, _, after] => format!("salvaged {} {}", count, after),
                _ => first,
            }
        }
        _ => first,
    }
}

fn report(kind: &str, tally: &Tally, count: u64, out: &mut dyn Write) -> io::Result<()> {
    writeln!(
        out,
        "{}: {} questions of {} asked for, {} differences, {} spoiled",
        kind, tally.lines, count, tally.differences, tally.spoiled
    )?;
    for (class, number) in &tally.answers {
        writeln!(out, "  {:<22} {:>8}", class, number)?;
    }
    if is_evaluation(kind) {
        writeln!(
            out,
            "  values: (a) the unchanged get_ functions {}, (b) the sum loops with given terms {}; (c) refusals {}",
            tally.unchanged, tally.sum_loops, tally.refused
        )?;
    }
    if kind == "contracted" {
        writeln!(
            out,
            "  values that are -0.0 in the Rust and 0.0 here: {}",
            tally.minus_zero
        )?;
    }
    Ok(())
}

fn show(title: &str, is_there: bool, line: &[u8], out: &mut dyn Write) -> io::Result<()> {
    if is_there {
        writeln!(out, "{}{}", title, shown(line))
    } else {
        writeln!(out, "{}(no answer)", title)
    }
}

fn shown(line: &[u8]) -> String {
    let text = String::from_utf8_lossy(&line[..line.len().min(SHOWN)]).into_owned();
    let text: String = text.chars().flat_map(char::escape_default).collect();
    if line.len() > SHOWN {
        format!("{} .. ({} bytes)", text, line.len())
    } else {
        text
    }
}

/// Where long answers part.
fn show_place(ours: &[u8], rust: &[u8], out: &mut dyn Write) -> io::Result<()> {
    if ours.len().max(rust.len()) <= SHOWN {
        return Ok(());
    }
    let at = ours.iter().zip(rust).take_while(|(a, b)| a == b).count();
    let part = |line: &[u8]| {
        let from = at.saturating_sub(20).min(line.len());
        shown(&line[from..line.len().min(at + 40)])
    };
    writeln!(
        out,
        "  they part at byte {}: {} | {}",
        at,
        part(ours),
        part(rust)
    )
}
