//! One answer line for each question line.

use crate::parse::{self, Centre, Contracted, Cursor, Evaluation, Lengths, Line};
use crate::parse::{Nuclei, Question};
use crate::rust_side;
use crate::second::{self, Form, Header, Refusal, Side, Step, Term};
use std::io::{self, BufRead, BufReader, Read, Write};

/// Answers lines until the input ends.
pub fn answer_all<R: Read>(input: R, output: &mut dyn Write) -> io::Result<()> {
    let mut input = BufReader::with_capacity(1 << 16, input);
    let mut line = Vec::new();
    let mut answer = Vec::new();
    loop {
        line.clear();
        if input.read_until(b'\n', &mut line)? == 0 {
            return output.flush();
        }
        if line.last() == Some(&b'\n') {
            line.pop();
        }
        answer.clear();
        answer_line(&line, &mut answer);
        answer.push(b'\n');
        output.write_all(&answer)?;
        // Someone may be waiting for the answer before asking on.
        if input.buffer().is_empty() {
            output.flush()?;
        }
    }
}

pub fn answer_line(line: &[u8], out: &mut Vec<u8>) {
    match parse::line(line) {
        Line::Same => out.extend_from_slice(line),
        Line::Malformed => out.push(b'?'),
        Line::Asks(question) => {
            if let Err(refusal) = answer(question, out) {
                write_refusal(out, refusal);
            }
        }
    }
}

fn write_refusal(out: &mut Vec<u8>, refusal: Refusal) {
    out.clear();
    write(out, &format!("refused {}", refusal.number));
    if refusal.carries_place() {
        write(out, &format!(" at {}", refusal.place));
    }
    if refusal.carries_line() {
        write(out, &format!(" line {}", refusal.place));
    }
}

fn write(out: &mut Vec<u8>, text: &str) {
    out.extend_from_slice(text.as_bytes());
}

fn answer(question: Question, out: &mut Vec<u8>) -> Result<(), Refusal> {
    match question {
        Question::Expand {
            form,
            kind,
            orders,
            buffer,
            start,
        } => expand(out, form, kind, &orders, buffer, start),
        Question::Measure { kind, orders } => measure(out, kind, &orders),
        Question::Total { kind, orders } => total(out, kind, &orders),
        Question::Shell { m, buffer, start } => shell(out, m, buffer, start),
        Question::Component { shells, number } => component(out, &shells, number),
        Question::List(roll) => list(out, &roll),
        Question::Open(form, roll) => opened(out, &second::NOW.open_in(form, &roll)?),
        Question::Check(form, roll) => opened(out, &second::NOW.check_in(form, &roll)?.0),
        Question::Scales(roll) => scales(out, &roll),
        Question::Next {
            form,
            cursor,
            before,
            roll,
        } => next(out, form, cursor, &before, &roll),
        Question::Move {
            to,
            roll,
            buffer,
            start,
        } => moved(out, to, &roll, buffer, start),
        Question::Salvage {
            roll,
            buffer,
            start,
        } => salvage(out, &roll, buffer, start),
        Question::Compare { left, right } => {
            compare(out, &left, &right);
            Ok(())
        }
        Question::Small(roll) => small(out, &roll),
        Question::SmallExpand {
            kind,
            orders,
            buffer,
            start,
        } => small_expand(out, kind, &orders, buffer, start),
        Question::Confirm(roll) => confirm(out, &roll),
        Question::Export {
            roll,
            buffer,
            start,
        } => export(out, &roll, buffer, start),
        Question::Import {
            text,
            buffer,
            start,
        } => import(out, &text, buffer, start),
        Question::Eval(evaluation) => eval(out, &evaluation),
        Question::Grouped { buffer, evaluation } => grouped(out, buffer, &evaluation),
        Question::Nuclei(asked) => nuclei(out, &asked),
        Question::Contracted(asked) => contracted(out, &asked),
        Question::Root(x) => root(out, x),
        Question::Table(kind, centres) => table(out, kind, &centres),
        Question::JK { n, lengths, i, d } => jk(out, n, &lengths, &i, &d),
    }
}

fn expand(
    out: &mut Vec<u8>,
    form: Form,
    kind: u8,
    orders: &[u8; 12],
    buffer: usize,
    start: u64,
) -> Result<(), Refusal> {
    second::check_request(kind, orders, buffer, start)?;
    let terms = rust_side::terms(kind, orders);
    let roll = second::write_roll_in(form, kind, orders, &terms);
    second::check_room(roll.len(), buffer, start)?;
    written(out, &roll, terms.len());
    Ok(())
}

/// A roll that was written, with the count of its terms.
fn written(out: &mut Vec<u8>, roll: &[u8], count: usize) {
    write(out, &format!("roll {} terms {} ", roll.len(), count));
    parse::write_hex(out, roll);
}

/// The refusals of reading come before those of the output.
fn moved(
    out: &mut Vec<u8>,
    to: Form,
    roll: &[u8],
    buffer: usize,
    start: u64,
) -> Result<(), Refusal> {
    let (header, roll) = second::moved(to, roll)?;
    second::check_room(roll.len(), buffer, start)?;
    written(out, &roll, header.count as usize);
    Ok(())
}

/// The header's refusals, then those of the expansion, which is the Rust's own.
fn salvage(out: &mut Vec<u8>, roll: &[u8], buffer: usize, start: u64) -> Result<(), Refusal> {
    let form = Form::of(roll);
    let header = second::NOW.open_in(form, roll)?;
    second::check_request(header.kind, &header.orders, buffer, start)?;
    let terms = rust_side::terms(header.kind, &header.orders);
    let fresh = second::write_roll_in(form, header.kind, &header.orders, &terms);
    second::check_room(fresh.len(), buffer, start)?;
    let told = second::salvaged(form, roll, &header, &terms);
    let count = if told.is_other_count { "other" } else { "same" };
    let after = match told.bytes_follow {
        Some(true) => "bytes",
        Some(false) => "none",
        None => "unknown",
    };
    write(
        out,
        &format!(
            "salvaged {} terms {} kept {} anew {} count {} after {} ",
            fresh.len(),
            terms.len(),
            told.kept,
            told.anew,
            count,
            after
        ),
    );
    parse::write_hex(out, &fresh);
    Ok(())
}

/// Up to so many terms a request is measured by the Rust, which takes a second and more for a
/// million of them. Above that the second reading measures; the tests hold the two together.
const LISTED_TO_MEASURE: u32 = 100_000;

fn measure(out: &mut Vec<u8>, kind: u8, orders: &[u8; 12]) -> Result<(), Refusal> {
    second::check_measured(kind, orders)?;
    let counted = second::count_histories(kind, orders, LISTED_TO_MEASURE);
    let (length, count) = if counted <= LISTED_TO_MEASURE {
        rust_side::measure(kind, orders)
    } else {
        second::measure(kind, orders)
    };
    write(out, &format!("measured {} terms {}", length, count));
    Ok(())
}

/// Up to so many terms the Rust's own scales are added up, above that those of the second reading;
/// the tests hold the two together.
const LISTED_TO_ADD: u32 = 200_000;

fn total(out: &mut Vec<u8>, kind: u8, orders: &[u8; 12]) -> Result<(), Refusal> {
    second::check_total(kind, orders)?;
    if !second::is_claimed(kind) {
        write(out, "total none");
        return Ok(());
    }
    let counted = second::count_histories(kind, orders, LISTED_TO_ADD);
    let total = if counted <= LISTED_TO_ADD {
        rust_side::total(kind, orders)
    } else {
        second::total(kind, orders)
    };
    write(out, &format!("total {}", total));
    Ok(())
}

fn scales(out: &mut Vec<u8>, roll: &[u8]) -> Result<(), Refusal> {
    let (_, terms) = second::NOW.check(roll)?;
    write(out, &format!("scales {}", second::scales(&terms)));
    Ok(())
}

fn shell(out: &mut Vec<u8>, m: u8, buffer: usize, start: u64) -> Result<(), Refusal> {
    second::check_shell(m, buffer, start)?;
    let bytes = rust_side::shell_list(m);
    write(out, &format!("shell {} ", bytes.len()));
    parse::write_hex(out, &bytes);
    Ok(())
}

fn component(out: &mut Vec<u8>, shells: &[u8], number: u32) -> Result<(), Refusal> {
    second::check_component(shells, number)?;
    write(out, "component ");
    parse::write_hex(out, &rust_side::component(shells, number));
    Ok(())
}

fn list(out: &mut Vec<u8>, roll: &[u8]) -> Result<(), Refusal> {
    let text = second::listing(roll)?;
    write(out, "listing ");
    write(out, &text.replace('\n', "|"));
    Ok(())
}

/// A refusal has its side.
fn compare(out: &mut Vec<u8>, left: &[u8], right: &[u8]) {
    match second::compared(left, right) {
        Ok(text) => {
            write(out, "compared ");
            write(out, &text.replace('\n', "|"));
        }
        Err((refusal, side)) => {
            write_refusal(out, refusal);
            write(
                out,
                match side {
                    Side::Left => " left",
                    Side::Right => " right",
                },
            );
        }
    }
}

/// The header of either form, then the profile, then the terms, then each byte beside the Rust's own
/// expansion.
fn small(out: &mut Vec<u8>, roll: &[u8]) -> Result<(), Refusal> {
    let form = Form::of(roll);
    let header = second::NOW.open_in(form, roll)?;
    second::check_profile(form, header.kind, &header.orders)?;
    second::NOW.check_in(form, roll)?;
    second::check_expansion(roll, &rust_side::roll(header.kind, &header.orders))?;
    opened(out, &header)
}

fn small_expand(
    out: &mut Vec<u8>,
    kind: u8,
    orders: &[u8; 12],
    buffer: usize,
    start: u64,
) -> Result<(), Refusal> {
    second::check_small_request(kind, orders)?;
    let terms = rust_side::terms(kind, orders);
    let roll = second::write_roll(kind, orders, &terms);
    second::check_room(roll.len(), buffer, start)?;
    written(out, &roll, terms.len());
    Ok(())
}

/// The whole roll read, in its own form, then the cap, then each byte beside the Rust's own expansion.
fn confirm(out: &mut Vec<u8>, roll: &[u8]) -> Result<(), Refusal> {
    let form = Form::of(roll);
    let (header, _) = second::NOW.check_in(form, roll)?;
    second::check_measured(header.kind, &header.orders)?;
    let fresh = rust_side::roll_in(form, header.kind, &header.orders);
    second::check_expansion(roll, &fresh)?;
    told(out, "confirmed", &header)
}

/// The refusals of reading, then those of the output.
fn export(out: &mut Vec<u8>, roll: &[u8], buffer: usize, start: u64) -> Result<(), Refusal> {
    let text = second::exported(roll)?;
    second::check_room(text.len(), buffer, start)?;
    write(out, &format!("text {} ", text.len()));
    write(out, &text.replace('\n', "|"));
    Ok(())
}

/// The refusals of the text, then those of the output.
fn import(out: &mut Vec<u8>, text: &[u8], buffer: usize, start: u64) -> Result<(), Refusal> {
    let (count, roll) = second::imported(text)?;
    second::check_room(roll.len(), buffer, start)?;
    written(out, &roll, count);
    Ok(())
}

fn opened(out: &mut Vec<u8>, header: &Header) -> Result<(), Refusal> {
    told(out, "opened", header)
}

/// What a header says, after a word.
fn told(out: &mut Vec<u8>, word: &str, header: &Header) -> Result<(), Refusal> {
    write(
        out,
        &format!("{} {} {} {}", word, header.kind, header.l, header.count),
    );
    for order in &header.orders[..second::orders_used(header.kind)] {
        write(out, &format!(" {}", order));
    }
    write(out, &format!(" place {}", header.place));
    Ok(())
}

fn next(
    out: &mut Vec<u8>,
    form: Form,
    cursor: Cursor,
    before: &[u8],
    roll: &[u8],
) -> Result<(), Refusal> {
    match second::NOW.next_in(form, cursor, before, roll)? {
        Step::End => write(out, "end"),
        Step::Term(term, after) => {
            write(out, &format!("term {} {}", term.scale, term.boys));
            for prefactor in &term.prefactors {
                write(out, &format!(" {}", prefactor));
            }
            write(out, &format!(" next {} {}", after.place, after.left));
        }
    }
    Ok(())
}

/// How an evaluation comes to its value.
#[derive(Clone, Copy)]
pub enum Way {
    /// The Rust's own list and aux (Coulomb: s): the unchanged get_ function.
    Unchanged,
    /// Any other: the Rust's sum loops, fed with terms and aux.
    SumLoops,
}

pub fn way(header: &Header, terms: &[Term], centres: &[Centre; 4], aux: f64) -> Way {
    if rust_side::is_own_aux(header.kind, centres, aux) && rust_side::is_own_list(header, terms) {
        Way::Unchanged
    } else {
        Way::SumLoops
    }
}

/// The value that the Rust comes to by that way.
fn rust_value(
    way: Way,
    header: &Header,
    terms: &[Term],
    centres: &[Centre; 4],
    aux: f64,
    boys: &[f64],
) -> f64 {
    match way {
        Way::Unchanged => rust_side::value(header, centres, boys),
        Way::SumLoops => rust_side::value_of_terms(header, terms, centres, aux, boys),
    }
}

fn eval(out: &mut Vec<u8>, evaluation: &Evaluation) -> Result<(), Refusal> {
    let (header, terms) = second::NOW.check(&evaluation.roll)?;
    let (value, _) = value_and_table(&header, &terms, evaluation)?;
    write_value(out, value)
}

/// As `eval`, with 6 right after the roll is read. The second reading groups the terms of a
/// Coulomb roll and must sum the same, as for a table.
fn grouped(out: &mut Vec<u8>, buffer: usize, evaluation: &Evaluation) -> Result<(), Refusal> {
    let (header, terms) = second::NOW.check(&evaluation.roll)?;
    second::check_grouping(&header, buffer)?;
    let (value, table) = value_and_table(&header, &terms, evaluation)?;
    if header.kind == 4 {
        let entries = second::grouped(header.l, &terms);
        let s = second::s_of_product(evaluation.aux, &evaluation.centres);
        let value2 = second::sum_of_groups(&entries, &table, s, &evaluation.boys);
        assert!(
            same(&[value], &[value2]),
            "the Rust and the second reading differ: the groups of {:?}",
            evaluation
        );
    }
    write_value(out, value)
}

/// The Rust's value, on which 11 is still to be decided, and its table. That of a nuclear roll is
/// multiplied by the charge of C, and the second reading must come to the same; of a Coulomb roll
/// the s.
fn value_and_table(
    header: &Header,
    terms: &[Term],
    evaluation: &Evaluation,
) -> Result<(f64, Vec<f64>), Refusal> {
    let Evaluation {
        centres, aux, boys, ..
    } = evaluation;
    second::check_evaluation(header, centres, *aux, boys)?;
    let table = table_of(header.kind, centres)?;
    if header.kind == 4 {
        let s = rust_side::s_of_product(*aux, centres);
        let s2 = second::s_of_product(*aux, centres);
        assert!(
            same(&[s], &[s2]),
            "the Rust and the second reading differ: s of {:?}",
            evaluation
        );
    }
    let way = way(header, terms, centres, *aux);
    let value = rust_value(way, header, terms, centres, *aux, boys);
    if header.kind != 2 {
        return Ok((value, table));
    }
    let charge = centres[2].charge;
    let value = f64::from(charge) * value;
    let value2 = second::value_of_nucleus(charge, terms, &table, *aux, boys);
    assert!(
        same(&[value], &[value2]),
        "the Rust and the second reading differ: the nucleus of {:?}",
        evaluation
    );
    Ok((value, table))
}

/// The Rust's value of each nucleus times its charge, as `V` of basis.rs multiplies, added from 0.0 in
/// list order; `V` adds by ndarray, which is not here. The second reading must sum the same, as for
/// a table.
fn nuclei(out: &mut Vec<u8>, asked: &Nuclei) -> Result<(), Refusal> {
    let (header, terms) = second::NOW.check(&asked.roll)?;
    second::check_nuclei(&header, asked)?;
    for nucleus in &asked.list {
        table_of(2, &asked.centres(nucleus))?;
    }
    // The Rust's aux does not depend on the nucleus.
    let way = way(&header, &terms, &asked.centres(&asked.list[0]), asked.aux);
    let boys_of_each = asked.boys.chunks(usize::from(header.l) + 1);
    let mut sum = 0.0;
    for (nucleus, boys) in asked.list.iter().zip(boys_of_each) {
        let centres = asked.centres(nucleus);
        let value = rust_value(way, &header, &terms, &centres, asked.aux, boys);
        sum += f64::from(nucleus.charge) * value;
    }
    assert!(
        same(&[sum], &[second::sum_of_nuclei(header.l, &terms, asked)]),
        "the Rust and the second reading differ: the sum of {:?}",
        asked
    );
    write_value(out, sum)
}

/// The way of a contracted element, and the element of S or T as it comes: a zero may have the other
/// sign, since the Rust's sums of iterators begin at -0.0 from some release on.
pub fn rust_element(header: &Header, terms: &[Term], asked: &Contracted) -> (Way, f64) {
    let own =
        |(centres, &aux): ([Centre; 4], &f64)| rust_side::is_own_aux(header.kind, &centres, aux);
    let all_own = asked.centres().zip(&asked.host).all(own);
    if all_own && rust_side::is_own_list(header, terms) {
        return (Way::Unchanged, rust_side::element(header, asked));
    }
    let value = |(centres, &aux): ([Centre; 4], &f64)| {
        rust_side::value_of_terms(header, terms, &centres, aux, &[])
    };
    let values: Vec<f64> = asked.centres().zip(&asked.host).map(value).collect();
    let element = rust_side::element_of_values(header, asked, &values);
    (Way::SumLoops, element)
}

/// The element of S or T, with 0.0 added, which makes 0.0 of -0.0 and leaves any other as it is. The
/// second reading, whose sums begin at 0.0, must come to the same.
fn contracted(out: &mut Vec<u8>, asked: &Contracted) -> Result<(), Refusal> {
    second::check_counts(asked)?;
    let (header, terms) = second::NOW.check(&asked.roll)?;
    second::check_contracted(header.kind, asked)?;
    for centres in asked.centres() {
        table_of(header.kind, &centres)?;
    }
    let (_, element) = rust_element(&header, &terms, asked);
    let sums = second::element(header.kind, &terms, asked);
    assert!(
        same(&[element + 0.0], &[sums.element]),
        "the Rust and the second reading differ: the element of {:?}",
        asked
    );
    second::check_results(&[&sums.values, &sums.inner])?;
    write_value(out, sums.element)
}

fn write_value(out: &mut Vec<u8>, value: f64) -> Result<(), Refusal> {
    second::check_results(&[&[value]])?;
    write(out, "value ");
    parse::write_float(out, value);
    Ok(())
}

/// The second reading's root; that of the machine, by which get_aux divides, must be the same.
fn root(out: &mut Vec<u8>, x: f64) -> Result<(), Refusal> {
    let root = second::root(x)?;
    assert!(
        same(&[x.sqrt()], &[root]),
        "the machine and the second reading differ: the root of {:e}",
        x
    );
    write(out, "root ");
    parse::write_float(out, root);
    Ok(())
}

fn table(out: &mut Vec<u8>, kind: u8, centres: &[Centre; 4]) -> Result<(), Refusal> {
    second::check_table(kind, centres)?;
    let mut table = table_of(kind, centres)?;
    table.resize(23, 0.0);
    write(out, "table");
    write_floats(out, &table);
    Ok(())
}

/// The Rust's own table, with 11 decided over it and the geometry numbers. The second reading
/// must work out the same numbers, or something is wrong here and nothing more is answered.
fn table_of(kind: u8, centres: &[Centre; 4]) -> Result<Vec<f64>, Refusal> {
    let (geometry, table) = rust_side::geometry_and_table(kind, centres);
    let (geometry2, table2) = second::geometry_and_table(kind, centres);
    assert!(
        same(&geometry, &geometry2) && same(&table, &table2),
        "the Rust and the second reading differ: kind {} {:?}",
        kind,
        centres
    );
    second::check_results(&[&geometry, &table])?;
    Ok(table)
}

/// The same bits, or no number on both sides.
pub fn same(left: &[f64], right: &[f64]) -> bool {
    left.len() == right.len()
        && left
            .iter()
            .zip(right)
            .all(|(x, y)| x.to_bits() == y.to_bits() || x.is_nan() && y.is_nan())
}

/// J and K of JK_direct's loops; the second reading must sum the same, as for a table.
fn jk(out: &mut Vec<u8>, n: u64, lengths: &Lengths, i: &[f64], d: &[f64]) -> Result<(), Refusal> {
    second::check_matrices(n, lengths, i, d)?;
    let (j, k) = rust_side::j_and_k(n as usize, i, d);
    let (j2, k2) = second::j_and_k(n as usize, i, d);
    assert!(
        same(&j, &j2) && same(&k, &k2),
        "the Rust and the second reading differ: J or K of {}, {:?} {:?}",
        n,
        i,
        d
    );
    second::check_results(&[&j, &k])?;
    write(out, "J");
    write_floats(out, &j);
    write(out, " K");
    write_floats(out, &k);
    Ok(())
}

fn write_floats(out: &mut Vec<u8>, floats: &[f64]) {
    for &float in floats {
        out.push(b' ');
        parse::write_float(out, float);
    }
}
