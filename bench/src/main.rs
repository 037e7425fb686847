//! The library and the unchanged Rust side by side. bench/run calls it: `list` the requests, `measure` each in runs of
//! its own, then the table or the picture from what was measured, on standard input.

mod commas;
mod compare;
mod components;
mod confirm;
mod contracted;
mod forms;
mod grouped;
mod matrices;
mod measure;
mod nuclei;
mod numbers;
mod one;
mod ours;
mod picture;
// The file alone: the binding's enums are left out of what is measured.
#[rustfmt::skip]
#[allow(dead_code)]
#[path = "../../bindings/rust/src/raw.rs"]
mod raw;
mod requests;
mod root;
mod rust_side;
mod salvage;
mod same;
mod table;
mod timing;
mod totals;

use measure::Row;
use requests::Request;
use std::io::{stdin, BufRead};
use std::process::exit;

/// As include/xewumbal.h has them; the structs of the binding take them.
const ORDERS: usize = 12;
const PREFACTORS: usize = 24;
const TABLE: usize = 23;
const MOST_NUCLEI: usize = 32;
const MOST_PRIMITIVES: usize = 10;

/// Each request once for each run.
fn list(requests: Vec<Request>, runs: fn(&Request) -> usize) {
    for request in requests {
        print!("{}", format!("{}\n", request.line()).repeat(runs(&request)));
    }
}

/// Under the emulator the Rust takes seconds for a call of many terms.
fn emulated_runs(request: &Request) -> usize {
    match ours::measure(request).terms {
        0..=99_999 => 3,
        _ => 1,
    }
}

/// What was measured, the runs of one request together.
fn rows() -> Result<Vec<Row>, String> {
    let mut rows: Vec<Row> = Vec::new();
    for line in stdin().lock().lines() {
        let line = line.map_err(|error| error.to_string())?;
        let row = Row::of_line(&line).ok_or(format!("not a line of `measure`: {}", line))?;
        match rows.last_mut() {
            Some(last) if last.request == row.request => last.lower_to(&row),
            _ => rows.push(row),
        }
    }
    Ok(rows)
}

fn run(words: &[&str]) -> Result<(), String> {
    match words {
        ["list", "picture"] => list(picture::requests(), |_| 1),
        ["list", "emulated"] => list(requests::tabled(), emulated_runs),
        ["list", _] => list(requests::tabled(), |_| 3),
        ["measure", time, request @ ..] => {
            let time = time.parse().map_err(|_| "no number of milliseconds")?;
            let request = Request::of_line(&request.join(" ")).ok_or("no request")?;
            return measure::print(&request, time);
        }
        ["nuclei"] => return table::print_lists(),
        ["contracted"] => return table::print_elements(),
        ["root"] => return table::print_roots(),
        ["confirm"] => return table::print_confirmations(),
        ["commas"] => return table::print_commas(&requests::measured()),
        ["native"] => return table::print(&rows()?, true),
        ["emulated"] => return table::print(&rows()?, false),
        ["picture"] => picture::print(&rows()?),
        ["one", name, call, count] => return one::run(name, call, count),
        _ => return Err("bench/run says how this is called".to_string()),
    }
    Ok(())
}

fn main() {
    let args: Vec<String> = std::env::args().skip(1).collect();
    let words: Vec<&str> = args.iter().map(String::as_str).collect();
    if let Err(message) = run(&words) {
        eprintln!("bench: {}", message);
        exit(1);
    }
}
