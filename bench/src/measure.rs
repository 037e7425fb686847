//! One request, measured on both sides in one run.

use crate::numbers::Numbers;
use crate::ours::{self, ROOM};
use crate::requests::{self, Request};
use crate::timing::{in_turn, Call};
use crate::{rust_side, same};
use std::convert::TryInto;
use std::time::Duration;

/// Nanoseconds of a call, the Rust's and ours.
pub struct Row {
    pub request: Request,
    pub terms: f64,
    pub bytes: f64,
    pub expansion: [f64; 2],
    pub measuring: f64,
    pub evaluation: [f64; 2],
    pub check: f64,
    pub copy: f64,
}

/// A request that is refused: our time alone.
fn refused(request: &Request, time: Duration) -> [f64; 9] {
    let mut out = vec![0; ROOM];
    let call = Call::new(|| u64::from(ours::expand(request, &mut out).refusal));
    let [took] = in_turn([call], time);
    [0.0, 0.0, 0.0, took, 0.0, 0.0, 0.0, 0.0, 0.0]
}

/// A request whose roll and value are the same on both sides.
fn accepted(request: &Request, time: Duration) -> Result<[f64; 9], String> {
    // A heap that has held a large list no longer gives pages back to the system after each call of the Rust.
    drop(rust_side::terms(&requests::large()));
    let roll = ours::roll(request);
    let with = Numbers::of(request);
    let terms = same::terms(request, &roll)?;
    same::value(request, &roll, &with)?;
    let mut out = vec![0; ROOM];
    let mut copied = vec![0; roll.len()];
    let [apply, expand, measure] = in_turn(
        [
            Call::new(|| rust_side::terms(request).len() as u64),
            Call::new(|| u64::from(ours::expand(request, &mut out).terms)),
            Call::new(|| u64::from(ours::measure(request).terms)),
        ],
        time,
    );
    let [get, evaluate, check, copy] = in_turn(
        [
            Call::new(|| rust_side::value(request, &with.centres).to_bits()),
            Call::new(|| ours::evaluate(&roll, &with).value.to_bits()),
            Call::new(|| u64::from(ours::check(&roll).cursor.left)),
            Call::new(|| {
                copied.copy_from_slice(&roll);
                u64::from(copied[copied.len() - 1])
            }),
        ],
        time,
    );
    Ok([
        f64::from(terms),
        roll.len() as f64,
        apply,
        expand,
        measure,
        get,
        evaluate,
        check,
        copy,
    ])
}

/// Measures a request and prints it with its numbers as a line. One that has to be over the cap has 0 terms there.
pub fn print(request: &Request, milliseconds: u64) -> Result<(), String> {
    let time = Duration::from_millis(milliseconds);
    let mut out = vec![0; ROOM];
    let is_over = requests::refused().iter().any(|over| over == request);
    let numbers = match (ours::expand(request, &mut out).refusal, is_over) {
        (0, false) => accepted(request, time)?,
        (4, true) => refused(request, time),
        (number, _) => return Err(format!("{} has refusal {}", request.title(), number)),
    };
    let words: Vec<String> = numbers.iter().map(f64::to_string).collect();
    println!("{} {}", request.line(), words.join(" "));
    Ok(())
}

impl Row {
    /// Keeps the smaller times of two runs of one request.
    pub fn lower_to(&mut self, other: &Row) {
        for side in 0..2 {
            self.expansion[side] = self.expansion[side].min(other.expansion[side]);
            self.evaluation[side] = self.evaluation[side].min(other.evaluation[side]);
        }
        self.measuring = self.measuring.min(other.measuring);
        self.check = self.check.min(other.check);
        self.copy = self.copy.min(other.copy);
    }

    /// What `print` has printed.
    pub fn of_line(line: &str) -> Option<Row> {
        let words: Vec<&str> = line.split(' ').collect();
        if words.len() != 22 {
            return None;
        }
        let numbers: Vec<f64> = words[13..].iter().map_while(|n| n.parse().ok()).collect();
        let [terms, bytes, apply, expand, measuring, get, evaluate, check, copy]: [f64; 9] =
            numbers.try_into().ok()?;
        Some(Row {
            request: Request::of_line(&words[..13].join(" "))?,
            terms,
            bytes,
            expansion: [apply, expand],
            measuring,
            evaluation: [get, evaluate],
            check,
            copy,
        })
    }
}
