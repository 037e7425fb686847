//! One call of one request, so many times, for a profiler.

use crate::numbers::Numbers;
use crate::ours::{self, ENTRY, ROOM};
use crate::raw;
use crate::requests::{self, Request};
use crate::rust_side;

fn find(name: &str) -> Result<Request, String> {
    let all = requests::tabled();
    let names: Vec<&str> = all.iter().map(|request| request.name.as_str()).collect();
    let message = format!("no request {}; there are: {}", name, names.join(", "));
    all.into_iter()
        .find(|request| request.name == name)
        .ok_or(message)
}

pub fn run(name: &str, call: &str, count: &str) -> Result<(), String> {
    let request = find(name)?;
    let count: u32 = count.parse().map_err(|_| format!("no count: {}", count))?;
    let mut out = vec![0; ROOM];
    let written = ours::expand(&request, &mut out);
    let length = written.length;
    let mut buffer = vec![0; ENTRY * written.terms as usize];
    let with = Numbers::of(&request);
    let mut bits = 0;
    for _ in 0..count {
        bits = match call {
            "expand" => u64::from(ours::expand(&request, &mut out).terms),
            "measure" => u64::from(ours::measure(&request).terms),
            "check" => u64::from(ours::check(&out[..length]).cursor.left),
            "confirm" => u64::from(raw::confirm(&out[..length]).cursor.left),
            "evaluate" => ours::evaluate(&out[..length], &with).value.to_bits(),
            "grouped" => {
                let answer = ours::evaluate_grouped(&out[..length], &with, &mut buffer);
                answer.value.to_bits()
            }
            "terms" => rust_side::terms(&request).len() as u64,
            "get" => rust_side::value(&request, &with.centres).to_bits(),
            _ => {
                let calls = "expand measure check confirm evaluate grouped terms get";
                return Err(format!("the calls are: {}", calls));
            }
        }
    }
    println!("{} {} {} times: {:x}", name, call, count, bits);
    Ok(())
}
