//! The picture: time of a call against the number of terms, for both sides, as SVG.

use crate::measure::Row;
use crate::ours;
use crate::requests::{self, Request};

const OURS: &str = "#1f5fa8";
const RUST: &str = "#c0501a";

/// A panel's places, and the powers of ten that its axes span.
const TOP: f64 = 70.0;
const WIDTH: f64 = 360.0;
const HEIGHT: f64 = 360.0;
const MOST_TERMS: f64 = 6.1;
const TIMES: (i32, i32) = (1, 10);

/// Requests along x by kind, and the largest, so that each has `step` times the terms of the one before.
fn chosen(kinds: &[u8], step: f64) -> Vec<Request> {
    let mut all = Vec::new();
    let mut candidates = requests::measured();
    for &kind in kinds {
        candidates.extend((0..2401u16).map(|n| {
            let x = [n / 343, n / 49 % 7, n / 7 % 7, n % 7].map(|order| order as u8);
            Request::along_x("", kind, x)
        }));
    }
    for request in candidates.into_iter().filter(|r| kinds.contains(&r.kind)) {
        let measured = ours::measure(&request);
        if measured.refusal == 0 {
            all.push((measured.terms, request));
        }
    }
    all.sort_by_key(|(terms, _)| std::cmp::Reverse(*terms));
    let mut last = f64::INFINITY;
    all.retain(|(terms, _)| {
        let far = f64::from(*terms) * step <= last;
        if far {
            last = f64::from(*terms);
        }
        far
    });
    all.into_iter().map(|(_, request)| request).collect()
}

fn x(left: f64, terms: f64) -> f64 {
    left + WIDTH * terms.log10() / MOST_TERMS
}

fn y(nanoseconds: f64) -> f64 {
    let (low, high) = (f64::from(TIMES.0), f64::from(TIMES.1));
    TOP + HEIGHT * (high - nanoseconds.log10()) / (high - low)
}

fn circle(x: f64, y: f64, is_full: bool) -> String {
    let fill = if is_full { OURS } else { "white" };
    format!(
        "<circle cx='{:.1}' cy='{:.1}' r='3.5' fill='{}' stroke='{}'/>\n",
        x, y, fill, OURS
    )
}

fn square(x: f64, y: f64, is_full: bool) -> String {
    let fill = if is_full { RUST } else { "white" };
    format!(
        "<rect x='{:.1}' y='{:.1}' width='6.4' height='6.4' fill='{}' stroke='{}'/>\n",
        x - 3.2,
        y - 3.2,
        fill,
        RUST
    )
}

fn text(x: f64, y: f64, anchor: &str, words: &str) -> String {
    format!(
        "<text x='{:.1}' y='{:.1}' text-anchor='{}'>{}</text>\n",
        x, y, anchor, words
    )
}

fn line(x1: f64, y1: f64, x2: f64, y2: f64) -> String {
    format!(
        "<line x1='{:.1}' y1='{:.1}' x2='{:.1}' y2='{:.1}' stroke='#d8d8d8'/>\n",
        x1, y1, x2, y2
    )
}

fn axes(left: f64, title: &str) -> String {
    let bottom = TOP + HEIGHT;
    let mut svg = String::new();
    let labels = ["1", "10", "100", "1,000", "10,000", "100,000", "1,000,000"];
    for (power, label) in labels.iter().enumerate() {
        let at = x(left, 10f64.powi(power as i32));
        svg += &line(at, TOP, at, bottom);
        svg += &text(at, bottom + 18.0, "middle", label);
    }
    for power in TIMES.0..=TIMES.1 {
        let at = y(10f64.powi(power));
        let number = ["1", "10", "100"][power as usize % 3];
        let unit = ["ns", "µs", "ms", "s"][power as usize / 3];
        svg += &line(left, at, left + WIDTH, at);
        svg += &text(left - 8.0, at + 4.0, "end", &format!("{} {}", number, unit));
    }
    svg += &text(left + WIDTH / 2.0, bottom + 38.0, "middle", "terms");
    svg += &text(left + WIDTH / 2.0, TOP - 12.0, "middle", title);
    svg
}

fn legend() -> String {
    let mut svg = circle(250.0, 24.0, true);
    svg += &text(262.0, 28.0, "start", "this library");
    svg += &square(370.0, 24.0, true);
    svg += &text(382.0, 28.0, "start", "the Rust");
    svg += &text(470.0, 28.0, "start", "full: Coulomb; hollow: other kinds");
    svg
}

fn points(rows: &[Row], left: f64, times: fn(&Row) -> [f64; 2]) -> String {
    let mut svg = String::new();
    for row in rows {
        let [theirs, ours] = times(row);
        let at = x(left, row.terms);
        svg += &square(at, y(theirs), row.request.kind == 4);
        svg += &circle(at, y(ours), row.request.kind == 4);
    }
    svg
}

/// The requests whose points the picture shows.
pub fn requests() -> Vec<Request> {
    let mut requests = chosen(&[4], 1.2);
    requests.extend(chosen(&[0, 1, 2, 3], 1.5));
    requests
}

pub fn print(rows: &[Row]) {
    println!("<svg xmlns='http://www.w3.org/2000/svg' viewBox='0 0 920 490' font-family='sans-serif' font-size='13'>");
    println!("<title>Time of a call against the number of terms</title>");
    println!("<rect width='920' height='490' fill='white'/>");
    print!("{}", legend());
    print!("{}", axes(80.0, "expansion, time of a call"));
    print!(
        "{}",
        axes(530.0, "evaluation of a stored roll, time of a call")
    );
    print!("{}", points(rows, 80.0, |row| row.expansion));
    print!("{}", points(rows, 530.0, |row| row.evaluation));
    println!("</svg>");
}
