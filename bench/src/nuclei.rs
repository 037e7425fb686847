//! A list of nuclei in one call, beside its nuclei one by one and the unchanged get_nuclear of each (02, Q-10).

use crate::numbers::Numbers;
use crate::ours;
use crate::raw::{self, Centre, Nuclei};
use crate::requests::{self, Request};
use crate::rust_side;
use crate::timing::{in_turn, Call};
use crate::MOST_NUCLEI;
use std::time::Duration;

/// The most times that a list may take of its nuclei one by one, with the roll judged once, and one nucleus more.
pub const LIST: f64 = 1.0;

/// Nanoseconds of a call: xew_nuclear of 32 nuclei, xew_evaluate of one of them, xew_check of the roll, and 32 of get_nuclear, each times
/// its charge, added up.
pub struct Times {
    pub terms: f64,
    pub list: f64,
    pub one: f64,
    pub check: f64,
    pub rust: f64,
}

impl Times {
    /// What the list is held to.
    pub fn apart(&self) -> f64 {
        (MOST_NUCLEI + 1) as f64 * (self.one - self.check) + self.check
    }
}

pub fn requests() -> [Request; 4] {
    [
        Request::along_x("s,s", 2, [0; 4]),
        Request::along_x("p,p", 2, [1, 1, 0, 0]),
        Request::along_x("d,d", 2, [2, 2, 0, 0]),
        Request::along_x("nuclear", 2, [4, 4, 0, 0]),
    ]
}

/// As many nuclei as a list has, each at a place of its own, with charges from 0 to 118.
fn nuclei(first: Centre) -> Nuclei {
    let mut list = Nuclei::default();
    for centre in list.centres.iter_mut() {
        let step = f64::from(list.count);
        *centre = Centre {
            x: first.x + 0.1 * step,
            y: first.y - 0.07 * step,
            charge: list.count * 37 % 119,
            ..first
        };
        list.count += 1;
    }
    list
}

/// The values of all nuclei, each its charge times the integral, added up from 0.0.
fn summed(list: &Nuclei, value: impl Fn(&Centre) -> f64) -> f64 {
    list.centres.iter().fold(0.0, |sum, c| sum + value(c))
}

/// All three ways have to give the same bits. Every nucleus has the same Boys numbers, so that the Rust's are lent once.
pub fn times(request: &Request, time: Duration) -> Result<Times, String> {
    // As before the other times of the Rust: a heap that has held a large list.
    drop(rust_side::terms(&requests::large()));
    let roll = ours::roll(request);
    let with = Numbers::of(request);
    let [a, b, c, d] = with.centres;
    let list = nuclei(c);
    let boys = with.boys.repeat(MOST_NUCLEI);
    let evaluate = |c: &Centre| raw::evaluate(&roll, a, b, *c, d, with.aux, &with.boys);
    let listed = || raw::nuclear(&roll, a, b, list, with.aux, &boys);
    let rust = || {
        let value = |c: &Centre| f64::from(c.charge) * rust_side::value(request, &[a, b, *c, d]);
        summed(&list, value).to_bits()
    };
    let plain = summed(&list, |c| evaluate(c).value).to_bits();
    let refused = listed().refusal != 0 || list.centres.iter().any(|c| evaluate(c).refusal != 0);
    if refused || [listed().value.to_bits(), rust()] != [plain; 2] {
        return Err(format!("{}: the total of a list differs", request.name));
    }
    let last = list.centres[MOST_NUCLEI - 1];
    let [list, one, check, rust] = in_turn(
        [
            Call::new(|| listed().value.to_bits()),
            Call::new(|| evaluate(&last).value.to_bits()),
            Call::new(|| u64::from(ours::check(&roll).cursor.left)),
            Call::new(rust),
        ],
        time,
    );
    Ok(Times {
        terms: f64::from(ours::measure(request).terms),
        list,
        one,
        check,
        rust,
    })
}
