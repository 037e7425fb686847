//! The element of two contracted functions in one call, beside its pairs one by one and S or T of the unchanged Rust (02, Q-1).

use crate::ours;
use crate::raw::{self, Centre, Contraction, Primitive, Value};
use crate::requests::{self, Request};
use crate::rust_side;
use crate::timing::{in_turn, Call};
use crate::MOST_PRIMITIVES;
use std::time::Duration;

/// The most times that an element may take of its pairs one by one, with the roll judged once.
pub const ELEMENT: f64 = 1.0;

/// Pairs of ten by ten primitives.
const PAIRS: usize = MOST_PRIMITIVES * MOST_PRIMITIVES;

/// Nanoseconds of a call: xew_contracted of ten by ten primitives, xew_evaluate of one pair, xew_check of the roll, and an element of
/// S or T.
pub struct Times {
    pub terms: f64,
    pub element: f64,
    pub one: f64,
    pub check: f64,
    pub rust: f64,
}

impl Times {
    /// What the element is held to.
    pub fn apart(&self) -> f64 {
        PAIRS as f64 * (self.one - self.check) + self.check
    }
}

pub fn requests() -> [Request; 6] {
    [
        Request::along_x("s,s", 0, [0; 4]),
        Request::along_x("p,p", 0, [1, 1, 0, 0]),
        Request::along_x("d,d", 0, [2, 2, 0, 0]),
        Request::along_x("s,s", 1, [0; 4]),
        Request::along_x("p,p", 1, [1, 1, 0, 0]),
        Request::along_x("d,d", 1, [2, 2, 0, 0]),
    ]
}

/// As many primitives as a function has, at one place, as a basis has them: exponents that grow, norms and coefficients of
/// their own.
fn function(x: f64, y: f64, z: f64, exponent: f64) -> Contraction {
    let mut function = Contraction::default();
    for primitive in function.primitives.iter_mut() {
        let step = f64::from(function.count);
        let exponent = exponent * 1.8_f64.powf(step);
        *primitive = Primitive {
            centre: Centre {
                x,
                y,
                z,
                exponent,
                charge: 1,
            },
            norm: exponent.powf(0.75),
            coefficient: 0.31 - 0.05 * step,
        };
        function.count += 1;
    }
    function
}

/// The primitives as basis.rs gets them.
fn primitives(function: &Contraction) -> Vec<elements::Primitive> {
    let primitive = |p: &Primitive| elements::Primitive {
        exponent: p.centre.exponent,
        origin: [p.centre.x, p.centre.y, p.centre.z],
        norm: p.norm,
        coefficient: p.coefficient,
    };
    function.primitives.iter().map(primitive).collect()
}

/// A request with two functions: the roll, the centres and the host number of each pair, the right function outer, and what basis.rs
/// gets.
struct Case<'a> {
    request: &'a Request,
    roll: Vec<u8>,
    functions: [Contraction; 2],
    pairs: Vec<[Centre; 4]>,
    host: Vec<f64>,
    theirs: [Vec<elements::Primitive>; 2],
}

impl Case<'_> {
    fn of(request: &Request) -> Case<'_> {
        let left = function(0.1, -0.2, 0.3, 0.2);
        let right = function(0.7, 0.4, -0.5, 0.15);
        let mut pairs = Vec::new();
        for r in right.primitives.iter().map(|r| r.centre) {
            // C and D are not used.
            pairs.extend(left.primitives.iter().map(|l| [l.centre, r, l.centre, r]));
        }
        let aux = |centres| rust_side::aux(request.kind, centres);
        Case {
            request,
            roll: ours::roll(request),
            functions: [left, right],
            host: pairs.iter().map(aux).collect(),
            pairs,
            theirs: [primitives(&left), primitives(&right)],
        }
    }

    fn contracted(&self) -> Value {
        let [left, right] = self.functions;
        raw::contracted(&self.roll, left, right, &self.host)
    }

    fn evaluate(&self, pair: usize) -> Value {
        let [a, b, c, d] = self.pairs[pair];
        raw::evaluate(&self.roll, a, b, c, d, self.host[pair], &[])
    }

    /// The element from the values of the pairs.
    fn summed(&self) -> f64 {
        let [left, right] = &self.functions;
        let (mut element, mut pair) = (0.0, 0);
        for r in &right.primitives {
            let mut inner = 0.0;
            for l in &left.primitives {
                inner += l.coefficient * ((l.norm * r.norm) * self.evaluate(pair).value);
                pair += 1;
            }
            element += r.coefficient * inner;
        }
        element
    }

    /// The element of S or T, with 0.0 added, which makes 0.0 of -0.0.
    fn rust(&self) -> f64 {
        let o = self.request.orders.map(usize::from);
        let element = match self.request.kind {
            0 => elements::overlap,
            _ => elements::kinetic,
        };
        let [left, right] = &self.theirs;
        element(left, right, &[o[0], o[1], o[2], o[3], o[4], o[5]]) + 0.0
    }

    fn is_refused(&self) -> bool {
        self.contracted().refusal != 0 || (0..PAIRS).any(|pair| self.evaluate(pair).refusal != 0)
    }
}

/// All three ways have to give the same bits, but for the sign of zero. S and T work out three elements of two functions, all of
/// the same orders, so one takes a third.
pub fn times(request: &Request, time: Duration) -> Result<Times, String> {
    // As before the other times of the Rust: a heap that has held a large list.
    drop(rust_side::terms(&requests::large()));
    let case = Case::of(request);
    let element = case.contracted().value.to_bits();
    if case.is_refused() || [case.summed(), case.rust()].map(f64::to_bits) != [element; 2] {
        return Err(format!("{}: the element differs", request.title()));
    }
    let [element, one, check, three] = in_turn(
        [
            Call::new(|| case.contracted().value.to_bits()),
            Call::new(|| case.evaluate(PAIRS - 1).value.to_bits()),
            Call::new(|| u64::from(ours::check(&case.roll).cursor.left)),
            Call::new(|| case.rust().to_bits()),
        ],
        time,
    );
    Ok(Times {
        terms: f64::from(ours::measure(request).terms),
        element,
        one,
        check,
        rust: three / 3.0,
    })
}
