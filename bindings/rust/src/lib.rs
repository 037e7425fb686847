//! Gaussian integrals by the recurrences of Obara and Saika: safe functions over libxewumbal.a, which is proved.
//!
//! Every call answers every input, by an enum: what was asked for, or a [`Refusal`]. No call allocates, keeps anything
//! or has state of its own. include/xewumbal.h says more of each call, and docs/01-scope.md defines terms and rolls.
//! Kinds and orders are plain bytes: a wrong one is refused, as every wrong input is (D-87).
//!
//! To build, `XEWUMBAL_ARCHIVE` names the folder of libxewumbal.a, which `./run archive` makes. A host asks [`version`] once, before
//! any other call: the structs of an archive of another version than [`VERSION`] would be read wrongly.
//!
//! The float mode is a premise of every promise about floats: [`float_mode`] tells whether it is kept, and a host asks it in each
//! thread that calls. With the feature `std` a [`Refusal`] and an [`OtherMode`] are each a `std::error::Error`.
//!
//! ```
//! use xewumbal::{evaluate, expand, Centre, Expanded, Value, OVERLAP};
//!
//! let mut room = [0; 100];
//! let length = match expand(OVERLAP, &[1, 0, 0, 1, 0, 0, 0, 0, 0, 0, 0, 0], &mut room, 0) {
//!     Expanded::Roll { length, .. } => length,
//!     Expanded::Refused(refusal) => panic!("refused {}: {refusal}", refusal.number()),
//! };
//! let a = Centre { x: 0.0, y: 0.0, z: 0.0, exponent: 1.0, charge: 0 };
//! let none = Centre::default();
//! assert_eq!(evaluate(&room[..length], a, a, none, none, 1.0, &[]), Value::Is(0.25));
//! ```
#![no_std]
#![deny(missing_docs, unsafe_code)]

#[cfg(feature = "std")]
extern crate std;

#[cfg(target_arch = "x86_64")]
mod mode;
#[allow(missing_docs, unsafe_code, dead_code)]
mod raw;
#[allow(missing_docs)]
mod refusal;

#[cfg(target_arch = "x86_64")]
pub use mode::{float_mode, OtherMode};
pub use raw::{Centre, Contraction, Cursor, Cursor2, Nuclei, Pair, Primitive};
pub use refusal::Refusal;

/// The version of include/xewumbal.h.
pub const VERSION: u32 = 2;

/// Kinds are 0 to 4.
pub const KINDS: u8 = 5;
/// The orders of a request, used by its kind or not.
pub const ORDERS: usize = 12;
/// The order sum of a centre, of the operator, of a shell.
pub const MOST_ORDER: u8 = 6;
/// The terms of a roll.
pub const MOST_TERMS: u32 = 1048575;
/// The scale of a term.
pub const MOST_SCALE: u32 = 2176782336;
/// The bytes that hold any roll of [`expand`].
pub const MOST_ROLL: usize = 32505841;
/// The rows of J, K and D.
pub const MOST_SIZE: usize = 16;
/// The places for a term's prefactors.
pub const PREFACTORS: usize = 24;
/// The bytes of a grouping buffer for each term.
pub const ENTRY: usize = 40;
/// The places for a table's entries: 8, 11, 11, 12 or 23 of them by kind.
pub const TABLE: usize = 23;
/// The charge of a nucleus.
pub const MOST_CHARGE: u32 = 118;
/// The nuclei of a list.
pub const MOST_NUCLEI: usize = 32;
/// The primitives of a contracted function.
pub const MOST_PRIMITIVES: usize = 10;
/// The terms of a roll of the small-cabinet profile.
pub const SMALL_TERMS: u32 = 54;
/// The bytes of the longest roll of the profile.
pub const SMALL_ROLL: usize = 348;

/// Kind 0.
pub const OVERLAP: u8 = 0;
/// Kind 1.
pub const KINETIC: u8 = 1;
/// Kind 2.
pub const NUCLEAR: u8 = 2;
/// Kind 3.
pub const MOMENT: u8 = 3;
/// Kind 4.
pub const COULOMB: u8 = 4;

/// The answer of [`expand`], [`expand2`], [`measure`] and [`small_expand`].
#[derive(Clone, Copy, Debug, PartialEq, Eq)]
pub enum Expanded {
    /// The roll has `length` bytes, from the start place on where it was written, and `terms` terms.
    #[allow(missing_docs)]
    Roll { length: usize, terms: u32 },
    /// By 1, 2, 3, 5, 4 or 6; of [`measure`] by 1, 2, 3 or 4; of [`small_expand`] by 1, 2, 3, 19, 5 or 6.
    Refused(Refusal),
}

/// The answer of [`shell_list`].
#[derive(Clone, Copy, Debug, PartialEq, Eq)]
pub enum Listed {
    /// The list has `length` bytes from the start place on, three for each of its `triples`.
    #[allow(missing_docs)]
    Triples { length: usize, triples: u32 },
    /// By 2, 5 or 6.
    Refused(Refusal),
}

/// The answer of [`shell2`] and [`shell4`].
#[derive(Clone, Copy, Debug, PartialEq, Eq)]
pub enum Component {
    /// The shells' orders, x y z each; for a pair zeros after them.
    Orders([u8; ORDERS]),
    /// By 2 or 13.
    Refused(Refusal),
}

/// The answer of [`open`], [`check`], [`confirm`] and [`small_check`].
#[derive(Clone, Copy, Debug, PartialEq, Eq)]
pub enum Opened {
    /// The cursor at the first term, and the roll's orders, zeros after those that its kind uses.
    #[allow(missing_docs)]
    Roll { cursor: Cursor, orders: [u8; ORDERS] },
    /// By 7 or 14; of [`confirm`] then by 4 or 20; of [`small_check`] by 7 or 14 of the header, 19, 7 or 14 of the rest, or 20.
    Refused(Refusal),
}

/// A term of a roll.
#[derive(Clone, Copy, Debug, PartialEq, Eq)]
pub struct Term {
    /// What its product is multiplied by.
    pub scale: u32,
    /// Its Boys order.
    pub boys: u8,
    count: u8,
    prefactors: [u8; PREFACTORS],
}

impl Term {
    /// Its prefactors, as places of the kind's table.
    pub fn prefactors(&self) -> &[u8] {
        &self.prefactors[..usize::from(self.count)]
    }
}

/// The answer of [`Cursor::next`].
#[derive(Clone, Copy, Debug, PartialEq, Eq)]
pub enum Step {
    /// The term at the cursor, and the cursor one term further on.
    #[allow(missing_docs)]
    Term { term: Term, next: Cursor },
    /// No term is left, and nothing follows.
    End,
    /// By 7 or 14.
    Refused(Refusal),
}

/// The answer of [`open2`] and [`check2`].
#[derive(Clone, Copy, Debug, PartialEq, Eq)]
pub enum Opened2 {
    /// The cursor at the first term, and the roll's orders, zeros after those that its kind uses.
    #[allow(missing_docs)]
    Roll { cursor: Cursor2, orders: [u8; ORDERS] },
    /// By 7 or 14.
    Refused(Refusal),
}

/// The answer of [`Cursor2::next`].
#[derive(Clone, Copy, Debug, PartialEq, Eq)]
pub enum Step2 {
    /// The term at the cursor with all its prefactors, and the cursor one term further on.
    #[allow(missing_docs)]
    Term { term: Term, next: Cursor2 },
    /// No term is left, and nothing follows.
    End,
    /// By 7 or 14.
    Refused(Refusal),
}

/// The answer of [`to_form2`] and [`to_form1`].
#[derive(Clone, Copy, Debug, PartialEq, Eq)]
pub enum Moved {
    /// The roll has `length` bytes in its new form, from the start place on, and `terms` terms.
    #[allow(missing_docs)]
    Roll { length: usize, terms: u32 },
    /// By 7 or 14, 5 or 6.
    Refused(Refusal),
}

/// What follows the last term of a damaged roll.
#[derive(Clone, Copy, Debug, PartialEq, Eq)]
pub enum After {
    /// Not every term was kept, so nobody knows.
    Unknown,
    /// Nothing.
    Nothing,
    /// Bytes.
    Bytes,
}

/// The answer of [`salvage`].
#[derive(Clone, Copy, Debug, PartialEq, Eq)]
pub enum Salvaged {
    /// The fresh roll has `length` bytes, from the start place on, and `terms` terms. The first `kept` of them were read from
    /// the damaged roll, the `anew` others were not; `miscounted` says whether its stored term count is another.
    #[allow(missing_docs)]
    Roll { length: usize, terms: u32, kept: u32, anew: u32, miscounted: bool, after: After },
    /// By 7 or 14 of the header, 5, 4 or 6.
    Refused(Refusal),
}

/// The answer of [`export`].
#[derive(Clone, Copy, Debug, PartialEq, Eq)]
pub enum Exported {
    /// The text has `length` bytes from the start place on.
    #[allow(missing_docs)]
    Text { length: usize },
    /// By 7 or 14, 5 or 6.
    Refused(Refusal),
}

/// The answer of [`import`].
#[derive(Clone, Copy, Debug, PartialEq, Eq)]
pub enum Imported {
    /// The form 1 roll has `length` bytes from the start place on, and `terms` terms.
    #[allow(missing_docs)]
    Roll { length: usize, terms: u32 },
    /// By 21 or 22 with the line, 5 or 6.
    Refused(Refusal),
}

/// One of the two rolls of a comparison.
#[derive(Clone, Copy, Debug, PartialEq, Eq)]
#[allow(missing_docs)]
pub enum Side {
    Left,
    Right,
}

/// The answer of [`compare`].
#[derive(Clone, Copy, Debug, PartialEq, Eq)]
pub enum Compared {
    /// `differ` positions differ: their terms do, or only one roll has one. `kinds`, `orders` and `terms` say whether the kinds,
    /// the orders that each kind uses, and the term counts differ; `left` and `right` are the orders of each roll, and `cursor`
    /// stands before the first position.
    #[allow(missing_docs)]
    Rolls { differ: u32, kinds: bool, orders: bool, terms: bool, left: [u8; ORDERS], right: [u8; ORDERS], cursor: Pair },
    /// A roll by 7 or 14, the left one first.
    Refused(Side, Refusal),
}

/// The answer of [`Pair::next`].
#[derive(Clone, Copy, Debug, PartialEq, Eq)]
pub enum Met {
    /// Both rolls have a term at this position, and they differ.
    #[allow(missing_docs)]
    Both { number: u32, left: Term, right: Term, next: Pair },
    /// Only one roll has a term at this position.
    #[allow(missing_docs)]
    One { side: Side, number: u32, term: Term, next: Pair },
    /// No position is left that differs.
    End,
    /// A roll by 7 or 14.
    Refused(Side, Refusal),
}

/// The answer of [`scale_total`].
#[derive(Clone, Copy, Debug, PartialEq, Eq)]
pub enum Total {
    /// What the scales of the request's terms add up to.
    Is(u64),
    /// Kinetic and Coulomb: their totals do not go by the summed orders.
    NotClaimed,
    /// By 1, 2 or 3.
    Refused(Refusal),
}

/// The answer of [`roll_total`].
#[derive(Clone, Copy, Debug, PartialEq, Eq)]
pub enum Scales {
    /// What the scales of the roll's terms add up to.
    Are(u64),
    /// By 7 or 14.
    Refused(Refusal),
}

/// The answer of [`prefactors`].
#[derive(Clone, Copy, Debug, PartialEq)]
pub enum Table {
    /// The kind's table, 0.0 in the places left.
    Entries([f64; TABLE]),
    /// By 1, 8, 9 or 11.
    Refused(Refusal),
}

/// The answer of [`evaluate`], [`nuclear`], [`contracted`] and [`evaluate_grouped`].
#[derive(Clone, Copy, Debug, PartialEq)]
pub enum Value {
    /// The integral.
    Is(f64),
    /// By 7 or 14, 17 (kind 2), 8, 9, 10 or 11; of [`evaluate_grouped`] after 7 and 14 also by 6, of [`nuclear`] by 1;
    /// of [`contracted`] by 15, 16, 7 or 14, 1, 8, 9 or 11.
    Refused(Refusal),
}

/// The answer of [`grouped_term`].
#[derive(Clone, Copy, Debug, PartialEq, Eq)]
pub enum Restored {
    /// The term with the number.
    Term(Term),
    /// By 7, 13 or 14; the places of 7 and 14 are those of the grouping.
    Refused(Refusal),
}

/// The answer of [`jk`].
#[derive(Clone, Copy, Debug, PartialEq, Eq)]
pub enum Matrices {
    /// J and K are written.
    Written,
    /// By 12, 8 or 11.
    Refused(Refusal),
}

/// The version of the archive that is linked. Where it is not [`VERSION`], nothing else is to be called.
#[must_use]
pub fn version() -> u32 {
    raw::version()
}

/// Writes the roll of a request into `out` from `start` on: every term of the integral. [`MOST_ROLL`] bytes hold any
/// roll, [`measure`] tells how many one has.
pub fn expand(kind: u8, orders: &[u8; ORDERS], out: &mut [u8], start: usize) -> Expanded {
    expanded(raw::expand(kind, orders, out, start))
}

fn expanded(answer: raw::Written) -> Expanded {
    match Refusal::of(answer.refusal, 0) {
        Some(refusal) => Expanded::Refused(refusal),
        None => Expanded::Roll { length: answer.length, terms: answer.terms },
    }
}

/// Measures the roll of a request without writing it: [`expand`] answers the same from any start place that has room for so
/// many bytes.
pub fn measure(kind: u8, orders: &[u8; ORDERS]) -> Expanded {
    expanded(raw::measure(kind, orders))
}

/// Writes the roll of a request in form 2, the shorter stored one. The length plus the terms that [`measure`] tells
/// always hold it.
pub fn expand2(kind: u8, orders: &[u8; ORDERS], out: &mut [u8], start: usize) -> Expanded {
    expanded(raw::expand2(kind, orders, out, start))
}

/// Writes the roll of a request of the small-cabinet profile, as [`expand`] does: overlap or Coulomb, with an order sum of at
/// most 1 on each centre. [`SMALL_ROLL`] bytes hold any. 4 is never given.
pub fn small_expand(kind: u8, orders: &[u8; ORDERS], out: &mut [u8], start: usize) -> Expanded {
    expanded(raw::small_expand(kind, orders, out, start))
}

/// Writes the triples of a shell into `out` from `start` on, three bytes each, x descending, then y.
pub fn shell_list(order: u8, out: &mut [u8], start: usize) -> Listed {
    let answer = raw::shell_list(order, out, start);
    match Refusal::of(answer.refusal, 0) {
        Some(refusal) => Listed::Refused(refusal),
        None => Listed::Triples { length: answer.length, triples: answer.terms },
    }
}

fn component(answer: raw::Component) -> Component {
    match Refusal::of(answer.refusal, 0) {
        Some(refusal) => Component::Refused(refusal),
        None => Component::Orders(answer.orders),
    }
}

/// A component of two shells by its number, from 0, the last shell fastest.
pub fn shell2(a: u8, b: u8, number: u32) -> Component {
    component(raw::shell2(a, b, number))
}

/// A component of four shells by its number, from 0, the last shell fastest.
pub fn shell4(a: u8, b: u8, c: u8, d: u8, number: u32) -> Component {
    component(raw::shell4(a, b, c, d, number))
}

fn opened(answer: raw::Opened) -> Opened {
    match Refusal::of(answer.refusal, answer.place) {
        Some(refusal) => Opened::Refused(refusal),
        None => Opened::Roll { cursor: answer.cursor, orders: answer.orders },
    }
}

/// Reads the header of a roll alone: it says nothing of the terms. `roll` is exactly the roll's bytes.
pub fn open(roll: &[u8]) -> Opened {
    opened(raw::open(roll))
}

/// Judges the whole roll: the same answer as [`open`] where every term reads and nothing follows. Call it before
/// stepping through a roll that came from elsewhere, or summing over one: an unfinished roll opens. 14 says that the
/// roll may still be on its way, 7 that it is bad whatever follows. It does not say that the terms are those of the integral:
/// a roll whose terms were merged wrongly reads. [`confirm`] says that.
pub fn check(roll: &[u8]) -> Opened {
    opened(raw::check(roll))
}

/// Whether a roll of either form and any kind is the expansion that its header asks for, byte for byte: what [`expand`], in
/// form 2 [`expand2`], writes of its kind and orders. The answer is that of [`check`], also of a form 2 roll. 20 tells the place
/// of the first byte that differs. Call it of every roll that another board wrote.
pub fn confirm(roll: &[u8]) -> Opened {
    opened(raw::confirm(roll))
}

/// The reader of a cheap board: takes a roll only if it is a form 1 roll of the small-cabinet profile (overlap or Coulomb, an
/// order sum of at most 1 on each centre) and equals the fresh expansion byte for byte, and then answers as [`check`].
pub fn small_check(roll: &[u8]) -> Opened {
    opened(raw::small_check(roll))
}

impl Cursor {
    /// The term here, and the cursor for the next call.
    pub fn next(self, roll: &[u8]) -> Step {
        let answer = raw::next(self, roll);
        let raw::Step { next, scale, boys, count, prefactors, found, .. } = answer;
        match Refusal::of(answer.refusal, answer.place) {
            Some(refusal) => Step::Refused(refusal),
            None if found == 1 => Step::Term { term: Term { scale, boys, count, prefactors }, next },
            None => Step::End,
        }
    }
}

fn opened2(answer: raw::Opened2) -> Opened2 {
    match Refusal::of(answer.refusal, answer.place) {
        Some(refusal) => Opened2::Refused(refusal),
        None => Opened2::Roll { cursor: answer.cursor, orders: answer.orders },
    }
}

/// Reads the header of a form 2 roll alone, as [`open`]. Each form's reader refuses the other by 7 at place 0.
pub fn open2(roll: &[u8]) -> Opened2 {
    opened2(raw::open2(roll))
}

/// Judges a whole form 2 roll, as [`check`].
pub fn check2(roll: &[u8]) -> Opened2 {
    opened2(raw::check2(roll))
}

impl Cursor2 {
    /// The term here with all its prefactors, and the cursor for the next call.
    pub fn next(self, roll: &[u8]) -> Step2 {
        let answer = raw::next2(self, roll);
        let raw::Step2 { next, scale, boys, count, prefactors, found, .. } = answer;
        match Refusal::of(answer.refusal, answer.place) {
            Some(refusal) => Step2::Refused(refusal),
            None if found == 1 => Step2::Term { term: Term { scale, boys, count, prefactors }, next },
            None => Step2::End,
        }
    }
}

fn moved(answer: raw::Moved) -> Moved {
    match Refusal::of(answer.refusal, answer.place) {
        Some(refusal) => Moved::Refused(refusal),
        None => Moved::Roll { length: answer.length, terms: answer.terms },
    }
}

/// Moves a form 1 roll to form 2, into `out` from `start` on. The roll's bytes plus its terms always hold it.
pub fn to_form2(roll: &[u8], out: &mut [u8], start: usize) -> Moved {
    moved(raw::to_form2(roll, out, start))
}

/// Moves a form 2 roll back to form 1, into `out` from `start` on. The roll's bytes plus its L for each term always hold
/// it.
pub fn to_form1(roll: &[u8], out: &mut [u8], start: usize) -> Moved {
    moved(raw::to_form1(roll, out, start))
}

/// Works out afresh, into `out` from `start` on, the expansion that a damaged roll of either form had, where its header
/// reads, and tells how much of the damaged one is still the same.
pub fn salvage(roll: &[u8], out: &mut [u8], start: usize) -> Salvaged {
    let answer = raw::salvage(roll, out, start);
    let raw::Salvaged { length, terms, kept, anew, .. } = answer;
    let after = match answer.after {
        1 => After::Nothing,
        2 => After::Bytes,
        _ => After::Unknown,
    };
    match Refusal::of(answer.refusal, answer.place) {
        Some(refusal) => Salvaged::Refused(refusal),
        None => Salvaged::Roll { length, terms, kept, anew, miscounted: answer.miscounted == 1, after },
    }
}

/// Writes a form 1 roll as text for a spreadsheet, into `out` from `start` on: the line `kind,orders..,count`, then a line
/// `scale,order,prefactors..` for each term. Three times the roll's bytes always hold it.
pub fn export(roll: &[u8], out: &mut [u8], start: usize) -> Exported {
    let answer = raw::export(roll, out, start);
    match Refusal::of(answer.refusal, answer.place) {
        Some(refusal) => Exported::Refused(refusal),
        None => Exported::Text { length: answer.length },
    }
}

/// Writes the form 1 roll of a text of [`export`], into `out` from `start` on; it takes exactly such texts. As many bytes as the
/// text has always hold it. Like a roll that reads, an imported one may hold terms that no expansion gives.
pub fn import(text: &[u8], out: &mut [u8], start: usize) -> Imported {
    let answer = raw::import(text, out, start);
    match Refusal::at_line(answer.refusal, answer.line) {
        Some(refusal) => Imported::Refused(refusal),
        None => Imported::Roll { length: answer.length, terms: answer.terms },
    }
}

fn side(code: u8) -> Side {
    if code == 2 {
        Side::Right
    } else {
        Side::Left
    }
}

/// Compares two rolls, each of either form, term by term; both are judged whole first, the left one first.
pub fn compare(left: &[u8], right: &[u8]) -> Compared {
    let answer = raw::compare(left, right);
    let raw::Compared { cursor, differ, left, right, .. } = answer;
    let (kinds, orders, terms) = (answer.kinds == 1, answer.orders == 1, answer.terms == 1);
    match Refusal::of(answer.refusal, answer.place) {
        Some(refusal) => Compared::Refused(side(answer.side), refusal),
        None => Compared::Rolls { differ, kinds, orders, terms, left, right, cursor },
    }
}

fn term(answer: raw::Term) -> Term {
    let raw::Term { scale, boys, count, prefactors } = answer;
    Term { scale, boys, count, prefactors }
}

impl Pair {
    /// The next position that differs, and the cursor for the next call.
    pub fn next(self, left: &[u8], right: &[u8]) -> Met {
        let answer = raw::compare_next(self, left, right);
        let raw::Met { next, number, left, right, found, .. } = answer;
        match (Refusal::of(answer.refusal, answer.place), found) {
            (Some(refusal), _) => Met::Refused(side(answer.side), refusal),
            (None, 1) => Met::Both { number, left: term(left), right: term(right), next },
            (None, 2) => Met::One { side: Side::Left, number, term: term(left), next },
            (None, 3) => Met::One { side: Side::Right, number, term: term(right), next },
            (None, _) => Met::End,
        }
    }
}

/// What the scales of a request's terms add up to, worked out from the orders alone: for overlap, nuclear and moment
/// [`roll_total`] of the roll that [`expand`] writes is the same number.
pub fn scale_total(kind: u8, orders: &[u8; ORDERS]) -> Total {
    let answer = raw::scale_total(kind, orders);
    match Refusal::of(answer.refusal, 0) {
        Some(refusal) => Total::Refused(refusal),
        None if answer.claimed == 1 => Total::Is(answer.total),
        None => Total::NotClaimed,
    }
}

/// The scales of a roll's terms added up; the roll is judged whole first.
pub fn roll_total(roll: &[u8]) -> Scales {
    let answer = raw::roll_total(roll);
    match Refusal::of(answer.refusal, answer.place) {
        Some(refusal) => Scales::Refused(refusal),
        None => Scales::Are(answer.total),
    }
}

/// The prefactor table of a kind, as the sums use it.
pub fn prefactors(kind: u8, a: Centre, b: Centre, c: Centre, d: Centre) -> Table {
    let answer = raw::prefactors(kind, a, b, c, d);
    match Refusal::of(answer.refusal, 0) {
        Some(refusal) => Table::Refused(refusal),
        None => Table::Entries(answer.entries),
    }
}

/// The answer of [`root`].
#[derive(Clone, Copy, Debug, PartialEq)]
pub enum Root {
    /// The nearest f64 to the exact root.
    Is(f64),
    /// By 8 or 18.
    Refused(Refusal),
}

/// The root of a finite float of 0 or above: the nearest f64 to the exact root; the root of −0.0 is −0.0.
pub fn root(x: f64) -> Root {
    let answer = raw::root(x);
    match Refusal::of(answer.refusal, 0) {
        Some(refusal) => Root::Refused(refusal),
        None => Root::Is(answer.root),
    }
}

/// The integral over a roll, which is judged whole first. `aux` is the factor of every term (docs/AUX.md); for Coulomb it is
/// k1·k2, which the library divides by the root of the sum of the four exponents: an s that was divided already, as in version
/// 1, is not refused and gives wrong values. `boys` are F(0) to F(L) for kinds 2 and 4, and none for the
/// others. The nuclear value is C's charge times the integral.
pub fn evaluate(roll: &[u8], a: Centre, b: Centre, c: Centre, d: Centre, aux: f64, boys: &[f64]) -> Value {
    let answer = raw::evaluate(roll, a, b, c, d, aux, boys);
    match Refusal::of(answer.refusal, answer.place) {
        Some(refusal) => Value::Refused(refusal),
        None => Value::Is(answer.value),
    }
}

/// The nuclear values of a list of nuclei, added up from 0.0 in list order, each its charge times the integral. The roll is
/// judged once, one `aux` serves all nuclei, and their Boys numbers follow one another, F(0) to F(L) for each.
pub fn nuclear(roll: &[u8], a: Centre, b: Centre, nuclei: Nuclei, aux: f64, boys: &[f64]) -> Value {
    let answer = raw::nuclear(roll, a, b, nuclei, aux, boys);
    match Refusal::of(answer.refusal, answer.place) {
        Some(refusal) => Value::Refused(refusal),
        None => Value::Is(answer.value),
    }
}

/// The element of two contracted functions over a roll of overlap or kinetic, which is judged once: for each right primitive
/// its coefficient times the sum over the left ones of coefficient · ((left norm · right norm) · value), both sums from 0.0 in
/// order. `host` has the aux of each pair, the right function outer: that of left i and right j stands at j · left.count + i.
pub fn contracted(roll: &[u8], left: Contraction, right: Contraction, host: &[f64]) -> Value {
    let answer = raw::contracted(roll, left, right, host);
    match Refusal::of(answer.refusal, answer.place) {
        Some(refusal) => Value::Refused(refusal),
        None => Value::Is(answer.value),
    }
}

/// The same integral as [`evaluate`]'s, bit for bit, lent a buffer in which a Coulomb roll's terms are grouped by Boys
/// order and then summed in one pass. The buffer needs [`ENTRY`] bytes for each term of a Coulomb roll, else the roll
/// is refused 6 once it has been read; for other kinds it is not looked at. Once 6 is passed the grouping stays in the
/// front of the buffer, whatever is answered; everything behind it is as it was.
#[rustfmt::skip]
#[allow(clippy::too_many_arguments)]
pub fn evaluate_grouped(roll: &[u8], a: Centre, b: Centre, c: Centre, d: Centre, aux: f64, boys: &[f64], buffer: &mut [u8]) -> Value {
    let answer = raw::evaluate_grouped(roll, a, b, c, d, aux, boys, buffer);
    match Refusal::of(answer.refusal, answer.place) {
        Some(refusal) => Value::Refused(refusal),
        None => Value::Is(answer.value),
    }
}

/// The term with a number, counted from 1, of a grouping that [`evaluate_grouped`] left in the front of a buffer, so that the
/// order of the roll can be restored. `l` and `terms` are the roll's L and term count. The grouping may be anything: so many
/// entries are read from its front on, and the first fault is told; what follows them is not looked at.
pub fn grouped_term(grouping: &[u8], l: u8, terms: u32, number: u32) -> Restored {
    let answer = raw::grouped_term(grouping, l, terms, number);
    let raw::Restored { scale, boys, count, prefactors, .. } = answer;
    match Refusal::of(answer.refusal, answer.place) {
        Some(refusal) => Restored::Refused(refusal),
        None => Restored::Term(Term { scale, boys, count, prefactors }),
    }
}

/// Writes J and K of the integrals `i` and the density `d`, row by row: `n` is 1 to 16, `i` has n⁴ floats, `d`, `j` and `k`
/// have n². Every entry is summed on its own: J at (μ, ν) over `i` at (μ, ν, λ, σ) times `d` at (λ, σ), K at (μ, ν) over `i`
/// at (μ, λ, ν, σ) times `d` at (λ, σ). `d` need not be symmetric, and nothing is mirrored.
pub fn jk(n: usize, i: &[f64], d: &[f64], j: &mut [f64], k: &mut [f64]) -> Matrices {
    Refusal::of(raw::jk(n, i, d, j, k), 0).map_or(Matrices::Written, Matrices::Refused)
}
