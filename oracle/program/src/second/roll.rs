//! The roll in either form: its writer, its reader and the cursor.

use super::form::{shared_length, Form};
use super::limits::{most_boys, most_prefactors, orders_used, table_size, Limits};
use super::refusal::{cut, fault, Refusal};
use super::steps::{each_term, Term};
use crate::parse::Cursor;

/// A number in groups of seven bits, lowest first.
pub fn write_number(out: &mut Vec<u8>, mut number: u32) {
    while number >= 128 {
        out.push(number as u8 | 128);
        number >>= 7;
    }
    out.push(number as u8);
}

/// A term after one that has the prefactors `before`.
fn write_term(out: &mut Vec<u8>, form: Form, before: &[u8], term: &Term) {
    write_number(out, term.scale);
    write_number(out, term.boys.into());
    let mut further = &term.prefactors[..];
    if form == Form::Two {
        let shared = shared_length(before, further);
        write_number(out, shared as u32);
        further = &further[shared..];
    }
    write_number(out, further.len() as u32);
    for &prefactor in further {
        write_number(out, prefactor.into());
    }
}

fn write_header(out: &mut Vec<u8>, form: Form, kind: u8, orders: &[u8; 12], count: usize) {
    write_number(out, (kind + form.added()).into());
    for &order in &orders[..orders_used(kind)] {
        write_number(out, order.into());
    }
    write_number(out, count as u32);
}

/// In form 1.
pub fn write_roll(kind: u8, orders: &[u8; 12], terms: &[Term]) -> Vec<u8> {
    write_roll_in(Form::One, kind, orders, terms)
}

pub fn write_roll_in(form: Form, kind: u8, orders: &[u8; 12], terms: &[Term]) -> Vec<u8> {
    let mut out = Vec::new();
    write_header(&mut out, form, kind, orders, terms.len());
    let mut before: &[u8] = &[];
    for term in terms {
        write_term(&mut out, form, before, term);
        before = &term.prefactors;
    }
    out
}

/// The roll of a request's terms by the step rules, for orders within the limits and the cap.
pub fn fresh_roll(form: Form, kind: u8, orders: &[u8; 12]) -> Vec<u8> {
    let (mut terms, mut before, mut count) = (Vec::new(), Vec::new(), 0);
    each_term(kind, orders, &mut |term| {
        write_term(&mut terms, form, &before, term);
        before.clone_from(&term.prefactors);
        count += 1;
    });
    let mut out = Vec::new();
    write_header(&mut out, form, kind, orders, count);
    out.append(&mut terms);
    out
}

fn number_length(number: u32) -> usize {
    match number >> 7 {
        0 => 1,
        rest => 1 + number_length(rest),
    }
}

fn term_length(term: &Term) -> usize {
    let length = |&number: &u8| number_length(number.into());
    let prefactors: usize = term.prefactors.iter().map(length).sum();
    let count = term.prefactors.len() as u32;
    number_length(term.scale) + length(&term.boys) + number_length(count) + prefactors
}

/// The length of a request's form 1 roll and the number of its terms, for orders within the limits
/// and the cap.
pub fn measure(kind: u8, orders: &[u8; 12]) -> (usize, usize) {
    let (mut length, mut count) = (0, 0);
    each_term(kind, orders, &mut |term| {
        length += term_length(term);
        count += 1;
    });
    let mut header = Vec::new();
    write_header(&mut header, Form::One, kind, orders, count);
    (header.len() + length, count)
}

/// Reads numbers one after another; the place of a refusal is where the number begins.
struct Reader<'a> {
    limits: &'a Limits,
    roll: &'a [u8],
    place: usize,
}

impl<'a> Reader<'a> {
    /// A number from `least` to `most`.
    fn number(&mut self, least: u32, most: u32) -> Result<u32, Refusal> {
        match read_number(&self.roll[self.place..]) {
            Ok((number, length)) if (least..=most).contains(&number) => {
                self.place += length;
                Ok(number)
            }
            Err(Unread::Ended) => Err(cut(self.place)),
            Ok(_) | Err(Unread::NotShortest) | Err(Unread::TooLarge) => Err(fault(self.place)),
        }
    }

    /// A term after one that has the prefactors `before`, no more of them than a term may have.
    fn term(&mut self, form: Form, kind: u8, l: u32, before: &[u8]) -> Result<Term, Refusal> {
        let scale = self.number(1, self.limits.scale)?;
        let boys = self.number(0, most_boys(kind, l))? as u8;
        let shared = match form {
            Form::One => 0,
            Form::Two => self.number(0, before.len() as u32)?,
        };
        let further = self.number(0, most_prefactors(kind, l) - shared)?;
        let mut prefactors = before[..shared as usize].to_vec();
        for at in 0..further {
            let place = self.place;
            let prefactor = self.number(0, table_size(kind) as u32 - 1)? as u8;
            // The first further one goes on as the term before does: more is shared.
            if form == Form::Two && at == 0 && before.get(shared as usize) == Some(&prefactor) {
                return Err(fault(place));
            }
            prefactors.push(prefactor);
        }
        Ok(Term {
            scale,
            boys,
            prefactors,
        })
    }
}

/// Why there is no number, the three things that 02 tells apart.
#[derive(Clone, Copy, Debug, PartialEq)]
pub enum Unread {
    /// The input ended before the number did.
    Ended,
    NotShortest,
    /// 2^32 and above.
    TooLarge,
}

/// The number at the beginning and its length. At most five bytes belong to it: a fifth above
/// 15, its high bit included, is 2^32 and above whatever follows.
pub fn read_number(bytes: &[u8]) -> Result<(u32, usize), Unread> {
    let mut number = 0;
    for (at, &byte) in bytes.iter().enumerate() {
        if at == 4 && byte > 15 {
            return Err(Unread::TooLarge);
        }
        number |= u32::from(byte & 127) << (7 * at);
        if byte < 128 {
            if at > 0 && byte == 0 {
                return Err(Unread::NotShortest);
            }
            return Ok((number, at + 1));
        }
    }
    Err(Unread::Ended)
}

/// What a header says, and the place after it.
#[derive(Clone, Debug, PartialEq)]
pub struct Header {
    pub kind: u8,
    pub orders: [u8; 12],
    pub l: u8,
    pub count: u32,
    pub place: usize,
}

/// What a step of the cursor answers.
#[derive(Clone, Debug, PartialEq)]
pub enum Step {
    Term(Term, Cursor),
    End,
}

/// What a cabinet that has these limits says of a roll. Each form's reader refuses the other
/// form at its first number.
impl Limits {
    /// The header alone, form 1.
    pub fn open(&self, roll: &[u8]) -> Result<Header, Refusal> {
        self.open_in(Form::One, roll)
    }

    pub fn open_in(&self, form: Form, roll: &[u8]) -> Result<Header, Refusal> {
        let mut reader = self.reader(roll, 0);
        let added: u32 = form.added().into();
        let kind = (reader.number(added, added + 4)? - added) as u8;
        let mut orders = [0; 12];
        for at in 0..orders_used(kind) {
            let first_of_centre = at - at % 3;
            let sum: u8 = orders[first_of_centre..at].iter().sum();
            orders[at] = reader.number(0, (self.order_sum - sum).into())? as u8;
        }
        let count = reader.number(1, self.terms)?;
        Ok(Header {
            kind,
            orders,
            l: orders.iter().sum(),
            count,
            place: reader.place,
        })
    }

    /// The whole roll judged, form 1.
    pub fn check(&self, roll: &[u8]) -> Result<(Header, Vec<Term>), Refusal> {
        self.check_in(Form::One, roll)
    }

    pub fn check_in(&self, form: Form, roll: &[u8]) -> Result<(Header, Vec<Term>), Refusal> {
        let header = self.open_in(form, roll)?;
        let mut reader = self.reader(roll, header.place);
        let mut terms: Vec<Term> = Vec::new();
        for _ in 0..header.count {
            let before = terms.last().map_or(&[][..], |term| &term.prefactors);
            terms.push(reader.term(form, header.kind, header.l.into(), before)?);
        }
        if reader.place < roll.len() {
            return Err(fault(reader.place));
        }
        Ok((header, terms))
    }

    /// One step of the cursor, forged or not, form 1.
    pub fn next(&self, cursor: Cursor, roll: &[u8]) -> Result<Step, Refusal> {
        self.next_in(Form::One, cursor, &[], roll)
    }

    /// One step. A cursor of form 2 also holds the prefactors of the term before, which may be
    /// forged too; one of form 1 has none.
    pub fn next_in(
        &self,
        form: Form,
        cursor: Cursor,
        before: &[u8],
        roll: &[u8],
    ) -> Result<Step, Refusal> {
        if self.is_forged(cursor, before, roll.len()) {
            return Err(Refusal {
                number: 7,
                place: cursor.place,
            });
        }
        let place = cursor.place as usize;
        if cursor.left == 0 {
            return if place < roll.len() {
                Err(fault(place))
            } else {
                Ok(Step::End)
            };
        }
        let mut reader = self.reader(roll, place);
        let term = reader.term(form, cursor.kind, cursor.l.into(), before)?;
        let after = Cursor {
            left: cursor.left - 1,
            place: reader.place as u64,
            ..cursor
        };
        Ok(Step::Term(term, after))
    }

    /// No reading of a roll of this length comes to such a cursor.
    fn is_forged(&self, cursor: Cursor, before: &[u8], length: usize) -> bool {
        let Cursor { kind, l, place, .. } = cursor;
        kind > 4
            || l > self.l(kind)
            || place > length as u64
            || before.len() > most_prefactors(kind, l.into()) as usize
            || before.iter().any(|&p| usize::from(p) >= table_size(kind))
    }

    fn reader<'a>(&'a self, roll: &'a [u8], place: usize) -> Reader<'a> {
        Reader {
            limits: self,
            roll,
            place,
        }
    }
}
