//! The question language: a line becomes a question, or it is none.

use crate::second::Form;

/// A longer line is no question.
pub const LONGEST_LINE: usize = 2_097_152;
/// The largest buffer that a question lends, and what the short forms lend.
pub const LARGEST_BUFFER: usize = 16_777_216;
/// The largest buffer for an export, and what its short form lends.
pub const LARGEST_EXPORT: usize = 3_145_728;
/// The largest grouping buffer that a question lends.
pub const LARGEST_GROUPING: usize = 67_108_864;
/// The most Boys numbers of a question.
pub const MOST_BOYS: usize = 65_536;
/// The most nuclei that follow their count; where it is larger, or 0, none follows.
pub const MOST_LISTED: u8 = 32;
/// The most primitives that follow their count; where it is larger, or 0, none follows.
pub const MOST_PRIMITIVES: u8 = 10;
/// The most host numbers of a question.
pub const MOST_HOST: u64 = 128;
/// The most prefactors of the term before that a question's cursor holds.
pub const MOST_BEFORE: usize = 24;

/// Three coordinates, an exponent and a charge.
#[derive(Clone, Copy, Debug, Default, PartialEq)]
pub struct Centre {
    pub r: [f64; 3],
    pub z: f64,
    pub charge: u32,
}

#[derive(Clone, Copy, Debug, PartialEq)]
pub struct Cursor {
    pub kind: u8,
    pub l: u8,
    pub left: u32,
    pub place: u64,
}

#[derive(Clone, Debug, PartialEq)]
pub struct Evaluation {
    pub roll: Vec<u8>,
    pub centres: Box<[Centre; 4]>,
    /// The host's number; of a Coulomb roll k1 k2.
    pub aux: f64,
    pub boys: Vec<f64>,
}

/// A pair of functions and a list of nuclei.
#[derive(Clone, Debug, PartialEq)]
pub struct Nuclei {
    pub roll: Vec<u8>,
    pub pair: [Centre; 2],
    /// As the question says it. Out of range it has an empty list beside it.
    pub count: u8,
    pub list: Vec<Centre>,
    pub aux: f64,
    pub boys: Vec<f64>,
}

impl Nuclei {
    /// The centres of an evaluation with one nucleus of the list.
    pub fn centres(&self, nucleus: &Centre) -> [Centre; 4] {
        let [a, b] = self.pair;
        [a, b, *nucleus, Centre::default()]
    }
}

/// A centre with a norm and a coefficient: part of a contracted function.
#[derive(Clone, Copy, Debug, Default, PartialEq)]
pub struct Primitive {
    pub centre: Centre,
    pub norm: f64,
    pub coefficient: f64,
}

/// Two contracted functions and the host's numbers.
#[derive(Clone, Debug, PartialEq)]
pub struct Contracted {
    pub roll: Vec<u8>,
    pub left: Counted,
    pub right: Counted,
    pub host: Vec<f64>,
}

/// A function's primitives with their count as the question says it. Out of range it has none
/// beside it.
#[derive(Clone, Debug, PartialEq)]
pub struct Counted {
    pub count: u8,
    pub list: Vec<Primitive>,
}

impl Contracted {
    /// The pairs of primitives, the right function outer.
    pub fn pairs(&self) -> impl Iterator<Item = (&Primitive, &Primitive)> {
        let of = move |right| self.left.list.iter().map(move |left| (left, right));
        self.right.list.iter().flat_map(of)
    }

    /// The centres of each pair's evaluation.
    pub fn centres(&self) -> impl Iterator<Item = [Centre; 4]> + '_ {
        let unused = Centre::default();
        self.pairs()
            .map(move |(left, right)| [left.centre, right.centre, unused, unused])
    }
}

/// The sizes of J and K's inputs and outputs, said apart from the floats.
#[derive(Clone, Copy, Debug, PartialEq)]
pub struct Lengths {
    pub i: usize,
    pub d: usize,
    pub j: usize,
    pub k: usize,
}

#[derive(Clone, Debug, PartialEq)]
pub enum Question {
    Expand {
        form: Form,
        kind: u8,
        orders: [u8; 12],
        buffer: usize,
        start: u64,
    },
    Measure {
        kind: u8,
        orders: [u8; 12],
    },
    Total {
        kind: u8,
        orders: [u8; 12],
    },
    Shell {
        m: u8,
        buffer: usize,
        start: u64,
    },
    Component {
        shells: Vec<u8>,
        number: u32,
    },
    List(Vec<u8>),
    Open(Form, Vec<u8>),
    Check(Form, Vec<u8>),
    Scales(Vec<u8>),
    Next {
        form: Form,
        cursor: Cursor,
        before: Vec<u8>,
        roll: Vec<u8>,
    },
    Move {
        to: Form,
        roll: Vec<u8>,
        buffer: usize,
        start: u64,
    },
    Salvage {
        roll: Vec<u8>,
        buffer: usize,
        start: u64,
    },
    Compare {
        left: Vec<u8>,
        right: Vec<u8>,
    },
    Small(Vec<u8>),
    SmallExpand {
        kind: u8,
        orders: [u8; 12],
        buffer: usize,
        start: u64,
    },
    Confirm(Vec<u8>),
    Export {
        roll: Vec<u8>,
        buffer: usize,
        start: u64,
    },
    Import {
        text: Vec<u8>,
        buffer: usize,
        start: u64,
    },
    Eval(Evaluation),
    Grouped {
        buffer: usize,
        evaluation: Evaluation,
    },
    Nuclei(Nuclei),
    Contracted(Contracted),
    Root(f64),
    Table(u8, [Centre; 4]),
    JK {
        n: u64,
        lengths: Lengths,
        i: Vec<f64>,
        d: Vec<f64>,
    },
}

pub enum Line {
    /// Empty or a comment: answered by itself.
    Same,
    Asks(Question),
    Malformed,
}

pub fn line(bytes: &[u8]) -> Line {
    if bytes.len() > LONGEST_LINE {
        return Line::Malformed;
    }
    if bytes.is_empty() || bytes[0] == b'#' {
        return Line::Same;
    }
    match question(bytes) {
        Some(question) => Line::Asks(question),
        None => Line::Malformed,
    }
}

/// Words between single blanks. An empty word comes out where blanks are doubled, and is
/// then refused by whatever reads it.
struct Words<'a>(Option<&'a [u8]>);

impl<'a> Words<'a> {
    fn next(&mut self) -> Option<&'a [u8]> {
        let rest = self.0?;
        match rest.iter().position(|&b| b == b' ') {
            Some(at) => {
                self.0 = Some(&rest[at + 1..]);
                Some(&rest[..at])
            }
            None => {
                self.0 = None;
                Some(rest)
            }
        }
    }

    fn more(&self) -> bool {
        self.0.is_some()
    }

    /// A whole number of at most `most`.
    fn number(&mut self, most: u64) -> Option<u64> {
        whole(self.next()?).filter(|&n| n <= most)
    }

    fn byte(&mut self) -> Option<u8> {
        self.number(255).map(|n| n as u8)
    }

    fn float(&mut self) -> Option<f64> {
        float(self.next()?)
    }

    fn floats(&mut self, count: usize) -> Option<Vec<f64>> {
        (0..count).map(|_| self.float()).collect()
    }

    /// All that are left.
    fn boys(&mut self) -> Option<Vec<f64>> {
        let mut boys = Vec::new();
        while self.more() {
            if boys.len() == MOST_BOYS {
                return None;
            }
            boys.push(self.float()?);
        }
        Some(boys)
    }

    fn roll(&mut self) -> Option<Vec<u8>> {
        roll(self.next()?)
    }

    /// x y z exponent charge.
    fn centre(&mut self) -> Option<Centre> {
        Some(Centre {
            r: [self.float()?, self.float()?, self.float()?],
            z: self.float()?,
            charge: self.number(u32::MAX.into())? as u32,
        })
    }

    /// A centre, norm and coefficient.
    fn primitive(&mut self) -> Option<Primitive> {
        Some(Primitive {
            centre: self.centre()?,
            norm: self.float()?,
            coefficient: self.float()?,
        })
    }

    fn centres(&mut self) -> Option<[Centre; 4]> {
        let mut centres = [Centre::default(); 4];
        for centre in centres.iter_mut() {
            *centre = self.centre()?;
        }
        Some(centres)
    }

    /// KIND o1 .. o12.
    fn request(&mut self) -> Option<(u8, [u8; 12])> {
        let kind = self.byte()?;
        let mut orders = [0; 12];
        for order in orders.iter_mut() {
            *order = self.byte()?;
        }
        Some((kind, orders))
    }

    /// BUFFER START, or what the short form lends.
    fn room(&mut self) -> Option<(usize, u64)> {
        self.room_up_to(LARGEST_BUFFER)
    }

    fn room_up_to(&mut self, largest: usize) -> Option<(usize, u64)> {
        if !self.more() {
            return Some((largest, 0));
        }
        let buffer = self.number(largest as u64)? as usize;
        Some((buffer, self.number(u64::MAX)?))
    }
}

fn question(bytes: &[u8]) -> Option<Question> {
    let mut words = Words(Some(bytes));
    let question = match words.next()? {
        b"expand" => expand(&mut words, Form::One)?,
        b"expand2" => expand(&mut words, Form::Two)?,
        b"measure" => {
            let (kind, orders) = words.request()?;
            Question::Measure { kind, orders }
        }
        b"total" => {
            let (kind, orders) = words.request()?;
            Question::Total { kind, orders }
        }
        b"shell" => {
            let m = words.byte()?;
            let (buffer, start) = words.room()?;
            Question::Shell { m, buffer, start }
        }
        b"component" => component(&mut words)?,
        b"list" => Question::List(words.roll()?),
        b"open" => Question::Open(Form::One, words.roll()?),
        b"open2" => Question::Open(Form::Two, words.roll()?),
        b"check" => Question::Check(Form::One, words.roll()?),
        b"check2" => Question::Check(Form::Two, words.roll()?),
        b"scales" => Question::Scales(words.roll()?),
        b"next" => next(&mut words, Form::One)?,
        b"next2" => next(&mut words, Form::Two)?,
        b"form1" => moved(&mut words, Form::One)?,
        b"form2" => moved(&mut words, Form::Two)?,
        b"salvage" => {
            let roll = words.roll()?;
            let (buffer, start) = words.room()?;
            Question::Salvage {
                roll,
                buffer,
                start,
            }
        }
        b"compare" => Question::Compare {
            left: words.roll()?,
            right: words.roll()?,
        },
        b"small" => Question::Small(words.roll()?),
        b"small-expand" => {
            let (kind, orders) = words.request()?;
            let (buffer, start) = words.room()?;
            Question::SmallExpand {
                kind,
                orders,
                buffer,
                start,
            }
        }
        b"confirm" => Question::Confirm(words.roll()?),
        b"export" => {
            let roll = words.roll()?;
            let (buffer, start) = words.room_up_to(LARGEST_EXPORT)?;
            Question::Export {
                roll,
                buffer,
                start,
            }
        }
        b"import" => {
            let text = words.roll()?;
            let (buffer, start) = words.room()?;
            Question::Import {
                text,
                buffer,
                start,
            }
        }
        b"eval" => Question::Eval(evaluation(&mut words)?),
        b"grouped" => Question::Grouped {
            buffer: words.number(LARGEST_GROUPING as u64)? as usize,
            evaluation: evaluation(&mut words)?,
        },
        b"nuclei" => Question::Nuclei(nuclei(&mut words)?),
        b"contracted" => Question::Contracted(contracted(&mut words)?),
        b"root" => Question::Root(words.float()?),
        b"table" => Question::Table(words.byte()?, words.centres()?),
        b"jk" => jk(&mut words)?,
        b"jkl" => jkl(&mut words)?,
        _ => return None,
    };
    if words.more() {
        return None;
    }
    Some(question)
}

fn expand(words: &mut Words, form: Form) -> Option<Question> {
    let (kind, orders) = words.request()?;
    let (buffer, start) = words.room()?;
    Some(Question::Expand {
        form,
        kind,
        orders,
        buffer,
        start,
    })
}

fn next(words: &mut Words, form: Form) -> Option<Question> {
    let cursor = Cursor {
        kind: words.byte()?,
        l: words.byte()?,
        left: words.number(u32::MAX.into())? as u32,
        place: words.number(u64::MAX)?,
    };
    let before = match form {
        Form::One => Vec::new(),
        Form::Two => before(words)?,
    };
    Some(Question::Next {
        form,
        cursor,
        before,
        roll: words.roll()?,
    })
}

/// The prefactors of the term before, up to a slash.
fn before(words: &mut Words) -> Option<Vec<u8>> {
    let mut before = Vec::new();
    loop {
        match words.next()? {
            b"/" => return Some(before),
            _ if before.len() == MOST_BEFORE => return None,
            word => before.push(whole(word).filter(|&n| n <= 255)? as u8),
        }
    }
}

fn moved(words: &mut Words, to: Form) -> Option<Question> {
    let roll = words.roll()?;
    let (buffer, start) = words.room()?;
    Some(Question::Move {
        to,
        roll,
        buffer,
        start,
    })
}

/// Two shells or four, then the number: told apart by how many words there are.
fn component(words: &mut Words) -> Option<Question> {
    let mut numbers = Vec::new();
    while words.more() {
        if numbers.len() == 5 {
            return None;
        }
        numbers.push(words.number(u32::MAX.into())?);
    }
    let number = numbers.pop()? as u32;
    if numbers.len() != 2 && numbers.len() != 4 || numbers.iter().any(|&m| m > 255) {
        return None;
    }
    let shells = numbers.iter().map(|&m| m as u8).collect();
    Some(Question::Component { shells, number })
}

fn evaluation(words: &mut Words) -> Option<Evaluation> {
    Some(Evaluation {
        roll: words.roll()?,
        centres: Box::new(words.centres()?),
        aux: words.float()?,
        boys: words.boys()?,
    })
}

/// The list of nuclei is as long as its count says; where that is out of range there is none.
fn nuclei(words: &mut Words) -> Option<Nuclei> {
    let roll = words.roll()?;
    let pair = [words.centre()?, words.centre()?];
    let count = words.byte()?;
    let follow = if count <= MOST_LISTED { count } else { 0 };
    let list: Option<_> = (0..follow).map(|_| words.centre()).collect();
    Some(Nuclei {
        roll,
        pair,
        count,
        list: list?,
        aux: words.float()?,
        boys: words.boys()?,
    })
}

fn contracted(words: &mut Words) -> Option<Contracted> {
    let roll = words.roll()?;
    let (left, right) = (counted(words)?, counted(words)?);
    let host = words.number(MOST_HOST)?;
    Some(Contracted {
        roll,
        left,
        right,
        host: words.floats(host as usize)?,
    })
}

/// As many primitives as their count says; where that is out of range there is none.
fn counted(words: &mut Words) -> Option<Counted> {
    let count = words.byte()?;
    let follow = if count <= MOST_PRIMITIVES { count } else { 0 };
    let list: Option<_> = (0..follow).map(|_| words.primitive()).collect();
    Some(Counted { count, list: list? })
}

/// The lengths are those that n asks for; where n is out of range there are no floats.
fn jk(words: &mut Words) -> Option<Question> {
    let n = words.number(u64::MAX)?;
    let size = if (1..=16).contains(&n) { n as usize } else { 0 };
    let (matrix, tensor) = (size * size, size * size * size * size);
    let lengths = Lengths {
        i: tensor,
        d: matrix,
        j: matrix,
        k: matrix,
    };
    let (i, d) = (words.floats(tensor)?, words.floats(matrix)?);
    Some(Question::JK { n, lengths, i, d })
}

fn jkl(words: &mut Words) -> Option<Question> {
    let n = words.number(u64::MAX)?;
    let lengths = Lengths {
        i: words.number(65_537)? as usize,
        d: words.number(1_024)? as usize,
        j: words.number(1_024)? as usize,
        k: words.number(1_024)? as usize,
    };
    let (i, d) = (words.floats(lengths.i)?, words.floats(lengths.d)?);
    Some(Question::JK { n, lengths, i, d })
}

/// Decimal, no sign, no leading zero, below 2^64.
fn whole(word: &[u8]) -> Option<u64> {
    if word.is_empty() || word.len() > 1 && word[0] == b'0' {
        return None;
    }
    let mut number: u64 = 0;
    for &digit in word {
        if !digit.is_ascii_digit() {
            return None;
        }
        number = number
            .checked_mul(10)?
            .checked_add(u64::from(digit - b'0'))?;
    }
    Some(number)
}

fn digit(byte: u8) -> Option<u8> {
    match byte {
        b'0'..=b'9' => Some(byte - b'0'),
        b'a'..=b'f' => Some(byte - b'a' + 10),
        _ => None,
    }
}

/// The bits in 1 to 16 lower case hexadecimal digits.
fn float(word: &[u8]) -> Option<f64> {
    if word.is_empty() || word.len() > 16 {
        return None;
    }
    let mut bits = 0;
    for &byte in word {
        bits = bits << 4 | u64::from(digit(byte)?);
    }
    Some(f64::from_bits(bits))
}

/// Two lower case hexadecimal digits a byte, `-` for none.
fn roll(word: &[u8]) -> Option<Vec<u8>> {
    if word == b"-" {
        return Some(Vec::new());
    }
    if word.is_empty() || word.len() % 2 == 1 {
        return None;
    }
    word.chunks(2)
        .map(|two| Some(digit(two[0])? << 4 | digit(two[1])?))
        .collect()
}

/// The other way round: bytes as hexadecimal, `-` for none.
pub fn write_roll(out: &mut Vec<u8>, bytes: &[u8]) {
    if bytes.is_empty() {
        out.push(b'-');
    }
    write_hex(out, bytes);
}

/// Two digits a byte.
pub fn write_hex(out: &mut Vec<u8>, bytes: &[u8]) {
    const DIGITS: &[u8; 16] = b"0123456789abcdef";
    out.reserve(2 * bytes.len());
    for &byte in bytes {
        out.push(DIGITS[usize::from(byte >> 4)]);
        out.push(DIGITS[usize::from(byte & 15)]);
    }
}

/// The 16 digits of a float's bits.
pub fn write_float(out: &mut Vec<u8>, float: f64) {
    write_hex(out, &float.to_bits().to_be_bytes());
}
