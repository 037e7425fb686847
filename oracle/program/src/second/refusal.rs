//! A refusal: its number and its place.

/// A refusal's number, and the place that 7, 14 and 20 carry, or the line that 21 and 22 carry.
#[derive(Clone, Copy, Debug, PartialEq)]
pub struct Refusal {
    pub number: u8,
    pub place: u64,
}

/// A refusal without a place.
pub fn refusal(number: u8) -> Refusal {
    Refusal { number, place: 0 }
}

/// 7: a rule of the roll is broken.
pub fn fault(place: usize) -> Refusal {
    Refusal {
        number: 7,
        place: place as u64,
    }
}

/// 14: the roll ends before a number does.
pub fn cut(place: usize) -> Refusal {
    Refusal {
        number: 14,
        place: place as u64,
    }
}

/// 20: the roll is not the expansion, which this byte tells first.
pub fn other_expansion(place: usize) -> Refusal {
    Refusal {
        number: 20,
        place: place as u64,
    }
}

/// 21: a line, counted from 1, is not of the shape.
pub fn misshapen(line: usize) -> Refusal {
    Refusal {
        number: 21,
        place: line as u64,
    }
}

/// 22: a line, counted from 1, has a number outside its limit or a count that doesn't match, or is missing.
pub fn mismatched(line: usize) -> Refusal {
    Refusal {
        number: 22,
        place: line as u64,
    }
}

impl Refusal {
    pub fn carries_line(self) -> bool {
        matches!(self.number, 21 | 22)
    }

    pub fn carries_place(self) -> bool {
        matches!(self.number, 7 | 14 | 20)
    }
}
