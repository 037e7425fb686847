//! The refusals, by the numbers and words of documents 01 and 02 (D-86).
use core::fmt;

/// Why a call refused. Nothing that was lent has changed then, but for the grouping that `evaluate_grouped` leaves.
#[derive(Clone, Copy, Debug, PartialEq, Eq)]
pub enum Refusal {
    Kind,
    OrderSum,
    UnusedOrder,
    TooManyTerms,
    StartBeyondEnd,
    NoRoom,
    /// The place in the roll of the number that is wrong, or of the first byte too many.
    BadRoll {
        place: usize,
    },
    InputNotFinite,
    Exponent,
    BoysCount,
    ResultNotFinite,
    MatrixSize,
    ComponentNumber,
    /// The place in the roll of the number that is missing or cut.
    CutRoll {
        place: usize,
    },
    PrimitiveCount,
    HostCount,
    Nuclei,
    BelowZero,
    OutsideProfile,
    /// The place in the roll of the first byte that differs from the expansion.
    NotTheExpansion {
        place: usize,
    },
    /// The line of the text, counted from 1.
    LineShape {
        line: u64,
    },
    /// The line of the text, counted from 1.
    LineNumbers {
        line: u64,
    },
}

impl Refusal {
    /// Its number in document 01 or 02.
    pub const fn number(self) -> u8 {
        self.both().0
    }

    /// Its words there.
    pub const fn words(self) -> &'static str {
        self.both().1
    }

    const fn both(self) -> (u8, &'static str) {
        match self {
            Refusal::Kind => (1, "kind above 4, or a roll of another kind than the call takes"),
            Refusal::OrderSum => (2, "an order sum the kind uses, or a shell's order, above 6"),
            Refusal::UnusedOrder => (3, "one of the twelve orders unused by the kind is not 0"),
            Refusal::TooManyTerms => (4, "more than 1,048,575 complete histories"),
            Refusal::StartBeyondEnd => (5, "start place beyond the buffer's end"),
            Refusal::NoRoom => {
                (6, "the whole output doesn't fit from the start place, or the listing's input is over 65,536 bytes")
            }
            Refusal::BadRoll { .. } => (7, "roll breaks a rule below; carries the place"),
            Refusal::InputNotFinite => (8, "a used input float is not finite"),
            Refusal::Exponent => (9, "a used exponent is 0 or less"),
            Refusal::BoysCount => {
                (10, "Boys numbers are not exactly L+1 (kinds 2, 4; for each nucleus of a list) or 0 (others)")
            }
            Refusal::ResultNotFinite => (11, "a geometry number, table entry or result is not finite"),
            Refusal::MatrixSize => (12, "matrix size out of range, or a slice length wrong for it"),
            Refusal::ComponentNumber => (13, "component number not below the count"),
            Refusal::CutRoll { .. } => (14, "the roll ends before a number does; carries the place"),
            Refusal::PrimitiveCount => (15, "primitive count outside 1 to 10"),
            Refusal::HostCount => (16, "host list length wrong for the primitives"),
            Refusal::Nuclei => (17, "charge above 118, or nucleus count outside 1 to 32"),
            Refusal::BelowZero => (18, "root of a number below 0"),
            Refusal::OutsideProfile => (19, "kind, form or order outside the profile"),
            Refusal::NotTheExpansion { .. } => {
                (20, "roll is not the expansion; carries the place of the first differing byte")
            }
            Refusal::LineShape { .. } => (21, "line not of the shape; carries the line"),
            Refusal::LineNumbers { .. } => (22, "number or count that doesn't match; carries the line"),
        }
    }

    /// The refusal of an answer: none for 0.
    pub(crate) fn of(number: u8, place: usize) -> Option<Refusal> {
        Some(match number {
            0 => return None,
            1 => Refusal::Kind,
            2 => Refusal::OrderSum,
            3 => Refusal::UnusedOrder,
            4 => Refusal::TooManyTerms,
            5 => Refusal::StartBeyondEnd,
            6 => Refusal::NoRoom,
            7 => Refusal::BadRoll { place },
            8 => Refusal::InputNotFinite,
            9 => Refusal::Exponent,
            10 => Refusal::BoysCount,
            11 => Refusal::ResultNotFinite,
            12 => Refusal::MatrixSize,
            13 => Refusal::ComponentNumber,
            14 => Refusal::CutRoll { place },
            15 => Refusal::PrimitiveCount,
            16 => Refusal::HostCount,
            17 => Refusal::Nuclei,
            18 => Refusal::BelowZero,
            19 => Refusal::OutsideProfile,
            20 => Refusal::NotTheExpansion { place },
            _ => panic!("libxewumbal.a is not of this binding's version: refusal {number}"),
        })
    }

    /// The refusal of an answer that has a line in place of a place.
    pub(crate) fn at_line(number: u8, line: u64) -> Option<Refusal> {
        match number {
            21 => Some(Refusal::LineShape { line }),
            22 => Some(Refusal::LineNumbers { line }),
            _ => Refusal::of(number, 0),
        }
    }
}

impl fmt::Display for Refusal {
    fn fmt(&self, out: &mut fmt::Formatter) -> fmt::Result {
        out.pad(self.words())
    }
}

#[cfg(feature = "std")]
impl std::error::Error for Refusal {}
