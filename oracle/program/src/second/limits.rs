//! The limits: those that go by kind, and those that Q-6 raised, as they are and as they were.

/// What Q-6 raised.
#[derive(Clone, Copy, Debug, PartialEq)]
pub struct Limits {
    /// Of the orders on a centre and on the operator; a shell's order too.
    pub order_sum: u8,
    pub terms: u32,
    pub scale: u32,
}

/// The limits of 02.
pub const NOW: Limits = Limits {
    order_sum: 6,
    terms: 1_048_575,
    scale: 2_176_782_336,
};

/// The limits of 01, which a cabinet from before Q-6 has.
pub const BEFORE: Limits = Limits {
    order_sum: 4,
    terms: 65_535,
    scale: 65_536,
};

impl Limits {
    /// The sum of all orders that a kind uses. Kinds here and below are 0 to 4.
    pub fn l(&self, kind: u8) -> u8 {
        self.order_sum * (orders_used(kind) / 3) as u8
    }
}

pub const LONGEST_LISTED: usize = 65_536;
pub const LARGEST_MATRIX: u64 = 16;
/// The small cabinet's kinds, and its limit of the orders on a centre.
pub const PROFILE_KINDS: [u8; 2] = [0, 4];
pub const PROFILE_ORDER_SUM: u8 = 1;
/// Of a nucleus.
pub const LARGEST_CHARGE: u32 = 118;
pub const MOST_NUCLEI: u8 = 32;
/// Of a contracted function.
pub const MOST_PRIMITIVES: u8 = 10;

/// How many of the twelve orders a kind uses.
pub fn orders_used(kind: u8) -> usize {
    [6, 6, 6, 9, 12][usize::from(kind)]
}

pub fn table_size(kind: u8) -> usize {
    [8, 11, 11, 12, 23][usize::from(kind)]
}

pub fn most_prefactors(kind: u8, l: u32) -> u32 {
    if kind == 1 {
        l + 1
    } else {
        l
    }
}

pub fn most_boys(kind: u8, l: u32) -> u32 {
    if kind == 2 || kind == 4 {
        l
    } else {
        0
    }
}
