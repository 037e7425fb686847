//! The two forms of a roll. They differ in the first number, and in that a term of form 2 leaves
//! out the beginning that its prefactors share with those of the term before.

#[derive(Clone, Copy, Debug, PartialEq)]
pub enum Form {
    One,
    Two,
}

impl Form {
    /// What the first number adds to the kind.
    pub fn added(self) -> u8 {
        match self {
            Form::One => 0,
            Form::Two => 16,
        }
    }

    /// The form whose reader judges a roll that may be of either. A first byte that begins neither
    /// is left to the reader of form 1, which refuses it at 0 as that of form 2 does.
    pub fn of(roll: &[u8]) -> Form {
        match roll.first() {
            Some(16..=20) => Form::Two,
            _ => Form::One,
        }
    }

    pub fn other(self) -> Form {
        match self {
            Form::One => Form::Two,
            Form::Two => Form::One,
        }
    }
}

/// The length of the longest beginning that a term's prefactors share with those before.
pub fn shared_length(before: &[u8], prefactors: &[u8]) -> usize {
    let pairs = before.iter().zip(prefactors);
    pairs.take_while(|(x, y)| x == y).count()
}
