//! Stand-in: just enough for basis.rs to compile. Nothing here is ever called.

pub use serde_derive::Deserialize;

pub trait Deserializer<'de>: Sized {
    type Error;
}

pub trait Deserialize<'de>: Sized {
    fn deserialize<D: Deserializer<'de>>(deserializer: D) -> Result<Self, D::Error>;
}

impl<'de, T> Deserialize<'de> for Vec<T> {
    fn deserialize<D: Deserializer<'de>>(_deserializer: D) -> Result<Self, D::Error> {
        unreachable!("the stand-in reads nothing")
    }
}
