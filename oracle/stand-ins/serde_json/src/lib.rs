//! Stand-in: just enough for basis.rs to compile. Nothing here is ever called.

#[derive(Debug)]
pub struct Error;

pub fn from_str<T>(_text: &str) -> Result<T, Error> {
    unreachable!("the stand-in reads nothing")
}
