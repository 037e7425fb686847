//! The float mode that the library needs, as include/xewumbal.h says: round to nearest, subnormals kept, traps off.
use crate::raw;
use core::fmt;

/// What is otherwise in the float mode of a thread. The library's promises about floats do not hold there.
#[derive(Clone, Copy, Debug, PartialEq, Eq)]
#[must_use]
pub struct OtherMode {
    /// Another rounding direction than to nearest.
    pub rounding: bool,
    /// Subnormal results become 0 (flush-to-zero).
    pub flushes: bool,
    /// Subnormal operands are taken for 0 (denormals-are-zero).
    pub zeroes: bool,
    /// A floating-point trap is on.
    pub traps: bool,
}

/// Whether the calling thread has the float mode that the library needs. A program starts so, unless it is linked with
/// `-ffast-math` or the like, or loads a library that changes the mode.
pub fn float_mode() -> Result<(), OtherMode> {
    let mode = raw::float_mode();
    let is = |what: u8| mode & what != 0;
    if mode == 0 {
        return Ok(());
    }
    Err(OtherMode {
        rounding: is(raw::MODE_ROUNDING),
        flushes: is(raw::MODE_FLUSHES),
        zeroes: is(raw::MODE_ZEROES),
        traps: is(raw::MODE_TRAPS),
    })
}

impl fmt::Display for OtherMode {
    fn fmt(&self, out: &mut fmt::Formatter) -> fmt::Result {
        out.write_str("another float mode than the library needs:")?;
        let parts = [
            (self.rounding, " not rounding to nearest;"),
            (self.flushes, " subnormal results become 0;"),
            (self.zeroes, " subnormal operands are taken for 0;"),
            (self.traps, " a floating-point trap is on;"),
        ];
        parts.iter().filter(|part| part.0).try_for_each(|part| out.write_str(part.1))
    }
}

#[cfg(feature = "std")]
impl std::error::Error for OtherMode {}
