//! The float mode: each that is not the library's is noticed, and the usual one is not.
use std::{arch::asm, ptr::addr_of};
use xewumbal::*;

/// The register in the usual mode: round to nearest, subnormals kept, all six traps off.
const USUAL: u32 = 0x1f80;

/// What is said with some bits of the register the other way round.
fn with(bits: u32) -> Result<(), OtherMode> {
    let (other, usual) = (USUAL ^ bits, USUAL);
    unsafe { asm!("ldmxcsr [{}]", in(reg) addr_of!(other)) };
    let told = float_mode();
    unsafe { asm!("ldmxcsr [{}]", in(reg) addr_of!(usual)) };
    told
}

#[test]
fn the_usual_mode_is_not_noticed() {
    assert_eq!(float_mode(), Ok(()));
    assert_eq!(with(0), Ok(()));
    assert_eq!(with(0x3f), Ok(())); // flags of earlier results
}

#[test]
fn each_other_mode_is_noticed() {
    let none = OtherMode { rounding: false, flushes: false, zeroes: false, traps: false };
    for rounding in [0x2000, 0x4000, 0x6000] {
        assert_eq!(with(rounding), Err(OtherMode { rounding: true, ..none }));
    }
    assert_eq!(with(0x8000), Err(OtherMode { flushes: true, ..none }));
    assert_eq!(with(0x40), Err(OtherMode { zeroes: true, ..none }));
    for trap in [0x80, 0x100, 0x200, 0x400, 0x800, 0x1000] {
        assert_eq!(with(trap), Err(OtherMode { traps: true, ..none }));
    }
    assert_eq!(with(0xe0c0), Err(OtherMode { rounding: true, flushes: true, zeroes: true, traps: true }));
}

#[test]
fn another_mode_says_what_it_is() {
    let said = with(0x8040).unwrap_err().to_string();
    assert_eq!(
        said,
        "another float mode than the library needs: subnormal results become 0; subnormal operands are taken for 0;"
    );
}
