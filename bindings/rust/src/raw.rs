//! The structs and functions of include/xewumbal.h, and every `unsafe` of the crate: each function here lends slices as
//! a pointer and a length, and the library reads and writes within them, during the call alone.
use crate::{MOST_NUCLEI, MOST_PRIMITIVES, ORDERS, PREFACTORS, TABLE};
#[cfg(target_arch = "x86_64")]
use core::arch::asm;
use core::mem::size_of;
#[cfg(target_arch = "x86_64")]
use core::ptr::addr_of_mut;

/// What `found` of a step says.
pub const FOUND_REFUSED: u8 = 0;
pub const FOUND_TERM: u8 = 1;
pub const FOUND_END: u8 = 2;
/// What `found` of a position of two rolls says.
pub const MET_REFUSED: u8 = 0;
pub const MET_BOTH: u8 = 1;
pub const MET_LEFT: u8 = 2;
pub const MET_RIGHT: u8 = 3;
pub const MET_END: u8 = 4;
/// Which of two rolls is refused.
pub const SIDE_LEFT: u8 = 1;
pub const SIDE_RIGHT: u8 = 2;
/// What follows the last term of a roll that was salvaged.
pub const AFTER_UNKNOWN: u8 = 0;
pub const AFTER_NONE: u8 = 1;
pub const AFTER_BYTES: u8 = 2;

/// What is otherwise in a float mode.
pub const MODE_ROUNDING: u8 = 1;
pub const MODE_FLUSHES: u8 = 2;
pub const MODE_ZEROES: u8 = 4;
pub const MODE_TRAPS: u8 = 8;

/// A centre: three coordinates, an exponent and a charge. Kinds 0 and 1 use A and B; 2 and 3 also C's coordinates; 4 uses A to
/// D. Unused floats are not looked at, and only a nucleus' charge is, C's in kind 2.
#[repr(C)]
#[derive(Clone, Copy, Debug, Default, PartialEq)]
pub struct Centre {
    pub x: f64,
    pub y: f64,
    pub z: f64,
    pub exponent: f64,
    pub charge: u32,
}

/// A list of nuclei: its first `count` centres. What lies beyond the count, and a nucleus' exponent, is not looked at.
#[repr(C)]
#[derive(Clone, Copy, Debug, Default, PartialEq)]
pub struct Nuclei {
    pub centres: [Centre; MOST_NUCLEI],
    pub count: u32,
}

/// A primitive of a contracted function: its centre with the exponent, its norm and its coefficient. The charge is not looked at.
#[repr(C)]
#[derive(Clone, Copy, Debug, Default, PartialEq)]
pub struct Primitive {
    pub centre: Centre,
    pub norm: f64,
    pub coefficient: f64,
}

/// A contracted function: its first `count` primitives. What lies beyond the count is not looked at.
#[repr(C)]
#[derive(Clone, Copy, Debug, Default, PartialEq)]
pub struct Contraction {
    pub primitives: [Primitive; MOST_PRIMITIVES],
    pub count: u32,
}

/// Where a reader of a roll stands: the place of the next term, the terms left, the roll's kind and its L. `open` and
/// `check` give one; one that was made up is answered too.
#[repr(C)]
#[derive(Clone, Copy, Debug, Default, PartialEq, Eq)]
pub struct Cursor {
    pub place: usize,
    pub left: u32,
    pub kind: u8,
    pub l: u8,
}

#[repr(C)]
pub struct Written {
    pub length: usize,
    pub terms: u32,
    pub refusal: u8,
}

#[repr(C)]
pub struct Value {
    pub value: f64,
    pub place: usize,
    pub refusal: u8,
}

#[repr(C)]
pub struct Rooted {
    pub root: f64,
    pub refusal: u8,
}

#[repr(C)]
pub struct Component {
    pub orders: [u8; ORDERS],
    pub refusal: u8,
}

#[repr(C)]
pub struct Table {
    pub entries: [f64; TABLE],
    pub refusal: u8,
}

#[repr(C)]
pub struct Opened {
    pub cursor: Cursor,
    pub place: usize,
    pub orders: [u8; ORDERS],
    pub refusal: u8,
}

#[repr(C)]
pub struct Step {
    pub next: Cursor,
    pub place: usize,
    pub scale: u32,
    pub boys: u8,
    pub count: u8,
    pub prefactors: [u8; PREFACTORS],
    pub found: u8,
    pub refusal: u8,
}

/// Where a reader of a form 2 roll stands: a cursor, whose kind is told without the 16, and the prefactors of the term
/// before in the first `count` places of `earlier`. `open2` and `check2` give one; one that was made up is answered too.
#[repr(C)]
#[derive(Clone, Copy, Debug, Default, PartialEq, Eq)]
pub struct Cursor2 {
    pub cursor: Cursor,
    pub count: u8,
    pub earlier: [u8; PREFACTORS],
}

#[repr(C)]
pub struct Opened2 {
    pub cursor: Cursor2,
    pub place: usize,
    pub orders: [u8; ORDERS],
    pub refusal: u8,
}

#[repr(C)]
pub struct Step2 {
    pub next: Cursor2,
    pub place: usize,
    pub scale: u32,
    pub boys: u8,
    pub count: u8,
    pub prefactors: [u8; PREFACTORS],
    pub found: u8,
    pub refusal: u8,
}

#[repr(C)]
pub struct Restored {
    pub place: usize,
    pub scale: u32,
    pub boys: u8,
    pub count: u8,
    pub prefactors: [u8; PREFACTORS],
    pub refusal: u8,
}

#[repr(C)]
pub struct Moved {
    pub length: usize,
    pub place: usize,
    pub terms: u32,
    pub refusal: u8,
}

#[repr(C)]
pub struct Salvaged {
    pub length: usize,
    pub place: usize,
    pub terms: u32,
    pub kept: u32,
    pub anew: u32,
    pub miscounted: u8,
    pub after: u8,
    pub refusal: u8,
}

#[repr(C)]
pub struct Text {
    pub length: usize,
    pub place: usize,
    pub refusal: u8,
}

#[repr(C)]
pub struct Imported {
    pub length: usize,
    pub line: u64,
    pub terms: u32,
    pub refusal: u8,
}

/// Where both readers of a comparison stand, and the number of the position, counted from 1. `compare` gives one; one that was
/// made up is answered too.
#[repr(C)]
#[derive(Clone, Copy, Debug, Default, PartialEq, Eq)]
pub struct Pair {
    pub left: Cursor2,
    pub right: Cursor2,
    pub number: u32,
}

#[repr(C)]
pub struct Compared {
    pub cursor: Pair,
    pub place: usize,
    pub differ: u32,
    pub left: [u8; ORDERS],
    pub right: [u8; ORDERS],
    pub kinds: u8,
    pub orders: u8,
    pub terms: u8,
    pub side: u8,
    pub refusal: u8,
}

#[repr(C)]
pub struct Term {
    pub scale: u32,
    pub boys: u8,
    pub count: u8,
    pub prefactors: [u8; PREFACTORS],
}

#[repr(C)]
pub struct Met {
    pub next: Pair,
    pub place: usize,
    pub number: u32,
    pub left: Term,
    pub right: Term,
    pub found: u8,
    pub side: u8,
    pub refusal: u8,
}

#[repr(C)]
pub struct Total {
    pub total: u64,
    pub claimed: u8,
    pub refusal: u8,
}

#[repr(C)]
pub struct Scales {
    pub total: u64,
    pub place: usize,
    pub refusal: u8,
}

// The sizes that a C compiler gives the structs.
const _: () = assert!(size_of::<Centre>() == 40 && size_of::<Nuclei>() == 1288 && size_of::<Cursor>() == 16);
const _: () = assert!(size_of::<Rooted>() == 16);
const _: () = assert!(size_of::<Primitive>() == 56 && size_of::<Contraction>() == 568);
const _: () = assert!(size_of::<Written>() == 16 && size_of::<Value>() == 24);
const _: () = assert!(size_of::<Component>() == 13 && size_of::<Table>() == 192);
const _: () = assert!(size_of::<Opened>() == 40 && size_of::<Step>() == 56);
const _: () = assert!(size_of::<Cursor2>() == 48 && size_of::<Opened2>() == 72);
const _: () = assert!(size_of::<Step2>() == 88 && size_of::<Moved>() == 24);
const _: () = assert!(size_of::<Total>() == 16 && size_of::<Scales>() == 24);
const _: () = assert!(size_of::<Restored>() == 40 && size_of::<Salvaged>() == 32);
const _: () = assert!(size_of::<Text>() == 24 && size_of::<Imported>() == 24);
const _: () = assert!(size_of::<Pair>() == 104 && size_of::<Compared>() == 152);
const _: () = assert!(size_of::<Term>() == 32 && size_of::<Met>() == 184);

#[rustfmt::skip]
extern "C" {
    fn xew_version() -> u32;
    fn xew_expand(kind: u8, orders: *const [u8; ORDERS], out: *mut u8, out_len: usize, start: usize) -> Written;
    fn xew_measure(kind: u8, orders: *const [u8; ORDERS]) -> Written;
    fn xew_expand2(kind: u8, orders: *const [u8; ORDERS], out: *mut u8, out_len: usize, start: usize) -> Written;
    fn xew_shell_list(order: u8, out: *mut u8, out_len: usize, start: usize) -> Written;
    fn xew_shell2(a: u8, b: u8, number: u32) -> Component;
    fn xew_shell4(a: u8, b: u8, c: u8, d: u8, number: u32) -> Component;
    fn xew_open(roll: *const u8, roll_len: usize) -> Opened;
    fn xew_check(roll: *const u8, roll_len: usize) -> Opened;
    fn xew_next(cursor: Cursor, roll: *const u8, roll_len: usize) -> Step;
    fn xew_open2(roll: *const u8, roll_len: usize) -> Opened2;
    fn xew_check2(roll: *const u8, roll_len: usize) -> Opened2;
    fn xew_next2(cursor: Cursor2, roll: *const u8, roll_len: usize) -> Step2;
    fn xew_to_form2(roll: *const u8, roll_len: usize, out: *mut u8, out_len: usize, start: usize) -> Moved;
    fn xew_to_form1(roll: *const u8, roll_len: usize, out: *mut u8, out_len: usize, start: usize) -> Moved;
    fn xew_salvage(roll: *const u8, roll_len: usize, out: *mut u8, out_len: usize, start: usize) -> Salvaged;
    fn xew_confirm(roll: *const u8, roll_len: usize) -> Opened;
    fn xew_small_check(roll: *const u8, roll_len: usize) -> Opened;
    fn xew_small_expand(kind: u8, orders: *const [u8; ORDERS], out: *mut u8, out_len: usize, start: usize) -> Written;
    fn xew_export(roll: *const u8, roll_len: usize, out: *mut u8, out_len: usize, start: usize) -> Text;
    fn xew_import(text: *const u8, text_len: usize, out: *mut u8, out_len: usize, start: usize) -> Imported;
    fn xew_compare(left: *const u8, left_len: usize, right: *const u8, right_len: usize) -> Compared;
    fn xew_compare_next(cursor: Pair, left: *const u8, left_len: usize, right: *const u8, right_len: usize) -> Met;
    fn xew_scale_total(kind: u8, orders: *const [u8; ORDERS]) -> Total;
    fn xew_roll_total(roll: *const u8, roll_len: usize) -> Scales;
    fn xew_prefactors(kind: u8, a: Centre, b: Centre, c: Centre, d: Centre) -> Table;
    fn xew_root(x: f64) -> Rooted;
    fn xew_evaluate(roll: *const u8, roll_len: usize, a: Centre, b: Centre, c: Centre, d: Centre,
                    aux: f64, boys: *const f64, boys_len: usize) -> Value;
    fn xew_nuclear(roll: *const u8, roll_len: usize, a: Centre, b: Centre, nuclei: Nuclei,
                   aux: f64, boys: *const f64, boys_len: usize) -> Value;
    fn xew_contracted(roll: *const u8, roll_len: usize, left: Contraction, right: Contraction,
                      host: *const f64, host_len: usize) -> Value;
    fn xew_evaluate_grouped(roll: *const u8, roll_len: usize, a: Centre, b: Centre, c: Centre, d: Centre,
                            aux: f64, boys: *const f64, boys_len: usize, buffer: *mut u8, buffer_len: usize) -> Value;
    fn xew_grouped_term(grouping: *const u8, grouping_len: usize, l: u8, terms: u32, number: u32) -> Restored;
    fn xew_jk(n: usize, i: *const f64, i_len: usize, d: *const f64, d_len: usize,
              j: *mut f64, j_len: usize, k: *mut f64, k_len: usize) -> u8;
}

/// The version of the archive that is linked.
pub fn version() -> u32 {
    unsafe { xew_version() }
}

/// What is otherwise than the library needs in the float mode of the calling thread, as `xew_float_mode` of the header.
#[cfg(target_arch = "x86_64")]
pub fn float_mode() -> u8 {
    let mut mode = 0_u32;
    unsafe { asm!("stmxcsr [{}]", in(reg) addr_of_mut!(mode), options(nostack, preserves_flags)) };
    let other = |is: bool, what: u8| if is { what } else { 0 };
    other(mode & 0x6000 != 0, MODE_ROUNDING)
        | other(mode & 0x8000 != 0, MODE_FLUSHES)
        | other(mode & 0x40 != 0, MODE_ZEROES)
        | other(mode & 0x1f80 != 0x1f80, MODE_TRAPS)
}

pub fn expand(kind: u8, orders: &[u8; ORDERS], out: &mut [u8], start: usize) -> Written {
    unsafe { xew_expand(kind, orders, out.as_mut_ptr(), out.len(), start) }
}

pub fn measure(kind: u8, orders: &[u8; ORDERS]) -> Written {
    unsafe { xew_measure(kind, orders) }
}

pub fn expand2(kind: u8, orders: &[u8; ORDERS], out: &mut [u8], start: usize) -> Written {
    unsafe { xew_expand2(kind, orders, out.as_mut_ptr(), out.len(), start) }
}

pub fn shell_list(order: u8, out: &mut [u8], start: usize) -> Written {
    unsafe { xew_shell_list(order, out.as_mut_ptr(), out.len(), start) }
}

pub fn shell2(a: u8, b: u8, number: u32) -> Component {
    unsafe { xew_shell2(a, b, number) }
}

pub fn shell4(a: u8, b: u8, c: u8, d: u8, number: u32) -> Component {
    unsafe { xew_shell4(a, b, c, d, number) }
}

pub fn open(roll: &[u8]) -> Opened {
    unsafe { xew_open(roll.as_ptr(), roll.len()) }
}

pub fn check(roll: &[u8]) -> Opened {
    unsafe { xew_check(roll.as_ptr(), roll.len()) }
}

pub fn next(cursor: Cursor, roll: &[u8]) -> Step {
    unsafe { xew_next(cursor, roll.as_ptr(), roll.len()) }
}

pub fn open2(roll: &[u8]) -> Opened2 {
    unsafe { xew_open2(roll.as_ptr(), roll.len()) }
}

pub fn check2(roll: &[u8]) -> Opened2 {
    unsafe { xew_check2(roll.as_ptr(), roll.len()) }
}

pub fn next2(cursor: Cursor2, roll: &[u8]) -> Step2 {
    unsafe { xew_next2(cursor, roll.as_ptr(), roll.len()) }
}

pub fn to_form2(roll: &[u8], out: &mut [u8], start: usize) -> Moved {
    unsafe { xew_to_form2(roll.as_ptr(), roll.len(), out.as_mut_ptr(), out.len(), start) }
}

pub fn to_form1(roll: &[u8], out: &mut [u8], start: usize) -> Moved {
    unsafe { xew_to_form1(roll.as_ptr(), roll.len(), out.as_mut_ptr(), out.len(), start) }
}

pub fn salvage(roll: &[u8], out: &mut [u8], start: usize) -> Salvaged {
    unsafe { xew_salvage(roll.as_ptr(), roll.len(), out.as_mut_ptr(), out.len(), start) }
}

pub fn confirm(roll: &[u8]) -> Opened {
    unsafe { xew_confirm(roll.as_ptr(), roll.len()) }
}

pub fn small_check(roll: &[u8]) -> Opened {
    unsafe { xew_small_check(roll.as_ptr(), roll.len()) }
}

pub fn small_expand(kind: u8, orders: &[u8; ORDERS], out: &mut [u8], start: usize) -> Written {
    unsafe { xew_small_expand(kind, orders, out.as_mut_ptr(), out.len(), start) }
}

pub fn export(roll: &[u8], out: &mut [u8], start: usize) -> Text {
    unsafe { xew_export(roll.as_ptr(), roll.len(), out.as_mut_ptr(), out.len(), start) }
}

pub fn import(text: &[u8], out: &mut [u8], start: usize) -> Imported {
    unsafe { xew_import(text.as_ptr(), text.len(), out.as_mut_ptr(), out.len(), start) }
}

pub fn compare(left: &[u8], right: &[u8]) -> Compared {
    unsafe { xew_compare(left.as_ptr(), left.len(), right.as_ptr(), right.len()) }
}

pub fn compare_next(cursor: Pair, left: &[u8], right: &[u8]) -> Met {
    unsafe { xew_compare_next(cursor, left.as_ptr(), left.len(), right.as_ptr(), right.len()) }
}

pub fn scale_total(kind: u8, orders: &[u8; ORDERS]) -> Total {
    unsafe { xew_scale_total(kind, orders) }
}

pub fn roll_total(roll: &[u8]) -> Scales {
    unsafe { xew_roll_total(roll.as_ptr(), roll.len()) }
}

pub fn prefactors(kind: u8, a: Centre, b: Centre, c: Centre, d: Centre) -> Table {
    unsafe { xew_prefactors(kind, a, b, c, d) }
}

pub fn root(x: f64) -> Rooted {
    unsafe { xew_root(x) }
}

pub fn evaluate(roll: &[u8], a: Centre, b: Centre, c: Centre, d: Centre, aux: f64, boys: &[f64]) -> Value {
    unsafe { xew_evaluate(roll.as_ptr(), roll.len(), a, b, c, d, aux, boys.as_ptr(), boys.len()) }
}

pub fn nuclear(roll: &[u8], a: Centre, b: Centre, nuclei: Nuclei, aux: f64, boys: &[f64]) -> Value {
    unsafe { xew_nuclear(roll.as_ptr(), roll.len(), a, b, nuclei, aux, boys.as_ptr(), boys.len()) }
}

pub fn contracted(roll: &[u8], left: Contraction, right: Contraction, host: &[f64]) -> Value {
    unsafe { xew_contracted(roll.as_ptr(), roll.len(), left, right, host.as_ptr(), host.len()) }
}

#[rustfmt::skip]
pub fn evaluate_grouped(roll: &[u8], a: Centre, b: Centre, c: Centre, d: Centre, aux: f64, boys: &[f64], buffer: &mut [u8]) -> Value {
    unsafe {
        xew_evaluate_grouped(roll.as_ptr(), roll.len(), a, b, c, d, aux, boys.as_ptr(), boys.len(), buffer.as_mut_ptr(), buffer.len())
    }
}

pub fn grouped_term(grouping: &[u8], l: u8, terms: u32, number: u32) -> Restored {
    unsafe { xew_grouped_term(grouping.as_ptr(), grouping.len(), l, terms, number) }
}

#[rustfmt::skip]
pub fn jk(n: usize, i: &[f64], d: &[f64], j: &mut [f64], k: &mut [f64]) -> u8 {
    unsafe {
        xew_jk(n, i.as_ptr(), i.len(), d.as_ptr(), d.len(), j.as_mut_ptr(), j.len(), k.as_mut_ptr(), k.len())
    }
}
