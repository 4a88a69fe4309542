//! The answers of the C functions, by name: mos6502_answers.h says what each means.
//!
//! A feature that is not asked for leaves some of them without a use.
#![allow(dead_code)]

pub(crate) const NOT_REFUSED: u8 = 0;
pub(crate) const MEMORY_NOT_FULL: u8 = 1;
pub(crate) const NO_CYCLE_ROOM: u8 = 2;
pub(crate) const NOT_AN_OPCODE: u8 = 3;
pub(crate) const BOUND_TOO_HIGH: u8 = 4;
pub(crate) const MALFORMED_RECORD: u8 = 5;
pub(crate) const WRONG_SUM: u8 = 6;
pub(crate) const PAST_THE_END: u8 = 7;
pub(crate) const NO_END: u8 = 8;
pub(crate) const FIRST_ABOVE_LAST: u8 = 9;
pub(crate) const NO_ROOM: u8 = 10;
pub(crate) const MALFORMED_ENTRY: u8 = 11;
pub(crate) const STRAY_ENTRY: u8 = 12;
pub(crate) const WOULD_READ: u8 = 13;
pub(crate) const WOULD_STORE: u8 = 14;
pub(crate) const NOT_THERE: u8 = 15;

/// A function that an archive of one version has, and one of another does not.
pub(crate) type Version = extern "C" fn() -> u8;

/// Ends a program whose archive answers what its header does not list. No proved one does. It stands where it costs nothing, and
/// names the version, so that an archive of another one, whose functions take something else, does not link.
#[cold]
#[inline(never)]
pub(crate) fn unknown(version: Version, answer: usize) -> ! {
    unreachable!("an archive of version {} answered {answer}", version())
}
