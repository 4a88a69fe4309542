//! A listing of a stretch of memory, proved. mos6502_listing.h says what the C function promises.
//!
//! ```
//! use saxundeer::{MEMORY_SIZE, listing};
//!
//! let mut memory = vec![0; MEMORY_SIZE];
//! memory[0x0200..0x0203].copy_from_slice(&[0xA9, 0x05, 0x02]); // LDA #$05, and a byte that is no opcode
//! let mut text = [0; 3 * listing::LONGEST_A_BYTE];
//! let size = listing::list(&memory, 0x0200, 0x0202, &mut text).unwrap();
//! assert_eq!(text[..size], *b"0200 A9 05 LDA #$05\n0202 02 ???\n");
//! ```

use core::error::Error;
use core::fmt::{self, Display, Formatter};

use crate::answers;
use crate::machine::MEMORY_SIZE;

unsafe extern "C" {
    fn mos6502_list(
        memory: *const u8,
        memory_length: usize,
        first: u16,
        last: u16,
        text: *mut u8,
        text_length: usize,
        size: *mut usize,
    ) -> u8;
    safe fn mos6502_listing_version_1_run_rt_staticlib_mos6502_listing() -> u8;
}

/// The most characters that a listing has for each byte of its stretch.
pub const LONGEST_A_BYTE: usize = 14;

/// The longest listing, of all of a memory.
pub const LONGEST_LISTING: usize = LONGEST_A_BYTE * MEMORY_SIZE;

/// Why nothing was listed. Nothing was written.
#[derive(Clone, Copy, Debug, PartialEq, Eq, Hash)]
pub enum Unlisted {
    /// The memory is not `MEMORY_SIZE` long.
    MemoryNotFull,
    FirstAboveLast,
    /// The listing is longer than the text that was lent. `LONGEST_A_BYTE` for each byte is always enough.
    NoRoom,
}

/// As a sentence, without its full stop.
impl Display for Unlisted {
    fn fmt(&self, formatter: &mut Formatter<'_>) -> fmt::Result {
        formatter.write_str(match self {
            Unlisted::MemoryNotFull => "the memory is not 65,536 bytes long",
            Unlisted::FirstAboveLast => "the first address is above the last",
            Unlisted::NoRoom => "the listing is longer than what was lent for it",
        })
    }
}

impl Error for Unlisted {}

/// Writes a listing of the memory from a first to a last address, and gives its length.
pub fn list(memory: &[u8], first: u16, last: u16, text: &mut [u8]) -> Result<usize, Unlisted> {
    let mut size = 0;
    // Sound: the number is this function's own, the slices are lent to it, and the lengths are theirs.
    let answer = unsafe {
        mos6502_list(
            memory.as_ptr(),
            memory.len(),
            first,
            last,
            text.as_mut_ptr(),
            text.len(),
            &mut size,
        )
    };
    match answer {
        answers::NOT_REFUSED => Ok(size),
        answers::MEMORY_NOT_FULL => Err(Unlisted::MemoryNotFull),
        answers::FIRST_ABOVE_LAST => Err(Unlisted::FirstAboveLast),
        answers::NO_ROOM => Err(Unlisted::NoRoom),
        _ => answers::unknown(
            mos6502_listing_version_1_run_rt_staticlib_mos6502_listing,
            answer.into(),
        ),
    }
}

#[cfg(test)]
mod tests {
    use super::*;
    use std::string::ToString;
    use std::vec;

    #[test]
    fn each_refusal_and_its_sentence() {
        let memory = vec![0xEA; MEMORY_SIZE]; // NOP throughout
        let mut text = [0x55; 24];
        for (memory, last, bad, sentence) in [
            (
                &memory[1..],
                0,
                Unlisted::MemoryNotFull,
                "the memory is not 65,536 bytes long",
            ),
            (
                &memory,
                0,
                Unlisted::FirstAboveLast,
                "the first address is above the last",
            ),
            (
                &memory,
                3,
                Unlisted::NoRoom,
                "the listing is longer than what was lent for it",
            ),
        ] {
            assert_eq!(list(memory, 1, last, &mut text), Err(bad));
            assert_eq!(bad.to_string(), sentence);
        }
        assert_eq!(text, [0x55; 24]);
        assert_eq!(list(&memory, 1, 2, &mut text), Ok(24));
        assert_eq!(text, *b"0001 EA NOP\n0002 EA NOP\n");
    }

    #[test]
    fn the_longest() {
        let memory = vec![0x0A; MEMORY_SIZE]; // ASL A throughout
        let mut text = vec![0; LONGEST_LISTING];
        assert_eq!(
            list(&memory, 0, 0xFFFF, &mut text[1..]),
            Err(Unlisted::NoRoom)
        );
        assert_eq!(list(&memory, 0, 0xFFFF, &mut text), Ok(LONGEST_LISTING));
        assert!(text.ends_with(b"FFFF 0A ASL A\n"));
    }
}
