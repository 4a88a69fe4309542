//! Paper tapes and Intel HEX, proved: read onto a memory, moved from one to the other, punched from a memory, and what can be
//! saved of a torn tape. mos6502_tapes.h says what each of the C functions promises.
//!
//! ```
//! use saxundeer::{MEMORY_SIZE, tapes};
//!
//! let mut memory = vec![0; MEMORY_SIZE];
//! let records = tapes::load(b";010200A900AC\r\n;0000010001\r\n", &mut memory);
//! assert_eq!(records, Ok(2)); // the end record is counted
//! assert_eq!(memory[0x0200], 0xA9);
//!
//! let mut hex = [0; 64];
//! let size = tapes::tape_to_hex(b";010200A900AC\r\n;0000010001\r\n", &mut hex).unwrap();
//! assert_eq!(hex[..size], *b":01020000A954\r\n:00000001FF\r\n");
//! ```

use crate::answers;
pub use crate::tape_errors::{BadText, Place, Unmoved, Unpunched, Unsaved};

/// The two readers take the same, and so do the two moves.
type ReadFunction =
    unsafe extern "C" fn(*const u8, usize, *mut u8, usize, *mut u64, *mut usize) -> u8;
type MoveFunction =
    unsafe extern "C" fn(*const u8, usize, *mut u8, usize, *mut usize, *mut u64, *mut usize) -> u8;

unsafe extern "C" {
    fn mos6502_tape_load(
        text: *const u8,
        text_length: usize,
        memory: *mut u8,
        memory_length: usize,
        good: *mut u64,
        place: *mut usize,
    ) -> u8;
    fn mos6502_hex_load(
        text: *const u8,
        text_length: usize,
        memory: *mut u8,
        memory_length: usize,
        good: *mut u64,
        place: *mut usize,
    ) -> u8;
    #[link_name = "mos6502_tape_to_hex"]
    fn move_to_hex(
        text: *const u8,
        text_length: usize,
        out: *mut u8,
        out_length: usize,
        size: *mut usize,
        good: *mut u64,
        place: *mut usize,
    ) -> u8;
    #[link_name = "mos6502_hex_to_tape"]
    fn move_to_tape(
        text: *const u8,
        text_length: usize,
        out: *mut u8,
        out_length: usize,
        size: *mut usize,
        good: *mut u64,
        place: *mut usize,
    ) -> u8;
    fn mos6502_tape_punch(
        memory: *const u8,
        memory_length: usize,
        first: u16,
        last: u16,
        text: *mut u8,
        text_length: usize,
        size: *mut usize,
    ) -> u8;
    fn mos6502_tape_rescue(
        text: *const u8,
        text_length: usize,
        out: *mut u8,
        out_length: usize,
        size: *mut usize,
        kept: *mut u64,
        dropped: *mut u64,
        first: *mut usize,
    ) -> u8;
    safe fn mos6502_tapes_version_1_run_rt_staticlib_mos6502_tapes() -> u8;
}

/// Ends a program whose archive answers what its header does not list.
fn unknown(answer: u8) -> ! {
    let version = mos6502_tapes_version_1_run_rt_staticlib_mos6502_tapes;
    answers::unknown(version, answer.into())
}

impl BadText {
    /// What a C function means that came so far and answered so.
    fn from_answer(answer: u8, good: u64, offset: usize) -> BadText {
        let place = Place { good, offset };
        match answer {
            answers::MEMORY_NOT_FULL => BadText::MemoryNotFull,
            answers::MALFORMED_RECORD => BadText::Malformed(place),
            answers::WRONG_SUM => BadText::WrongSum(place),
            answers::PAST_THE_END => BadText::PastTheEnd(place),
            answers::NO_END => BadText::NoEnd(place),
            _ => unknown(answer),
        }
    }
}

fn read(function: ReadFunction, text: &[u8], memory: &mut [u8]) -> Result<u64, BadText> {
    let (mut good, mut offset) = (0, 0);
    // Sound: the numbers are this function's own, the slices are lent to it, and the lengths are theirs.
    let answer = unsafe {
        function(
            text.as_ptr(),
            text.len(),
            memory.as_mut_ptr(),
            memory.len(),
            &mut good,
            &mut offset,
        )
    };
    match answer {
        answers::NOT_REFUSED => Ok(good),
        _ => Err(BadText::from_answer(answer, good, offset)),
    }
}

/// Reads a tape onto a memory, and gives the number of its records, the end record counted.
pub fn load(text: &[u8], memory: &mut [u8]) -> Result<u64, BadText> {
    read(mos6502_tape_load, text, memory)
}

/// Reads Intel HEX onto a memory, and gives the number of its records, the end record counted.
pub fn load_hex(text: &[u8], memory: &mut [u8]) -> Result<u64, BadText> {
    read(mos6502_hex_load, text, memory)
}

fn moved(function: MoveFunction, text: &[u8], out: &mut [u8]) -> Result<usize, Unmoved> {
    let (mut size, mut good, mut offset) = (0, 0, 0);
    // Sound: as in `read`.
    let answer = unsafe {
        function(
            text.as_ptr(),
            text.len(),
            out.as_mut_ptr(),
            out.len(),
            &mut size,
            &mut good,
            &mut offset,
        )
    };
    match answer {
        answers::NOT_REFUSED => Ok(size),
        answers::NO_ROOM => Err(Unmoved::NoRoom),
        _ => Err(Unmoved::Bad(BadText::from_answer(answer, good, offset))),
    }
}

/// Moves a tape to Intel HEX, record for record, and gives the length of the HEX.
pub fn tape_to_hex(text: &[u8], out: &mut [u8]) -> Result<usize, Unmoved> {
    moved(move_to_hex, text, out)
}

/// Moves Intel HEX to a tape, record for record, and gives the length of the tape.
pub fn hex_to_tape(text: &[u8], out: &mut [u8]) -> Result<usize, Unmoved> {
    moved(move_to_tape, text, out)
}

/// The longest tape that is punched, all of a memory.
pub const LONGEST_PUNCHED: usize = 166_588;

/// Writes the memory from a first to a last address as a tape, and gives its length.
pub fn punch(memory: &[u8], first: u16, last: u16, text: &mut [u8]) -> Result<usize, Unpunched> {
    let mut size = 0;
    // Sound: as in `read`.
    let answer = unsafe {
        mos6502_tape_punch(
            memory.as_ptr(),
            memory.len(),
            first,
            last,
            text.as_mut_ptr(),
            text.len(),
            &mut size,
        )
    };
    match answer {
        answers::NOT_REFUSED => Ok(size),
        answers::MEMORY_NOT_FULL => Err(Unpunched::MemoryNotFull),
        answers::FIRST_ABOVE_LAST => Err(Unpunched::FirstAboveLast),
        answers::NO_ROOM => Err(Unpunched::NoRoom),
        _ => unknown(answer),
    }
}

/// What was saved of a torn tape. The new tape is the whole of it only if `dropped` is 0.
#[must_use = "a rescued tape may not be the whole tape: see dropped"]
#[derive(Clone, Copy, Debug, PartialEq, Eq, Hash)]
pub struct Saved {
    /// The length of the new tape.
    pub size: usize,
    pub kept: u64,
    pub dropped: u64,
    /// Where the first dropped record begins; the text's length if there is none.
    pub first_dropped: usize,
}

/// Writes every good data record of a torn tape, and a fresh end record.
pub fn rescue(text: &[u8], out: &mut [u8]) -> Result<Saved, Unsaved> {
    let (mut size, mut kept, mut dropped, mut first_dropped) = (0, 0, 0, 0);
    // Sound: as in `read`.
    let answer = unsafe {
        mos6502_tape_rescue(
            text.as_ptr(),
            text.len(),
            out.as_mut_ptr(),
            out.len(),
            &mut size,
            &mut kept,
            &mut dropped,
            &mut first_dropped,
        )
    };
    match answer {
        answers::NOT_REFUSED => Ok(Saved {
            size,
            kept,
            dropped,
            first_dropped,
        }),
        answers::NO_END => Err(Unsaved::TooMany),
        answers::NO_ROOM => Err(Unsaved::NoRoom),
        _ => unknown(answer),
    }
}

#[cfg(test)]
mod tests {
    use super::*;
    use crate::MEMORY_SIZE;
    use core::error::Error;
    use std::string::ToString;
    use std::vec;

    #[test]
    fn a_memory_there_and_back() {
        let memory: std::vec::Vec<u8> = (0..MEMORY_SIZE).map(|at| (at * 7 / 3) as u8).collect();
        let mut text = vec![0; LONGEST_PUNCHED];
        assert_eq!(punch(&memory, 0, 0xFFFF, &mut text), Ok(LONGEST_PUNCHED));
        let mut copy = vec![0; MEMORY_SIZE];
        assert_eq!(load(&text, &mut copy), Ok(2732));
        assert!(copy == memory);
        let mut again = vec![0; LONGEST_PUNCHED];
        let saved = rescue(&text, &mut again).expect("it fits");
        assert_eq!(
            (saved.kept, saved.dropped, saved.first_dropped),
            (2731, 0, LONGEST_PUNCHED)
        );
        assert!(again == text);
        assert_eq!(rescue(&text, &mut again[1..]), Err(Unsaved::NoRoom));
    }

    #[test]
    fn a_tape_there_and_back() {
        let memory: std::vec::Vec<u8> = (0..MEMORY_SIZE).map(|at| (at * 7 / 3) as u8).collect();
        let mut text = vec![0; LONGEST_PUNCHED];
        assert_eq!(punch(&memory, 0, 0xFFFF, &mut text), Ok(LONGEST_PUNCHED));
        let mut hex = vec![0xEA; LONGEST_PUNCHED + 1];
        assert_eq!(tape_to_hex(&text, &mut hex), Ok(LONGEST_PUNCHED));
        assert_eq!(hex.pop(), Some(0xEA));
        let mut copy = vec![0; MEMORY_SIZE];
        assert_eq!(load_hex(&hex, &mut copy), Ok(2732));
        assert!(copy == memory);
        let mut again = vec![0; LONGEST_PUNCHED];
        assert_eq!(hex_to_tape(&hex, &mut again), Ok(LONGEST_PUNCHED));
        assert!(again == text);
    }

    #[test]
    fn each_refusal_of_hex() {
        let mut memory = vec![0xEA; MEMORY_SIZE];
        let mut out = [0xEA; 64];
        let at = |good, offset| Place { good, offset };
        for (text, bad) in [
            (&b""[..], BadText::NoEnd(at(0, 0))),
            (b":01020000A954", BadText::NoEnd(at(1, 13))),
            (b":01020000A95", BadText::Malformed(at(0, 0))),
            (b":020000040000FA", BadText::Malformed(at(0, 0))),
            (b":0000000000", BadText::Malformed(at(0, 0))),
            (b":01020000A954\n:00000101FE", BadText::Malformed(at(1, 14))),
            (b"\n:01020000A955", BadText::WrongSum(at(0, 1))),
            (b":02FFFF000102FD", BadText::PastTheEnd(at(0, 0))),
            (b":00000001FF\nx", BadText::Malformed(at(1, 12))),
        ] {
            assert_eq!(load_hex(text, &mut memory), Err(bad));
            assert_eq!(hex_to_tape(text, &mut out), Err(Unmoved::Bad(bad)));
        }
        assert!(memory.iter().all(|byte| *byte == 0xEA));
        assert_eq!(
            load_hex(b":00000001FF", &mut memory[1..]),
            Err(BadText::MemoryNotFull)
        );
        assert_eq!(
            tape_to_hex(b";0000000001", &mut out),
            Err(Unmoved::Bad(BadText::WrongSum(at(0, 0))))
        );
        assert_eq!(
            tape_to_hex(b";0000000000", &mut out[..12]),
            Err(Unmoved::NoRoom)
        );
        assert!(out.iter().all(|character| *character == 0xEA));
        assert_eq!(tape_to_hex(b";0000000000", &mut out[..13]), Ok(13));
        assert_eq!(out[..13], *b":00000001FF\r\n");
    }

    #[test]
    fn each_refusal() {
        let mut memory = vec![0xEA; MEMORY_SIZE];
        let at = |good, offset| Place { good, offset };
        let record = b";010200A900AC";
        for (text, bad) in [
            (&b""[..], BadText::NoEnd(at(0, 0))),
            (record, BadText::NoEnd(at(1, 13))),
            (b";010200A900A", BadText::Malformed(at(0, 0))),
            (b"\n;010200A900AD", BadText::WrongSum(at(0, 1))),
            (b";02FFFF00000200", BadText::PastTheEnd(at(0, 0))),
            (b";0000000000\nx", BadText::Malformed(at(1, 12))),
        ] {
            assert_eq!(load(text, &mut memory), Err(bad));
        }
        assert!(memory.iter().all(|byte| *byte == 0xEA));
        assert_eq!(
            load(b";0000000000", &mut memory[1..]),
            Err(BadText::MemoryNotFull)
        );
        let mut text = [0; 27];
        assert_eq!(
            punch(&memory[1..], 1, 0, &mut text),
            Err(Unpunched::MemoryNotFull)
        );
        assert_eq!(
            punch(&memory, 1, 0, &mut text),
            Err(Unpunched::FirstAboveLast)
        );
        assert_eq!(punch(&memory, 1, 1, &mut text), Err(Unpunched::NoRoom));
        let saved = rescue(b";0;0200010004", &mut text).expect("it fits");
        assert_eq!(
            (saved.size, saved.kept, saved.dropped, saved.first_dropped),
            (13, 0, 2, 0)
        );
        assert_eq!(text[..13], *b";0000000000\r\n");
    }

    #[test]
    fn each_error_is_a_sentence() {
        let place = |good| Place { good, offset: 26 };
        let bad = "at offset 26, after 2 good records, a record is malformed";
        let sentences: [(&dyn Error, &str); 10] = [
            (
                &BadText::MemoryNotFull,
                "the memory is not 65,536 bytes long",
            ),
            (&BadText::Malformed(place(2)), bad),
            (
                &BadText::WrongSum(place(1)),
                "at offset 26, after 1 good record, a record has a wrong sum",
            ),
            (
                &BadText::PastTheEnd(place(0)),
                "at offset 26, after 0 good records, a record goes past FFFF",
            ),
            (
                &BadText::NoEnd(place(2)),
                "at offset 26, after 2 good records, the end record is missing or wrong",
            ),
            (&Unmoved::Bad(BadText::Malformed(place(2))), bad),
            (
                &Unmoved::NoRoom,
                "the new text is longer than what was lent for it",
            ),
            (
                &Unpunched::MemoryNotFull,
                "the memory is not 65,536 bytes long",
            ),
            (
                &Unpunched::FirstAboveLast,
                "the first address is above the last",
            ),
            (&Unsaved::TooMany, "more than 65,535 records could be kept"),
        ];
        for (error, sentence) in sentences {
            assert_eq!(error.to_string(), sentence);
        }
    }
}
