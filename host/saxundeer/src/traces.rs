//! The check of a recorded trace, proved. mos6502_traces.h says what the C function promises.
//!
//! ```
//! use saxundeer::{MEMORY_SIZE, traces};
//!
//! let mut image = vec![0; MEMORY_SIZE];
//! image[0x0200..0x0202].copy_from_slice(&[0xA9, 0x05]); // LDA #$05
//! let mut copy = vec![0; MEMORY_SIZE];
//! let log = b"0 0200 00 00 00 FF 34\n2 0202 05 00 00 FF 34\n";
//! assert_eq!(traces::check(&image, log, &mut copy), Ok(()));
//! ```

use core::error::Error;
use core::fmt::{self, Display, Formatter};

use crate::answers;

unsafe extern "C" {
    fn mos6502_trace_check(
        image: *const u8,
        image_length: usize,
        lines: *const u8,
        lines_length: usize,
        copy: *mut u8,
        copy_length: usize,
        line: *mut usize,
    ) -> u8;
    safe fn mos6502_traces_version_1_run_rt_staticlib_mos6502_traces() -> u8;
}

/// Why a trace was not accepted, with the number of the first bad entry, counted from 1.
#[derive(Clone, Copy, Debug, PartialEq, Eq, Hash)]
pub enum BadTrace {
    /// The image or the copy is not `MEMORY_SIZE` long; nothing was written.
    MemoryNotFull,
    /// The entry is malformed or cut short, or there is none.
    Malformed(usize),
    /// It is not the state after a step from the entry before, or no step can be made there.
    Stray(usize),
}

/// As a sentence, without its full stop.
impl Display for BadTrace {
    fn fmt(&self, formatter: &mut Formatter<'_>) -> fmt::Result {
        match self {
            BadTrace::MemoryNotFull => {
                write!(formatter, "the image or the copy is not 65,536 bytes long")
            }
            BadTrace::Malformed(line) => {
                write!(formatter, "entry {line} is malformed, cut short or missing")
            }
            BadTrace::Stray(line) => {
                write!(
                    formatter,
                    "entry {line} does not follow from the one before"
                )
            }
        }
    }
}

impl Error for BadTrace {}

/// Checks a trace against an image. `copy` starts as the image and is left as the accepted entries leave it.
pub fn check(image: &[u8], lines: &[u8], copy: &mut [u8]) -> Result<(), BadTrace> {
    let mut line = 0;
    // Sound: the number is this function's own, the slices are lent to it, and the lengths are theirs.
    let answer = unsafe {
        mos6502_trace_check(
            image.as_ptr(),
            image.len(),
            lines.as_ptr(),
            lines.len(),
            copy.as_mut_ptr(),
            copy.len(),
            &mut line,
        )
    };
    match answer {
        answers::NOT_REFUSED => Ok(()),
        answers::MEMORY_NOT_FULL => Err(BadTrace::MemoryNotFull),
        answers::MALFORMED_ENTRY => Err(BadTrace::Malformed(line)),
        answers::STRAY_ENTRY => Err(BadTrace::Stray(line)),
        _ => answers::unknown(
            mos6502_traces_version_1_run_rt_staticlib_mos6502_traces,
            answer.into(),
        ),
    }
}

#[cfg(test)]
mod tests {
    use super::*;
    use crate::MEMORY_SIZE;
    use std::string::ToString;
    use std::vec;

    #[test]
    fn each_refusal_and_its_sentence() {
        let image = vec![0xEA; MEMORY_SIZE]; // NOP throughout
        let mut copy = vec![0; MEMORY_SIZE];
        let first = b"0 0200 00 00 00 FF 34\n";
        let stray = [&first[..], b"2 0203 00 00 00 FF 34\n"].concat();
        let cut = [&first[..], b"2 0201 00 00"].concat();
        for (lines, bad, sentence) in [
            (
                &b""[..],
                BadTrace::Malformed(1),
                "entry 1 is malformed, cut short or missing",
            ),
            (
                &cut,
                BadTrace::Malformed(2),
                "entry 2 is malformed, cut short or missing",
            ),
            (
                &stray,
                BadTrace::Stray(2),
                "entry 2 does not follow from the one before",
            ),
        ] {
            assert_eq!(check(&image, lines, &mut copy), Err(bad));
            assert_eq!(bad.to_string(), sentence);
        }
        let short = &mut copy[1..];
        let before = short.to_vec();
        let bad = check(&image, first, short).unwrap_err();
        assert_eq!(bad, BadTrace::MemoryNotFull);
        assert_eq!(short, before);
        assert_eq!(
            bad.to_string(),
            "the image or the copy is not 65,536 bytes long"
        );
    }
}
