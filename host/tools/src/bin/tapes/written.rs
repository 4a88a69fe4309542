//! A text as srecord spells it, which is looked at, not believed.

use crate::fault::{Fault, differs};
use crate::srecord::LineEnd;

/// A tape's end record has two bytes for the number of data records, and HEX has no more of them.
pub const MOST: usize = 65_535;

/// The records, without their line ends: nothing else stands between them or behind the last, and each is a mark and digits.
pub fn records(text: &[u8], line_end: LineEnd, mark: char) -> Result<Vec<&str>, Fault> {
    let Ok(read) = std::str::from_utf8(text) else {
        return differs(text, "srecord wrote another character");
    };
    let mut lines: Vec<&str> = read.split(line_end.text()).collect();
    if lines.pop() != Some("") {
        return differs(text, "srecord left the last line open");
    }
    let is_record = |line: &&str| {
        let digits = line.strip_prefix(mark).unwrap_or("?");
        digits
            .bytes()
            .all(|digit| matches!(digit, b'0'..=b'9' | b'A'..=b'F'))
    };
    if !lines.iter().all(is_record) {
        return differs(text, "srecord wrote a line that is no record");
    }
    Ok(lines)
}
