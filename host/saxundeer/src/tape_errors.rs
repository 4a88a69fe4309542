//! Why a call of the tapes did nothing. Each is shown as a sentence without its full stop.

use core::error::Error;
use core::fmt::{Display, Formatter, Result};

/// Where the first bad record of a text begins, and how many good ones stand before it, the end record counted.
#[derive(Clone, Copy, Debug, PartialEq, Eq, Hash)]
pub struct Place {
    pub good: u64,
    pub offset: usize,
}

/// Why a text was not loaded. Nothing was stored.
#[derive(Clone, Copy, Debug, PartialEq, Eq, Hash)]
pub enum BadText {
    /// The memory is not `MEMORY_SIZE` long.
    MemoryNotFull,
    /// The record is malformed or cut short, or a stray character stands there. In HEX it may also have another type than 00
    /// and 01, or no data, or be another end record than `:00000001FF`.
    Malformed(Place),
    WrongSum(Place),
    /// Its data go past FFFF.
    PastTheEnd(Place),
    /// There is no end record, or a tape's counts other data records than there are, or HEX has a 65,536th data record.
    NoEnd(Place),
}

/// Why a text was not moved. Nothing was written.
#[derive(Clone, Copy, Debug, PartialEq, Eq, Hash)]
pub enum Unmoved {
    /// The text is bad: never `BadText::MemoryNotFull`.
    Bad(BadText),
    /// The new text is longer than what was lent for it. Twice the given text's length is always enough.
    NoRoom,
}

/// Why nothing was punched.
#[derive(Clone, Copy, Debug, PartialEq, Eq, Hash)]
pub enum Unpunched {
    /// The memory is not `MEMORY_SIZE` long.
    MemoryNotFull,
    FirstAboveLast,
    /// The tape is longer than the text that was lent.
    NoRoom,
}

/// Why nothing was saved.
#[derive(Clone, Copy, Debug, PartialEq, Eq, Hash)]
pub enum Unsaved {
    /// More than 65,535 records could be kept.
    TooMany,
    /// The new tape is longer than what was lent for it.
    NoRoom,
}

const MEMORY_NOT_FULL: &str = "the memory is not 65,536 bytes long";
const NO_ROOM: &str = "the new text is longer than what was lent for it";

impl Display for Place {
    fn fmt(&self, formatter: &mut Formatter<'_>) -> Result {
        let records = if self.good == 1 { "record" } else { "records" };
        let Place { good, offset } = self;
        write!(formatter, "at offset {offset}, after {good} good {records}")
    }
}

impl Display for BadText {
    fn fmt(&self, formatter: &mut Formatter<'_>) -> Result {
        match self {
            BadText::MemoryNotFull => write!(formatter, "{MEMORY_NOT_FULL}"),
            BadText::Malformed(place) => write!(formatter, "{place}, a record is malformed"),
            BadText::WrongSum(place) => write!(formatter, "{place}, a record has a wrong sum"),
            BadText::PastTheEnd(place) => write!(formatter, "{place}, a record goes past FFFF"),
            BadText::NoEnd(place) => {
                write!(formatter, "{place}, the end record is missing or wrong")
            }
        }
    }
}

impl Display for Unmoved {
    fn fmt(&self, formatter: &mut Formatter<'_>) -> Result {
        match self {
            Unmoved::Bad(bad) => write!(formatter, "{bad}"),
            Unmoved::NoRoom => write!(formatter, "{NO_ROOM}"),
        }
    }
}

impl Display for Unpunched {
    fn fmt(&self, formatter: &mut Formatter<'_>) -> Result {
        match self {
            Unpunched::MemoryNotFull => write!(formatter, "{MEMORY_NOT_FULL}"),
            Unpunched::FirstAboveLast => write!(formatter, "the first address is above the last"),
            Unpunched::NoRoom => write!(formatter, "{NO_ROOM}"),
        }
    }
}

impl Display for Unsaved {
    fn fmt(&self, formatter: &mut Formatter<'_>) -> Result {
        match self {
            Unsaved::TooMany => write!(formatter, "more than 65,535 records could be kept"),
            Unsaved::NoRoom => write!(formatter, "{NO_ROOM}"),
        }
    }
}

impl Error for BadText {}
impl Error for Unmoved {}
impl Error for Unpunched {}
impl Error for Unsaved {}
