//! What differs between the two, with the text, and what can fail before there is anything to compare.

use crate::srecord::Failed;

pub enum Fault {
    /// What differs, and the text.
    Differs(String, Vec<u8>),
    Failed(String),
}

impl From<Failed> for Fault {
    fn from(Failed(what): Failed) -> Fault {
        Fault::Failed(what)
    }
}

impl Fault {
    /// Says of which text it is.
    pub fn of(self, name: &str) -> Fault {
        match self {
            Fault::Differs(what, text) => Fault::Differs(format!("{name}: {what}"), text),
            failed @ Fault::Failed(_) => failed,
        }
    }
}

pub fn differs<T>(text: &[u8], what: impl Into<String>) -> Result<T, Fault> {
    Err(Fault::Differs(what.into(), text.to_vec()))
}

/// Two lists of bytes, the first of them at an address.
pub fn same(text: &[u8], what: &str, from: usize, one: &[u8], other: &[u8]) -> Result<(), Fault> {
    if one.len() != other.len() {
        let what = format!("{what} {} bytes and {}", one.len(), other.len());
        return differs(text, what);
    }
    match one.iter().zip(other).position(|(one, other)| one != other) {
        None => Ok(()),
        Some(at) => {
            let [one, other] = [one[at], other[at]];
            differs(
                text,
                format!("{what} {one:02X} and {other:02X} at {:04X}", from + at),
            )
        }
    }
}
