//! What a comparison of a text goes by: the random memories, srecord, and what is planted.

use oracle::random::Random;

use crate::srecord::Srecord;

/// A fault that the comparison must find.
#[derive(Clone, Copy, PartialEq, Eq)]
pub enum Plant {
    None,
    /// A byte that was loaded from the last tape is another one.
    Load,
    /// The reader takes srecord's end record.
    End,
    /// A byte that was loaded from the last HEX is another one.
    Hex,
    /// A byte of the last stretch that was punched is another one.
    Punch,
}

/// The marks that ask for them.
pub const PLANTS: [(&str, Plant); 4] = [
    ("--plant", Plant::Load),
    ("--plant-end", Plant::End),
    ("--plant-hex", Plant::Hex),
    ("--plant-punch", Plant::Punch),
];

pub struct Comparison {
    pub random: Random,
    /// Its own, so that the tapes of a seed are the same whatever is done with HEX.
    pub hex_random: Random,
    pub srecord: Srecord,
    pub plant: Plant,
}
