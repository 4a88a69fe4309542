//! What differs, and what is planted to show that it is found.

use oracle::case::Case;
use oracle::state::State;

pub struct Fault {
    /// The input on which it differed is one of these; none where it was no single step.
    pub cases: Vec<Case>,
    pub what: String,
}

impl Fault {
    pub fn of_step(case: Case, what: String) -> Fault {
        let cases = vec![case];
        Fault { cases, what }
    }

    /// Of a run, which no single step shows.
    pub fn of_run(state: State, what: String) -> Fault {
        let (cases, what) = (Vec::new(), format!("a run, at {state}: {what}"));
        Fault { cases, what }
    }
}

/// A fault that is put into the port's results.
#[derive(Clone, Copy, PartialEq, Eq)]
pub enum Plant {
    None,
    /// STA (FF),Y, whose pointer turns over in the zero page, stores a byte with the lowest bit turned.
    Store,
    /// The address put out first has the carry, as the final one has.
    First,
    /// JSR reads its high operand byte before the pushes, as the Rust does.
    Call,
    /// The status that is pushed for a line has bit 4 set, as BRK's has.
    Break,
    /// A step does not record the level of NMI.
    Level,
    /// A run by cycles has a limit that is one too high.
    Limit,
}

/// The marks that ask for them.
pub const PLANTS: [(&str, Plant); 6] = [
    ("--plant", Plant::Store),
    ("--plant-first", Plant::First),
    ("--plant-call", Plant::Call),
    ("--plant-break", Plant::Break),
    ("--plant-level", Plant::Level),
    ("--plant-limit", Plant::Limit),
];
