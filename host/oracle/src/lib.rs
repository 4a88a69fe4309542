//! The Rust of docs/src on a memory that records what is read and stored, the rules' list of that, and the inputs on which the
//! port is held to both.

/// The Rust itself, as host/build-oracle builds it.
pub extern crate mos6502;

// The rules, written out from docs/RULES.md alone.
pub mod accesses;
pub mod addresses;
pub mod interrupts;
pub mod rules;

// The Rust: its state, its steps, and how long they take.
pub mod clock;
pub mod recorder;
pub mod state;
pub mod timed;

// Where the Rust differs from the rules, as is listed, and its run with that put right.
pub mod known;
pub mod walk;

// The inputs.
pub mod case;
pub mod edges;
pub mod images;
pub mod loops;
pub mod random;
pub mod sums;

#[cfg(test)]
mod line_tests;
#[cfg(test)]
mod tests;
