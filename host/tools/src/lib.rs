//! What the programs of the commands have in common.

pub mod options;
pub mod states;
pub mod ways;
