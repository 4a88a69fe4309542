//! The proved NMOS 6502 for a Rust program.
//!
//! The memory is lent for a call, the machine goes in and comes back by value, and every answer says how far it came and
//! why it came back. None of them says that the program on the 6502 has finished: that processor has no instruction for
//! it. Whoever knows the address at which the program is meant to end asks [`run_to`], whose `Arrived` says it.
//!
//! ```
//! use saxundeer::{Ending, Lines, MEMORY_SIZE, Machine, run_to};
//!
//! let mut memory = vec![0; MEMORY_SIZE];
//! memory[0x0200..0x0203].copy_from_slice(&[0xA9, 0x05, 0x02]); // LDA #$05, and a byte that is no opcode
//! memory[0xFFFD] = 0x02; // the program begins at 0200
//! let machine = Machine::start(&memory).expect("the memory is full");
//! match run_to(machine, 0x0202, 1000, Lines::IDLE, &mut memory) {
//!     Ending::Arrived { progress, .. } => assert_eq!(progress.machine.registers().accumulator, 0x05),
//!     other => panic!("it did not end where it should: {other:?}"),
//! }
//! ```
//!
//! A run that must not touch some addresses is a [`guarded_run`], halted before a step that would; what an [`extract`] leaves in
//! memory may be handed out, whatever was sealed in it. Devices at some addresses are in the module `devices`, with the feature of
//! that name.
//!
//! The interrupt lines are levels that a call is given and that hold for the whole of it. A line that is due is served before
//! an opcode, in a step of its own:
//!
//! ```
//! use saxundeer::{Lines, MEMORY_SIZE, Machine, StepAnswer, single_step};
//!
//! let mut memory = vec![0; MEMORY_SIZE];
//! memory[0x0200] = 0x58; // CLI: from now on IRQ is listened to
//! memory[0xFFFC..].copy_from_slice(&[0x00, 0x02, 0x00, 0x03]); // the program begins at 0200, and IRQ leads to 0300
//! let mut machine = Machine::start(&memory).expect("the memory is full");
//! for (lines, counter) in [(Lines::IDLE, 0x0201), (Lines::IRQ_LOW, 0x0300)] {
//!     match single_step(machine, lines, &mut memory) {
//!         StepAnswer::Made { machine: after, .. } => machine = after,
//!         other => panic!("the step was refused: {other:?}"),
//!     }
//!     assert_eq!(machine.registers().program_counter, counter);
//! }
//! assert_eq!(machine.cycles, 2 + 7);
//! assert_eq!(memory[0x01FE..=0x01FF], [0x01, 0x02]); // RTI would return to 0201
//! ```

#![no_std]

#[cfg(test)]
extern crate std;

mod addresses;
mod answers;
#[cfg(all(test, feature = "devices"))]
mod device_tests;
#[cfg(feature = "devices")]
pub mod devices;
#[cfg(feature = "devices")]
pub mod footprint;
mod functions;
mod guard;
#[cfg(test)]
mod guard_tests;
mod lines;
#[cfg(feature = "listing")]
pub mod listing;
mod machine;
mod registers;
mod run_to;
mod runs;
mod status;
#[cfg(test)]
mod status_tests;
mod step;
#[cfg(feature = "tapes")]
mod tape_errors;
#[cfg(feature = "tapes")]
pub mod tapes;
#[cfg(test)]
mod tests;
#[cfg(feature = "traces")]
pub mod traces;

pub use addresses::AddressSet;
pub use guard::{Guarded, extract, guarded_run};
pub use lines::{Level, Lines};
pub use machine::{MEMORY_SIZE, Machine};
pub use registers::{Registers, StackPointer};
pub use run_to::{Ending, run_to};
pub use runs::{HIGHEST_BOUND, Progress, RunAnswer, long_run, run, run_cycles};
pub use status::Status;
pub use step::{HIGHEST_CYCLES, StepAnswer, single_step};
