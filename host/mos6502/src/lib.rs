//! The crate mos6502 0.10.1, its NMOS part, over a proved core: the same module paths and names, so that a program written for that
//! crate compiles with the path of the dependency changed and nothing else.
//!
//! ```
//! use mos6502::cpu::CPU;
//! use mos6502::instruction::Nmos6502;
//! use mos6502::memory::{Bus, Memory};
//!
//! let mut cpu = CPU::new(Memory::new(), Nmos6502);
//! cpu.memory.set_bytes(0x0200, &[0xA9, 0x05, 0x02]); // LDA #$05, and a byte that is no opcode
//! cpu.registers.program_counter = 0x0200;
//! let answer = cpu.run();
//! assert!(answer.ended_at(0x0202), "it went astray: {answer}");
//! assert_eq!(cpu.registers.accumulator, 0x05);
//! ```
//!
//! README.md of this package says what is another here, and what cannot be had.
#![no_std]

extern crate alloc;
#[cfg(test)]
extern crate std;

pub mod cpu;
pub mod instruction;
pub mod memory;
mod port;
pub mod registers;
mod status;
#[cfg(test)]
mod tests;
mod variant;

pub use variant::Variant;
