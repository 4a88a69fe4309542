//! The Rust's `Bus`, with devices.

use oracle::mos6502::memory::Bus;
use saxundeer::devices::Device;
use saxundeer::{AddressSet, Level};

use crate::chip::{Chip, counts_of, levels_of};

/// A memory with devices at their addresses.
pub struct Wired<'a> {
    pub bytes: Vec<u8>,
    pub sets: &'a [AddressSet],
    pub chips: Vec<Chip<'a>>,
    pub step: Step,
}

/// What a call of `single_step` has done so far.
#[derive(Default)]
pub struct Step {
    /// The first byte that it read.
    pub opcode: Option<u8>,
    /// How often each device was called when the Rust, after the instruction, looked at the lines.
    pub looked: Option<Vec<usize>>,
    /// Whether it went on after that: it serves a line.
    pub serves: bool,
    /// The bytes that it stored over.
    stored_over: Vec<(u16, u8)>,
}

impl Wired<'_> {
    /// Takes back what the last call stored in memory.
    pub fn take_back(&mut self) {
        while let Some((address, byte)) = self.step.stored_over.pop() {
            self.bytes[usize::from(address)] = byte;
        }
    }

    /// The device at an address that is used: the first that has it.
    fn chip_at(&mut self, address: u16) -> Option<usize> {
        self.step.serves = self.step.looked.is_some();
        self.sets.iter().position(|set| set.contains(address))
    }
}

impl Bus for Wired<'_> {
    fn get_byte(&mut self, address: u16) -> u8 {
        let byte = match self.chip_at(address) {
            Some(chip) => self.chips[chip].get_byte(address),
            None => self.bytes[usize::from(address)],
        };
        self.step.opcode.get_or_insert(byte);
        byte
    }

    fn set_byte(&mut self, address: u16, value: u8) {
        match self.chip_at(address) {
            Some(chip) => self.chips[chip].set_byte(address, value),
            None => {
                let byte = &mut self.bytes[usize::from(address)];
                self.step.stored_over.push((address, *byte));
                *byte = value;
            }
        }
    }

    /// It is asked before the other line, and always.
    fn nmi_pending(&mut self) -> bool {
        self.step.looked = Some(counts_of(&self.chips));
        levels_of(&self.chips).nmi == Level::Low
    }

    fn irq_pending(&mut self) -> bool {
        levels_of(&self.chips).irq == Level::Low
    }
}
