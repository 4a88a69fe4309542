//! The registers by value, with the names of the crate mos6502, and as the number that the C functions take.

use crate::status::Status;

/// The low byte of the stack's next free address; its page is 01.
#[derive(Clone, Copy, Debug, Default, PartialEq, Eq, PartialOrd, Ord, Hash)]
pub struct StackPointer(pub u8);

#[derive(Clone, Copy, Debug, Default, PartialEq, Eq, Hash)]
pub struct Registers {
    pub accumulator: u8,
    pub index_x: u8,
    pub index_y: u8,
    pub stack_pointer: StackPointer,
    pub program_counter: u16,
    pub status: Status,
}

impl Registers {
    /// All 0, and only I set, as in mos6502.
    #[must_use]
    pub fn new() -> Registers {
        Registers::default()
    }

    /// Bits 0 to 55 of the number.
    #[inline]
    pub(crate) fn number(self) -> u64 {
        let [low, high] = self.program_counter.to_le_bytes();
        u64::from_le_bytes([
            self.accumulator,
            self.index_x,
            self.index_y,
            self.stack_pointer.0,
            self.status.bits(),
            low,
            high,
            0,
        ])
    }

    /// The registers of a number.
    #[inline]
    pub(crate) fn from_number(number: u64) -> Registers {
        let [accumulator, index_x, index_y, stack, status, low, high, _] = number.to_le_bytes();
        Registers {
            accumulator,
            index_x,
            index_y,
            stack_pointer: StackPointer(stack),
            program_counter: u16::from_le_bytes([low, high]),
            status: Status::from_bits_truncate(status),
        }
    }
}
