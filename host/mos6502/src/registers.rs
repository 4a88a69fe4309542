//! The registers.

pub use crate::status::{Status, StatusArgs};

/// The low byte of the stack's next free address; its page is 01.
#[derive(Copy, Clone, PartialEq, Eq, PartialOrd, Ord, Debug)]
pub struct StackPointer(pub u8);

impl StackPointer {
    /// The whole address.
    #[must_use]
    pub const fn to_u16(self) -> u16 {
        u16::from_le_bytes([self.0, 0x01])
    }

    /// One lower; FF after 00.
    pub const fn decrement(&mut self) {
        self.0 = self.0.wrapping_sub(1);
    }

    /// One higher; 00 after FF.
    pub const fn increment(&mut self) {
        self.0 = self.0.wrapping_add(1);
    }
}

#[derive(Copy, Clone, PartialEq, Eq, Debug)]
pub struct Registers {
    pub accumulator: u8,
    pub index_x: u8,
    pub index_y: u8,
    pub stack_pointer: StackPointer,
    pub program_counter: u16,
    pub status: Status,
    /// Mapping registers that only another kind of 6502 has. No step uses or changes them; they are here for the program that names
    /// them.
    pub mpr: [u8; 8],
}

impl Default for Registers {
    fn default() -> Registers {
        Registers::new()
    }
}

impl Registers {
    /// All 0, and the status as it is at first.
    #[must_use]
    pub fn new() -> Registers {
        Registers {
            accumulator: 0,
            index_x: 0,
            index_y: 0,
            stack_pointer: StackPointer(0),
            program_counter: 0,
            status: Status::default(),
            mpr: [0; 8],
        }
    }

    /// An address by the mapping registers.
    #[must_use]
    pub const fn physical_address(&self, logical: u16) -> u32 {
        map_physical_address(&self.mpr, logical)
    }
}

/// An address by mapping registers: the one of its highest three bits stands in their place.
#[must_use]
pub const fn map_physical_address(mpr: &[u8; 8], logical: u16) -> u32 {
    (mpr[(logical >> 13) as usize] as u32) << 13 | (logical & 0x1FFF) as u32
}
