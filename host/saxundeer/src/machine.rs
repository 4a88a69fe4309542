//! What is kept between the calls.

use core::fmt::{Debug, Formatter, Result};

use crate::lines::Level;
use crate::registers::{Registers, StackPointer};
use crate::status::Status;

/// The only length of memory on which there are steps.
pub const MEMORY_SIZE: usize = 65_536;

/// Where the last level of NMI stands in the number of the registers: set if it was low.
const NMI_SHIFT: u32 = 56;

/// The registers, the count of cycles, and the last level of NMI.
///
/// ```
/// use saxundeer::{Machine, Registers};
///
/// let mut machine = Machine::from(Registers { program_counter: 0x0200, ..Registers::new() });
/// machine.set_registers(Registers { index_x: 7, ..machine.registers() });
/// assert_eq!(machine.registers().index_x, 7);
/// assert_eq!(machine.registers().program_counter, 0x0200);
/// ```
#[derive(Clone, Copy, PartialEq, Eq, Hash)]
pub struct Machine {
    /// As the C functions take them, with the last level of NMI: so a step has nothing to put together and to take apart.
    registers: u64,
    pub cycles: u64,
}

impl Machine {
    /// The registers of mos6502 at first: all 0, and only I set. No cycle is counted, and the last level of NMI is high.
    #[must_use]
    pub fn new() -> Machine {
        Machine::from(Registers::new())
    }

    /// What the reset line of the 6502 does, as in mos6502: S is lowered by three, I is set, the counter is the address at FFFC, and
    /// the last level of NMI is high. None if the memory is not `MEMORY_SIZE` long.
    #[must_use]
    pub fn reset(self, memory: &[u8]) -> Option<Machine> {
        if memory.len() != MEMORY_SIZE {
            return None;
        }
        let mut registers = self.registers();
        registers.stack_pointer = StackPointer(registers.stack_pointer.0.wrapping_sub(3));
        registers.program_counter = u16::from_le_bytes([memory[0xFFFC], memory[0xFFFD]]);
        registers.status.insert(Status::PS_DISABLE_INTERRUPTS);
        Some(self.with_registers(registers).with_last_nmi(Level::High))
    }

    /// As the program `report` starts an image: the counter is the address at FFFC, A, X and Y are 00, S is FF, only I is
    /// set, no cycle is counted, and the last level of NMI is high. None if the memory is not `MEMORY_SIZE` long.
    #[must_use]
    pub fn start(memory: &[u8]) -> Option<Machine> {
        let registers = Machine::new().reset(memory)?.registers();
        Some(Machine::from(Registers {
            stack_pointer: StackPointer(0xFF),
            ..registers
        }))
    }

    /// The registers.
    #[must_use]
    #[inline]
    pub fn registers(self) -> Registers {
        Registers::from_number(self.registers)
    }

    /// Gives it these registers; the cycles and the last level of NMI stay.
    #[inline]
    pub fn set_registers(&mut self, registers: Registers) {
        *self = self.with_registers(registers);
    }

    /// The same machine with these registers.
    #[must_use]
    #[inline]
    pub fn with_registers(self, registers: Registers) -> Machine {
        Machine {
            cycles: self.cycles,
            ..Machine::from(registers).with_last_nmi(self.last_nmi())
        }
    }

    /// The same machine with this count of cycles.
    #[must_use]
    #[inline]
    pub fn with_cycles(self, cycles: u64) -> Machine {
        Machine { cycles, ..self }
    }

    /// The level of NMI at the last step made; high at first. A refused step keeps it.
    #[must_use]
    #[inline]
    pub fn last_nmi(self) -> Level {
        Level::from_bit((self.registers >> NMI_SHIFT) as u8)
    }

    /// Gives it this last level of NMI.
    #[inline]
    pub fn set_last_nmi(&mut self, level: Level) {
        *self = self.with_last_nmi(level);
    }

    /// The same machine with this last level of NMI.
    #[must_use]
    #[inline]
    pub fn with_last_nmi(self, level: Level) -> Machine {
        let others = self.registers & !(1 << NMI_SHIFT);
        Machine {
            registers: others | u64::from(level.bit()) << NMI_SHIFT,
            ..self
        }
    }

    /// The number that the C functions take for the registers, with the last level of NMI.
    #[cfg(any(test, feature = "devices"))]
    #[inline]
    pub(crate) fn number(self) -> u64 {
        self.registers
    }

    /// The two numbers that the C functions renew, or leave as they are.
    #[inline]
    pub(crate) fn numbers(&mut self) -> (&mut u64, &mut u64) {
        (&mut self.registers, &mut self.cycles)
    }
}

impl Default for Machine {
    fn default() -> Machine {
        Machine::new()
    }
}

/// No cycle is counted, and the last level of NMI is high.
impl From<Registers> for Machine {
    #[inline]
    fn from(registers: Registers) -> Machine {
        Machine {
            registers: registers.number(),
            cycles: 0,
        }
    }
}

/// The registers by name.
impl Debug for Machine {
    fn fmt(&self, formatter: &mut Formatter<'_>) -> Result {
        formatter
            .debug_struct("Machine")
            .field("registers", &self.registers())
            .field("cycles", &self.cycles)
            .field("last_nmi", &self.last_nmi())
            .finish()
    }
}
