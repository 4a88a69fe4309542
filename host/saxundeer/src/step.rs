//! One step.

use crate::answers;
use crate::functions;
use crate::lines::Lines;
use crate::machine::Machine;

/// The highest count of cycles from which there is a step: no step takes more than 7.
pub const HIGHEST_CYCLES: u64 = u64::MAX - 7;

/// What a step answers; a refusal has the machine that was given.
#[must_use = "a step may be refused: only Made has made it"]
#[derive(Clone, Copy, Debug, PartialEq, Eq, Hash)]
pub enum StepAnswer {
    /// The machine after the step, and the first address on the bus: if an index is added to an address of two bytes, the
    /// base's high byte with the sum's low byte; in every other mode that has an address, the final one; 0 if the mode has none
    /// (implied, accumulator, immediate, branch) and if a line is served.
    Made { machine: Machine, first: u16 },
    /// The memory is not `MEMORY_SIZE` long.
    MemoryNotFull(Machine),
    /// The count of cycles is above `HIGHEST_CYCLES`.
    NoCycleRoom(Machine),
    /// No line is served, and the byte at the program counter is none of the 151 documented opcodes.
    NotAnOpcode(Machine),
}

impl StepAnswer {
    /// What the C function means that refused a step of this machine with this answer. Apart from the step, so that one that is made
    /// has a single test.
    #[cold]
    fn from_refusal(answer: u8, machine: Machine) -> StepAnswer {
        match answer {
            answers::MEMORY_NOT_FULL => StepAnswer::MemoryNotFull(machine),
            answers::NO_CYCLE_ROOM => StepAnswer::NoCycleRoom(machine),
            answers::NOT_AN_OPCODE => StepAnswer::NotAnOpcode(machine),
            _ => answers::unknown(
                functions::mos6502_step_version_1_run_rt_staticlib_mos6502_step,
                answer.into(),
            ),
        }
    }
}

/// One step. It serves NMI if that falls, otherwise IRQ if that is low and I is clear; otherwise it carries out the opcode at
/// the counter. To serve a line takes 7 cycles and reads no opcode: the counter and the status byte, bit 4 clear and bit 5 set, are
/// pushed, I is set, and the counter becomes the address at FFFA for NMI, at FFFE for IRQ. A refusal changes no byte. The machine goes
/// in and comes back by value; [`Machine::step`] renews one that is kept, and is a little quicker.
#[inline]
pub fn single_step(mut machine: Machine, lines: Lines, memory: &mut [u8]) -> StepAnswer {
    machine.step(lines, memory)
}

impl Machine {
    /// One step as by [`single_step`], on a machine that is kept: it is renewed, and stays as it was if the step
    /// is refused. The answer is the same.
    #[inline]
    pub fn step(&mut self, lines: Lines, memory: &mut [u8]) -> StepAnswer {
        let (registers, cycles) = self.numbers();
        let mut first = 0;
        // Sound: the three numbers are this function's own or lent to it, and so is the memory, whose length it is.
        let answer = unsafe {
            functions::mos6502_step(
                registers,
                cycles,
                lines.byte(),
                &mut first,
                memory.as_mut_ptr(),
                memory.len(),
            )
        };
        let machine = *self;
        match answer {
            answers::NOT_REFUSED => StepAnswer::Made { machine, first },
            _ => StepAnswer::from_refusal(answer, machine),
        }
    }
}
