//! The CPU.

use core::fmt::{self, Debug, Display, Formatter};
use core::marker::PhantomData;

use crate::memory::private::Asked;
use crate::memory::{Bus, RESET_VECTOR_HI, RESET_VECTOR_LO};
use crate::port::{Core, Refusal, Scratch, Work};
use crate::registers::{Registers, Status};
use crate::variant::Variant;

/// Whether the CPU makes steps.
#[derive(Copy, Clone, Debug, PartialEq, Eq, Default)]
pub enum WaitState {
    #[default]
    Running,
    /// Never: the NMOS 6502 has no instruction for it.
    WaitingForInterrupt,
    /// The last step was refused, at one of the twelve bytes that jam the 6502. A line, another counter or another byte there lets
    /// it go on.
    WaitingForReset,
}

/// How a run ended. It ends wherever it cannot go on, and only the program's author knows the address at which that is its end.
#[must_use = "a run ends wherever it cannot go on: ask whether it ended_at the address that was meant"]
#[derive(Clone, Copy, Debug, PartialEq, Eq)]
pub enum RunAnswer {
    /// The byte at the counter is none of the 151 documented opcodes.
    NotAnOpcode { steps: u64, address: u16, byte: u8 },
    /// The count of cycles is so high that another step might pass 64 bits.
    NoCycleRoom { steps: u64, address: u16 },
}

impl RunAnswer {
    /// Whether it came to this address and met no opcode there: the end of a program that is meant to end there.
    #[must_use]
    pub fn ended_at(&self, stop: u16) -> bool {
        matches!(self, RunAnswer::NotAnOpcode { address, .. } if *address == stop)
    }
}

impl Display for RunAnswer {
    fn fmt(&self, formatter: &mut Formatter<'_>) -> fmt::Result {
        match self {
            RunAnswer::NotAnOpcode {
                steps,
                address,
                byte,
            } => write!(
                formatter,
                "after {steps} steps it met {byte:02X} at {address:04X}, which is no documented opcode"
            ),
            RunAnswer::NoCycleRoom { steps, address } => write!(
                formatter,
                "after {steps} steps there was no room for the cycles of another one at {address:04X}"
            ),
        }
    }
}

/// The registers, the count of cycles, and the memory or the bus, which it owns.
#[derive(Clone, Default)]
pub struct CPU<M, V>
where
    M: Bus,
    V: Variant,
{
    pub registers: Registers,
    pub memory: M,
    pub cycles: u64,
    wait_state: WaitState,
    /// Whether NMI was low when it was last looked at.
    nmi_was_low: bool,
    core: Core,
    scratch: Scratch,
    variant: PhantomData<V>,
}

impl<M: Bus, V: Variant> CPU<M, V> {
    /// The registers as they are at first, and no cycle counted.
    pub fn new(memory: M, _variant: V) -> CPU<M, V> {
        CPU {
            registers: Registers::new(),
            memory,
            cycles: 0,
            wait_state: WaitState::Running,
            nmi_was_low: false,
            core: Core::default(),
            scratch: Scratch::default(),
            variant: PhantomData,
        }
    }

    /// What the reset line does: S is lowered by three, I is set, and the counter is the address at FFFC. No cycle is counted.
    pub fn reset(&mut self) {
        self.wait_state = WaitState::Running;
        self.nmi_was_low = false;
        let stack = &mut self.registers.stack_pointer;
        (0..3).for_each(|_| stack.decrement());
        self.registers.status.insert(Status::PS_DISABLE_INTERRUPTS);
        let address = [RESET_VECTOR_LO, RESET_VECTOR_HI].map(|place| self.memory.get_byte(place));
        self.registers.program_counter = u16::from_le_bytes(address);
    }

    /// One instruction, and after it the service of a line if one is due: NMI if it fell, otherwise IRQ if it is low and I is
    /// clear. Whether the instruction was made: if there is no documented opcode, or no room for its cycles, nothing is changed,
    /// and a call of [`run`](CPU::run) says which of the two it is. A line is served even so if there is no opcode.
    #[must_use = "a step that was refused has changed nothing, and would be refused again for ever"]
    #[inline]
    pub fn single_step(&mut self) -> bool {
        let made = self.step(Work::Opcode);
        if let Err(refusal) = made {
            self.wait_state = self.wait_state_after(refusal);
            if let Refusal::NoCycleRoom = refusal {
                return false;
            }
        } else {
            self.wait_state = WaitState::Running;
        }
        self.look_at_lines(made.is_ok());
        made.is_ok()
    }

    /// Whether the last step met a byte that jams the 6502.
    #[must_use]
    pub const fn wait_state(&self) -> WaitState {
        self.wait_state
    }

    /// Steps until one is refused, without a look at the lines. On a [`Memory`](crate::memory::Memory) this is the quick run.
    pub fn run(&mut self) -> RunAnswer {
        self.core.take(&self.registers, self.cycles);
        let (steps, refusal) = match self.memory.plain_bytes(Asked) {
            Some(bytes) => self.core.run(bytes),
            None => self.core.run_on(&mut self.memory, self.scratch.bytes()),
        };
        self.core.put(&mut self.registers, &mut self.cycles);
        self.wait_state = self.wait_state_after(refusal);
        let address = self.registers.program_counter;
        match refusal {
            Refusal::NoCycleRoom => RunAnswer::NoCycleRoom { steps, address },
            Refusal::NotAnOpcode => RunAnswer::NotAnOpcode {
                steps,
                address,
                byte: self.byte_met(),
            },
        }
    }

    /// One step; a refused one changes nothing.
    #[inline]
    fn step(&mut self, work: Work) -> Result<(), Refusal> {
        self.core.take(&self.registers, self.cycles);
        match self.memory.plain_bytes(Asked) {
            Some(bytes) => self.core.step(work, bytes)?,
            None => self
                .core
                .step_on(work, &mut self.memory, self.scratch.bytes())?,
        }
        self.core.put(&mut self.registers, &mut self.cycles);
        Ok(())
    }

    /// Asks the bus for the levels of the lines, as mos6502 does and as often, and serves one that is due. A level is recorded with
    /// a step that was made, and not with a refused one.
    #[inline]
    fn look_at_lines(&mut self, is_made: bool) {
        let nmi_is_low = self.memory.nmi_pending();
        let due = if nmi_is_low && !self.nmi_was_low {
            Some(Work::Nmi)
        } else if self.memory.irq_pending() && !self.is_masked() {
            let vector = self.memory.irq_vector();
            Some(Work::Irq { vector })
        } else {
            None
        };
        let is_recorded = match due {
            None => is_made,
            Some(work) => self.step(work).is_ok(),
        };
        if is_recorded {
            self.nmi_was_low = nmi_is_low;
        }
        if is_recorded && due.is_some() {
            self.wait_state = WaitState::Running;
        }
    }

    fn is_masked(&self) -> bool {
        let status = self.registers.status;
        status.contains(Status::PS_DISABLE_INTERRUPTS)
    }

    /// The byte at the counter that a step has just met; a bus is not asked once more.
    fn byte_met(&mut self) -> u8 {
        let place = usize::from(self.registers.program_counter);
        match self.memory.plain_bytes(Asked) {
            Some(bytes) => bytes[place],
            None => self.scratch.bytes()[place],
        }
    }

    /// The 6502 is jammed by x2, but for 82, A2, C2 and E2.
    fn wait_state_after(&mut self, refusal: Refusal) -> WaitState {
        match refusal {
            Refusal::NotAnOpcode => match self.byte_met() {
                0x82 | 0xC2 | 0xE2 => WaitState::Running,
                byte if byte & 0x0F == 0x02 => WaitState::WaitingForReset,
                _ => WaitState::Running,
            },
            Refusal::NoCycleRoom => WaitState::Running,
        }
    }
}

/// As mos6502 writes it.
impl<M: Bus, V: Variant> Debug for CPU<M, V> {
    fn fmt(&self, formatter: &mut Formatter<'_>) -> fmt::Result {
        write!(formatter, "CPU {{ registers: {:?}", self.registers)
    }
}
