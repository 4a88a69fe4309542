//! The proved core, by the crate saxundeer: no other file here names it.

use alloc::boxed::Box;
use alloc::vec;

use saxundeer::footprint::{reads_of, stores_of};
use saxundeer::{Lines, MEMORY_SIZE, Machine, RunAnswer, StepAnswer};

use crate::memory::{Bus, IRQ_INTERRUPT_VECTOR_LO, NMI_INTERRUPT_VECTOR_LO};
use crate::registers::{Registers, StackPointer, Status};

const BRK: u8 = 0x00;

/// What a step is to do.
#[derive(Clone, Copy)]
pub(crate) enum Work {
    /// The opcode at the counter, no line being looked at.
    Opcode,
    /// To serve NMI.
    Nmi,
    /// To serve IRQ, I being clear; its handler's address stands there.
    Irq { vector: u16 },
}

impl Work {
    /// The levels at which the core does it, NMI having been high.
    fn lines(self) -> Lines {
        match self {
            Work::Opcode => Lines::IDLE,
            Work::Nmi => Lines::NMI_LOW,
            Work::Irq { .. } => Lines::IRQ_LOW,
        }
    }
}

/// Why a step was not made. It has changed nothing.
#[derive(Clone, Copy)]
pub(crate) enum Refusal {
    NoCycleRoom,
    NotAnOpcode,
}

/// What the core keeps between two steps. That NMI was low is for the CPU to know: what it hands over says high.
#[derive(Clone, Default)]
pub(crate) struct Core(Machine);

impl Core {
    /// Takes the registers and the count of cycles of a CPU. If its program has not changed them since they were put there nothing is
    /// written: a step then begins from what the last one left, and does not wait until the number is put together again.
    #[inline]
    pub(crate) fn take(&mut self, registers: &Registers, cycles: u64) {
        let registers = saxundeer::Registers {
            accumulator: registers.accumulator,
            index_x: registers.index_x,
            index_y: registers.index_y,
            stack_pointer: saxundeer::StackPointer(registers.stack_pointer.0),
            program_counter: registers.program_counter,
            status: saxundeer::Status::from_bits_truncate(registers.status.bits()),
        };
        let machine = Machine::from(registers).with_cycles(cycles);
        if self.0 != machine {
            self.0 = machine;
        }
    }

    /// Puts the registers and the count of cycles into those of a CPU. Bits 4 and 5 of the status, which the core does not have,
    /// stay as they are there.
    #[inline]
    pub(crate) fn put(&self, registers: &mut Registers, cycles: &mut u64) {
        let after = self.0.registers();
        let no_flags = Status::PS_BRK | Status::PS_UNUSED;
        let flags = Status::from_bits_truncate(after.status.bits());
        registers.accumulator = after.accumulator;
        registers.index_x = after.index_x;
        registers.index_y = after.index_y;
        registers.stack_pointer = StackPointer(after.stack_pointer.0);
        registers.program_counter = after.program_counter;
        registers.status = flags - no_flags | registers.status & no_flags;
        *cycles = self.0.cycles;
    }

    fn counter(&self) -> u16 {
        self.0.registers().program_counter
    }

    fn go_to(&mut self, counter: u16) {
        let registers = self.0.registers();
        self.0.set_registers(saxundeer::Registers {
            program_counter: counter,
            ..registers
        });
    }

    /// One step on a plain memory.
    #[inline]
    pub(crate) fn step(&mut self, work: Work, memory: &mut [u8]) -> Result<(), Refusal> {
        match self.0.step(work.lines(), memory) {
            StepAnswer::Made { .. } => Ok(()),
            StepAnswer::NoCycleRoom(_) => Err(Refusal::NoCycleRoom),
            StepAnswer::NotAnOpcode(_) => Err(Refusal::NotAnOpcode),
            StepAnswer::MemoryNotFull(_) => unreachable!("the memory is full"),
        }
    }

    /// Steps on a plain memory until one is refused; how many were made.
    pub(crate) fn run(&mut self, memory: &mut [u8]) -> (u64, Refusal) {
        let answer = saxundeer::long_run(self.0, u64::MAX, Lines::IDLE, memory);
        let (progress, refusal) = match answer {
            RunAnswer::NoCycleRoom(progress) => (progress, Refusal::NoCycleRoom),
            RunAnswer::NotAnOpcode(progress) => (progress, Refusal::NotAnOpcode),
            // A step takes two cycles or more, so that there is no room for so many.
            other => unreachable!("a run without a bound answered {other:?}"),
        };
        self.0 = progress.machine;
        (progress.steps, refusal)
    }

    /// One step on a bus, which is called as mos6502 calls it.
    pub(crate) fn step_on<M: Bus>(
        &mut self,
        work: Work,
        bus: &mut M,
        bytes: &mut [u8],
    ) -> Result<(), Refusal> {
        let vector = match work {
            Work::Opcode => self.ask(bus, bytes),
            Work::Nmi => Some(NMI_INTERRUPT_VECTOR_LO),
            Work::Irq { vector } => Some(vector),
        };
        let stores = stores_of(self.0, work.lines(), bytes);
        self.step(work, bytes)?;
        for &address in stores.addresses() {
            bus.set_byte(address, bytes[usize::from(address)]);
        }
        if let Some(vector) = vector {
            let places = [vector, vector.wrapping_add(1)];
            self.go_to(u16::from_le_bytes(places.map(|place| bus.get_byte(place))));
        }
        Ok(())
    }

    /// Asks a bus for the bytes that the opcode at the counter reads. In `bytes` stand those that it gave last. The list of what is
    /// read is right as long as it gives these again; at another byte it is made anew, since what is read next may follow from that
    /// byte. BRK reads its vector after its stores: the vector's address is the answer, and it is not asked for yet.
    fn ask<M: Bus>(&self, bus: &mut M, bytes: &mut [u8]) -> Option<u16> {
        let opcode = usize::from(self.counter());
        let mut asked = 0;
        loop {
            let reads = reads_of(self.0, Lines::IDLE, bytes);
            let mut is_right = true;
            for (place, &address) in reads.addresses().iter().enumerate().skip(asked) {
                if place == 1 && bytes[opcode] == BRK {
                    return Some(IRQ_INTERRUPT_VECTOR_LO);
                }
                let byte = bus.get_byte(address);
                asked += 1;
                let last = &mut bytes[usize::from(address)];
                // If a step reads an address twice, the first byte counts.
                if *last != byte && !reads.addresses()[..place].contains(&address) {
                    *last = byte;
                    is_right = false;
                    break;
                }
            }
            if is_right {
                return None;
            }
        }
    }

    /// Steps on a bus until one is refused; how many were made.
    pub(crate) fn run_on<M: Bus>(&mut self, bus: &mut M, bytes: &mut [u8]) -> (u64, Refusal) {
        let mut steps = 0;
        loop {
            match self.step_on(Work::Opcode, bus, bytes) {
                Ok(()) => steps += 1,
                Err(refusal) => return (steps, refusal),
            }
        }
    }
}

/// The memory on which the core makes a step for a bus, there from the first of them on. Each step has it hold the bytes that the
/// step reads, whatever stands there, so that the copy of a CPU needs no copy of it.
#[derive(Default)]
pub(crate) struct Scratch(Option<Box<[u8]>>);

impl Clone for Scratch {
    fn clone(&self) -> Scratch {
        Scratch(None)
    }
}

impl Scratch {
    #[inline]
    pub(crate) fn bytes(&mut self) -> &mut [u8] {
        self.0
            .get_or_insert_with(|| vec![0; MEMORY_SIZE].into_boxed_slice())
    }
}
