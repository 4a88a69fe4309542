//! The Rust's core on a plain memory that records every access, and with the two lines.

use mos6502::cpu::CPU;
use mos6502::instruction::Nmos6502;
use mos6502::memory::Bus;

use crate::accesses::Access;
use crate::interrupts::{Level, Lines};
use crate::state::State;

struct Recorder {
    bytes: Vec<u8>,
    accesses: Vec<Access>,
    /// What stood where something was stored, in the order of the stores.
    replaced: Vec<(u16, u8)>,
    irq: Level,
    nmi: Level,
    /// What NMI was when the Rust last looked.
    seen_nmi: Level,
    /// Every byte reads as NOP, and nothing is stored.
    blind: bool,
}

impl Bus for Recorder {
    fn get_byte(&mut self, address: u16) -> u8 {
        if self.blind {
            return 0xEA;
        }
        self.accesses.push(Access::Read(address));
        self.bytes[usize::from(address)]
    }

    fn set_byte(&mut self, address: u16, value: u8) {
        if self.blind {
            return;
        }
        self.accesses.push(Access::Store(address));
        let byte = &mut self.bytes[usize::from(address)];
        self.replaced.push((address, *byte));
        *byte = value;
    }

    fn nmi_pending(&mut self) -> bool {
        self.seen_nmi = self.nmi;
        self.nmi == Level::Low
    }

    fn irq_pending(&mut self) -> bool {
        self.irq == Level::Low
    }
}

pub struct Core(CPU<Recorder, Nmos6502>);

impl Core {
    #[must_use]
    pub fn new(bytes: Vec<u8>) -> Core {
        let recorder = Recorder {
            bytes,
            accesses: Vec::new(),
            replaced: Vec::new(),
            irq: Level::High,
            nmi: Level::High,
            seen_nmi: Level::High,
            blind: false,
        };
        Core(CPU::new(recorder, Nmos6502))
    }

    /// One step with idle lines; none where the Rust says that it made none.
    pub fn step(&mut self, before: &State) -> Option<State> {
        self.step_with(before, Lines::IDLE)
    }

    /// The same with lines.
    pub fn step_with(&mut self, before: &State, lines: Lines) -> Option<State> {
        self.call(before, lines).then(|| self.state())
    }

    /// One call of `single_step`, and what that says.
    pub fn call(&mut self, before: &State, lines: Lines) -> bool {
        self.show_last_nmi(lines.last_nmi);
        before.put(&mut self.0);
        let memory = &mut self.0.memory;
        memory.accesses.clear();
        memory.replaced.clear();
        [memory.irq, memory.nmi] = [lines.irq, lines.nmi];
        self.0.single_step()
    }

    /// A call of `run`, which ends only at a byte that the Rust cannot decode or that halts it.
    #[cfg(test)]
    pub(crate) fn run(&mut self, before: &State, lines: Lines) {
        before.put(&mut self.0);
        [self.0.memory.irq, self.0.memory.nmi] = [lines.irq, lines.nmi];
        self.0.run();
    }

    #[must_use]
    pub fn state(&self) -> State {
        State::of(&self.0)
    }

    /// The Rust keeps the last level of NMI to itself: where it is another, a step on a blind memory lets it see this one.
    fn show_last_nmi(&mut self, level: Level) {
        let memory = &mut self.0.memory;
        if memory.seen_nmi != level {
            memory.blind = true;
            [memory.irq, memory.nmi] = [Level::High, level];
            self.0.single_step();
            self.0.memory.blind = false;
        }
    }

    /// Takes the stores of the last step back.
    pub fn undo(&mut self) {
        let memory = &mut self.0.memory;
        for (address, byte) in memory.replaced.drain(..).rev() {
            memory.bytes[usize::from(address)] = byte;
        }
    }

    /// What the last step read and stored, in its order.
    #[must_use]
    pub fn accesses(&self) -> &[Access] {
        &self.0.memory.accesses
    }

    #[must_use]
    pub fn bytes(&self) -> &[u8] {
        &self.0.memory.bytes
    }

    pub fn put(&mut self, address: u16, byte: u8) {
        self.0.memory.bytes[usize::from(address)] = byte;
    }
}
