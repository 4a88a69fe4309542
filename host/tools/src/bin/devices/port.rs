//! The port, with the same devices.

use oracle::interrupts;
use oracle::state::{RUST_AND_PORT, State, difference};
use saxundeer::devices::{Placed, run_with, step_with};
use saxundeer::{AddressSet, Level, Lines, Machine, RunAnswer, StepAnswer};
use tools::states::state_of;

use crate::chip::{Chip, levels_of};

pub struct Port<'a> {
    pub machine: Machine,
    pub memory: Vec<u8>,
    pub sets: &'a [AddressSet],
    pub chips: Vec<Chip<'a>>,
}

fn placed<'a>(sets: &'a [AddressSet], chips: &'a mut [Chip<'_>]) -> Vec<Placed<'a>> {
    let both = sets.iter().zip(chips);
    both.map(|(addresses, device)| Placed { addresses, device })
        .collect()
}

impl Port<'_> {
    /// One step; whether it was made.
    pub fn step(&mut self) -> bool {
        let devices = &mut placed(self.sets, &mut self.chips);
        match step_with(self.machine, Lines::IDLE, devices, &mut self.memory) {
            StepAnswer::Made { machine, .. } => {
                self.machine = machine;
                true
            }
            _ => false,
        }
    }

    /// A run of so many steps, all of which are to be made.
    pub fn run(&mut self, bound: u64) -> Result<(), String> {
        let devices = &mut placed(self.sets, &mut self.chips);
        match run_with(self.machine, bound, Lines::IDLE, devices, &mut self.memory) {
            RunAnswer::Made(progress) if progress.steps == bound => {
                self.machine = progress.machine;
                Ok(())
            }
            other => Err(format!("it answered {other:?}")),
        }
    }

    /// Whether its next step serves a line, by the rules.
    pub fn is_due(&self) -> bool {
        let level = |level| match level {
            Level::High => interrupts::Level::High,
            Level::Low => interrupts::Level::Low,
        };
        let levels = levels_of(&self.chips);
        let lines = interrupts::Lines {
            irq: level(levels.irq),
            nmi: level(levels.nmi),
            last_nmi: level(self.machine.last_nmi()),
        };
        lines.due(&state_of(&self.machine)).is_some()
    }

    /// That its registers are those of the Rust, whose cycles are a listed difference.
    pub fn same_registers(&self, rust: &State) -> Result<(), String> {
        let port = state_of(&self.machine);
        let rust = State {
            cycles: port.cycles,
            ..*rust
        };
        difference(RUST_AND_PORT, &rust, &port).map_or(Ok(()), Err)
    }

    /// That its bytes are those of the Rust where no device stands.
    pub fn same_bytes(&self, rust: &[u8]) -> Result<(), String> {
        let is_other = |address: &u16| {
            let place = usize::from(*address);
            let is_device = self.sets.iter().any(|set| set.contains(*address));
            !is_device && rust[place] != self.memory[place]
        };
        match (0..=0xFFFF).find(is_other) {
            None => Ok(()),
            Some(address) => Err(format!("the byte at {address:04X} is another")),
        }
    }
}
