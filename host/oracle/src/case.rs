//! One input of a step: the state before it, the lines, and the bytes that matter. All other bytes are 0, or anything.

use std::fmt::{Display, Formatter, Result};

use crate::accesses::Access;
use crate::interrupts::Lines;
use crate::random::Random;
use crate::rules::{self, Entry};
use crate::state::State;

#[derive(Clone)]
pub struct Case {
    pub state: State,
    pub lines: Lines,
    pub bytes: Vec<(u16, u8)>,
}

impl Case {
    /// With idle lines and no bytes.
    #[must_use]
    pub fn new(state: State) -> Case {
        Case {
            state,
            lines: Lines::IDLE,
            bytes: Vec::with_capacity(8),
        }
    }

    /// One of an opcode, random, with all that its step reads.
    pub fn random(entry: Entry, random: &mut Random) -> Case {
        let mut case = Case::new(random.state());
        case.put_code(&[entry.opcode]);
        case.fill(random);
        case
    }

    /// The case that a step from this state with these lines on this memory is.
    #[must_use]
    pub fn of_memory(state: State, lines: Lines, accesses: &[Access], memory: &[u8]) -> Case {
        let mut case = Case {
            lines,
            ..Case::new(state)
        };
        for access in accesses {
            if let Access::Read(address) = *access {
                case.put(address, memory[usize::from(address)]);
            }
        }
        case
    }

    /// Puts a byte, also in place of an earlier one.
    pub fn put(&mut self, address: u16, byte: u8) {
        match self.bytes.iter_mut().find(|(place, _)| *place == address) {
            Some(found) => found.1 = byte,
            None => self.bytes.push((address, byte)),
        }
    }

    fn find(&self, address: u16) -> Option<u8> {
        let found = self.bytes.iter().find(|(place, _)| *place == address);
        found.map(|(_, byte)| *byte)
    }

    #[must_use]
    pub fn byte(&self, address: u16) -> u8 {
        self.find(address).unwrap_or(0)
    }

    /// Puts the opcode and its operands at the counter, over anything that stands there.
    pub fn put_code(&mut self, code: &[u8]) {
        for (offset, byte) in (0..).zip(code) {
            self.put(self.state.counter.wrapping_add(offset), *byte);
        }
    }

    #[must_use]
    pub fn entry(&self) -> Option<Entry> {
        rules::entry(self.byte(self.state.counter))
    }

    /// What one of the two cores reads and stores: the rules' list for the byte at the counter, which is itself all of it
    /// where it is no opcode; and where a line is served, its step besides.
    fn accesses(&self, list: &mut Vec<Access>) {
        match self.entry() {
            Some(entry) => entry.accesses(&self.state, |address| self.byte(address), list),
            None => {
                list.clear();
                list.push(Access::Read(self.state.counter));
            }
        }
        if let Some(line) = self.lines.due(&self.state) {
            list.extend(line.accesses(&self.state));
        }
    }

    /// Gives every byte that the step reads and that was not put a random value, pointers first.
    pub fn fill(&mut self, random: &mut Random) {
        let mut accesses = Vec::with_capacity(12);
        loop {
            self.accesses(&mut accesses);
            let missing = accesses.iter().find_map(|access| match *access {
                Access::Read(address) if self.find(address).is_none() => Some(address),
                _ => None,
            });
            match missing {
                Some(address) => self.bytes.push((address, random.byte())),
                None => return,
            }
        }
    }

    /// The same case with no byte but those that the step reads, in the order in which it does.
    #[must_use]
    pub fn smallest(&self) -> Case {
        let mut smallest = Case {
            bytes: Vec::new(),
            ..self.clone()
        };
        let mut accesses = Vec::new();
        self.accesses(&mut accesses);
        for access in accesses {
            if let Access::Read(address) = access {
                smallest.put(address, self.byte(address));
            }
        }
        smallest
    }

    /// A full memory with these bytes, all others 0.
    #[must_use]
    pub fn memory(&self) -> Vec<u8> {
        let mut memory = vec![0; 65_536];
        for (address, byte) in &self.bytes {
            memory[usize::from(*address)] = *byte;
        }
        memory
    }
}

/// The opcode, the state, the bytes with their addresses, and the lines where they are not idle.
impl Display for Case {
    fn fmt(&self, formatter: &mut Formatter) -> Result {
        write!(
            formatter,
            "{:02X} {} |",
            self.byte(self.state.counter),
            self.state
        )?;
        for (address, byte) in &self.bytes {
            write!(formatter, " {byte:02X}@{address:04X}")?;
        }
        write!(formatter, "{}", self.lines)
    }
}
