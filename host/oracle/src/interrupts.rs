//! P6 of docs/RULES.md, the interrupt lines, written out from the rules alone: which line a step serves, and everything that
//! this leaves.

use std::fmt::{Display, Formatter, Result};

use crate::accesses::Access::{self, Read, Store};
use crate::addresses::join;
use crate::state::State;

#[derive(Clone, Copy, Debug, PartialEq, Eq)]
pub enum Level {
    High,
    Low,
}

/// What a step is given of the lines: their present levels, and the one that NMI had at the last step made.
#[derive(Clone, Copy, Debug, PartialEq, Eq)]
pub struct Lines {
    pub irq: Level,
    pub nmi: Level,
    pub last_nmi: Level,
}

#[derive(Clone, Copy, Debug, PartialEq, Eq)]
pub enum Line {
    Nmi,
    Irq,
}

/// What a step that serves a line stores, in its order, and the state after it.
pub struct Service {
    pub pushed: [(u16, u8); 3],
    pub after: State,
}

impl Lines {
    pub const IDLE: Lines = Lines {
        irq: Level::High,
        nmi: Level::High,
        last_nmi: Level::High,
    };

    /// The eight of them.
    pub fn all() -> impl Iterator<Item = Lines> {
        (0..8).map(|number| {
            let [nmi, irq, last_nmi] = [1, 2, 4].map(|bit| match number & bit {
                0 => Level::High,
                _ => Level::Low,
            });
            Lines { irq, nmi, last_nmi }
        })
    }

    /// Bit 0 is set where NMI is low, bit 1 where IRQ is, bit 2 where NMI was.
    #[must_use]
    pub fn number(self) -> u8 {
        let bit = |level| u8::from(level == Level::Low);
        bit(self.nmi) | bit(self.irq) << 1 | bit(self.last_nmi) << 2
    }

    /// The line that a step from this state serves. NMI falls where its last level is high and the present one low.
    #[must_use]
    pub fn due(self, state: &State) -> Option<Line> {
        let falls = self.last_nmi == Level::High && self.nmi == Level::Low;
        let calls = self.irq == Level::Low && !state.is_masked();
        match (falls, calls) {
            (true, _) => Some(Line::Nmi),
            (false, true) => Some(Line::Irq),
            (false, false) => None,
        }
    }
}

/// Nothing where they are idle.
impl Display for Lines {
    fn fmt(&self, formatter: &mut Formatter) -> Result {
        let name = |level| match level {
            Level::High => "high",
            Level::Low => "low",
        };
        if *self == Lines::IDLE {
            return Ok(());
        }
        write!(
            formatter,
            " | IRQ {}, NMI {}, before {}",
            name(self.irq),
            name(self.nmi),
            name(self.last_nmi)
        )
    }
}

impl Line {
    #[must_use]
    pub fn vector(self) -> [u16; 2] {
        match self {
            Line::Nmi => [0xFFFA, 0xFFFB],
            Line::Irq => [0xFFFE, 0xFFFF],
        }
    }

    /// The step that serves it. The bytes are those before it: no push reaches a vector.
    pub fn service(self, before: &State, byte: impl Fn(u16) -> u8) -> Service {
        let [low, high] = before.counter.to_le_bytes();
        let status = before.status & !0x10 | 0x20;
        let [vector_low, vector_high] = self.vector().map(byte);
        Service {
            pushed: [
                (before.in_stack(0), high),
                (before.in_stack(0xFF), low),
                (before.in_stack(0xFE), status),
            ],
            after: State {
                counter: join(vector_low, vector_high),
                stack: before.stack.wrapping_sub(3),
                status: before.status | State::MASK,
                cycles: before.cycles + 7,
                ..*before
            },
        }
    }

    /// What that step reads and stores, in order.
    #[must_use]
    pub fn accesses(self, before: &State) -> [Access; 5] {
        let [first, second] = self.vector();
        let pushes = [0, 0xFF, 0xFE].map(|offset| Store(before.in_stack(offset)));
        [pushes[0], pushes[1], pushes[2], Read(first), Read(second)]
    }
}
