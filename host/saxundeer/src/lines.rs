//! The interrupt lines.

/// The level of a line. Both lines of the 6502 are at rest while they are high.
#[derive(Clone, Copy, Debug, Default, PartialEq, Eq, Hash)]
pub enum Level {
    #[default]
    High,
    Low,
}

/// The present levels of the two interrupt lines, which hold for a whole call.
///
/// NMI is served once, at the first step after it fell: a step at which it is low while it was high at the last step made
/// ([`Machine::last_nmi`](crate::Machine::last_nmi)). To be served again it has to be high for at least one step. IRQ is served
/// whenever it is low and the flag I is clear, so that a device holds it low until it was answered, and no longer.
/// Both are high by default.
#[derive(Clone, Copy, Debug, Default, PartialEq, Eq, Hash)]
pub struct Lines {
    pub irq: Level,
    pub nmi: Level,
}

impl Lines {
    /// Both are high: nothing is served.
    pub const IDLE: Lines = Lines {
        irq: Level::High,
        nmi: Level::High,
    };
    /// IRQ is low, NMI is high.
    pub const IRQ_LOW: Lines = Lines {
        irq: Level::Low,
        ..Lines::IDLE
    };
    /// NMI is low, IRQ is high.
    pub const NMI_LOW: Lines = Lines {
        nmi: Level::Low,
        ..Lines::IDLE
    };

    /// The levels of lines that two pull, wired together: each is low if either pulls it low.
    #[must_use]
    #[inline]
    pub fn wired_with(self, other: Lines) -> Lines {
        Lines {
            irq: self.irq.wired_with(other.irq),
            nmi: self.nmi.wired_with(other.nmi),
        }
    }

    /// The byte that the C functions take.
    #[inline]
    pub(crate) fn byte(self) -> u8 {
        self.nmi.bit() | self.irq.bit() << 1
    }
}

impl Level {
    /// Low if either is low.
    #[inline]
    fn wired_with(self, other: Level) -> Level {
        match (self, other) {
            (Level::High, Level::High) => Level::High,
            _ => Level::Low,
        }
    }

    /// Set if it is low, as in the numbers of the C functions.
    #[inline]
    pub(crate) fn bit(self) -> u8 {
        match self {
            Level::High => 0,
            Level::Low => 1,
        }
    }

    #[inline]
    pub(crate) fn from_bit(bit: u8) -> Level {
        if bit & 1 == 0 {
            Level::High
        } else {
            Level::Low
        }
    }
}
