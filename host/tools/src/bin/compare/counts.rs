//! What was compared, counted.

/// The steps by what their address put out first is.
#[derive(Default)]
pub struct Firsts {
    /// The mode has no address.
    pub none: u64,
    /// The final address.
    pub last: u64,
    /// Another one: the index carried.
    pub uncarried: u64,
}

/// What was compared with lines.
pub struct Calls {
    /// The calls that were made in both cores.
    pub in_both: u64,
    /// Those of the first part by the levels and I: the number of `Lines`, and 8 more with I set.
    pub by_levels: [u64; 16],
    /// The calls of the Rust that served a line.
    pub by_the_rust: u64,
    /// The steps of the port that served NMI, and IRQ.
    pub nmi: u64,
    pub irq: u64,
    /// The steps that the port refused with 2, and with 3.
    pub no_room: u64,
    pub no_opcode: u64,
    /// Instructions after which both served a line, or neither did, and ended alike but for the cycles.
    pub alike: u64,
    /// Instructions that cleared I while IRQ was low, so that the Rust did not yet serve it, by opcode.
    pub cleared: [u64; 256],
    /// Instructions that set I while IRQ was low, so that the Rust still served it, by opcode.
    pub set: [u64; 256],
    pub by_cycles: ByCycles,
}

impl Default for Calls {
    fn default() -> Calls {
        Calls {
            in_both: 0,
            by_levels: [0; 16],
            by_the_rust: 0,
            nmi: 0,
            irq: 0,
            no_room: 0,
            no_opcode: 0,
            alike: 0,
            cleared: [0; 256],
            set: [0; 256],
            by_cycles: ByCycles::default(),
        }
    }
}

/// What the runs by cycles came to.
#[derive(Default)]
pub struct ByCycles {
    /// By answer: 0, 2, 3, 4.
    pub answers: [u64; 4],
    /// Those with answer 0 by how many cycles more than the limit they spent.
    pub over: [u64; 7],
}
