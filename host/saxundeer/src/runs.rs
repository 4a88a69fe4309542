//! The runs: by steps, by any number of them, and by cycles.

use crate::answers::{self, Version};
use crate::functions::{self, RunFunction};
use crate::lines::Lines;
use crate::machine::Machine;

/// The highest bound of `run`, and the highest limit of `run_cycles`.
pub const HIGHEST_BOUND: u64 = 1_000_000;

/// The steps that a run made, and the machine after them.
#[derive(Clone, Copy, Debug, Default, PartialEq, Eq, Hash)]
pub struct Progress {
    pub steps: u64,
    pub machine: Machine,
}

/// What a run answers: it came as far as was asked for, or why it stopped. A refused step is not counted.
#[must_use = "a run may have stopped early: only Made came as far as was asked for"]
#[derive(Clone, Copy, Debug, PartialEq, Eq, Hash)]
pub enum RunAnswer {
    /// All the steps that were asked for were made or, in a run by cycles, the cycles of the limit or more were spent: the
    /// program was still running.
    Made(Progress),
    MemoryNotFull(Progress),
    NoCycleRoom(Progress),
    NotAnOpcode(Progress),
    /// The bound of a `run` or the limit of a `run_cycles` is above `HIGHEST_BOUND`.
    BoundTooHigh(Progress),
}

impl RunAnswer {
    /// What a C function means that came so far and answered so, in an archive of that version.
    pub(crate) fn from_answer(answer: u8, progress: Progress, version: Version) -> RunAnswer {
        match answer {
            answers::NOT_REFUSED => RunAnswer::Made(progress),
            answers::MEMORY_NOT_FULL => RunAnswer::MemoryNotFull(progress),
            answers::NO_CYCLE_ROOM => RunAnswer::NoCycleRoom(progress),
            answers::NOT_AN_OPCODE => RunAnswer::NotAnOpcode(progress),
            answers::BOUND_TOO_HIGH => RunAnswer::BoundTooHigh(progress),
            _ => answers::unknown(version, answer.into()),
        }
    }
}

/// At most `bound` steps with the lines at these levels in all of them, and `BoundTooHigh` if that is above
/// `HIGHEST_BOUND`. NMI is served in the first of the steps or in none.
pub fn run(machine: Machine, bound: u64, lines: Lines, memory: &mut [u8]) -> RunAnswer {
    run_by(functions::mos6502_run, machine, bound, lines, memory)
}

/// At most `bound` steps, any number of them: never `BoundTooHigh`, and otherwise as `run`.
pub fn long_run(machine: Machine, bound: u64, lines: Lines, memory: &mut [u8]) -> RunAnswer {
    run_by(functions::mos6502_long_run, machine, bound, lines, memory)
}

/// A run by cycles: before each step it looks whether `limit` or more are spent, and is over once they are. It spends at most
/// `limit` + 6, none if `limit` is 0, and makes at most (`limit` + 1) / 2 steps; `BoundTooHigh` if `limit` is above
/// `HIGHEST_BOUND`. All else is as in `run`: it is that run with the number of steps that were made.
///
/// ```
/// use saxundeer::{Lines, MEMORY_SIZE, Machine, RunAnswer, run_cycles};
///
/// const REFRESH: u64 = 20_000;
/// let mut memory = vec![0; MEMORY_SIZE]; // BRK for ever, 7 cycles each
/// let mut machine = Machine::new();
/// for refresh in 1..=50 {
///     // What the last refresh spent too much is taken from this one, so that they do not drift.
///     let limit = refresh * REFRESH - machine.cycles;
///     match run_cycles(machine, limit, Lines::IDLE, &mut memory) {
///         RunAnswer::Made(progress) => machine = progress.machine,
///         other => panic!("it stopped: {other:?}"),
///     }
/// }
/// assert!((50 * REFRESH..=50 * REFRESH + 6).contains(&machine.cycles));
/// ```
pub fn run_cycles(machine: Machine, limit: u64, lines: Lines, memory: &mut [u8]) -> RunAnswer {
    run_by(functions::mos6502_run_cycles, machine, limit, lines, memory)
}

/// A run by one of the three functions.
fn run_by(
    function: RunFunction,
    mut machine: Machine,
    most: u64,
    lines: Lines,
    memory: &mut [u8],
) -> RunAnswer {
    let (registers, cycles) = machine.numbers();
    let mut steps = 0;
    // Sound: as in a step.
    let answer = unsafe {
        function(
            registers,
            cycles,
            &mut steps,
            most,
            lines.byte(),
            memory.as_mut_ptr(),
            memory.len(),
        )
    };
    let version = functions::mos6502_version_1_run_rt_staticlib_mos6502;
    RunAnswer::from_answer(answer, Progress { steps, machine }, version)
}
