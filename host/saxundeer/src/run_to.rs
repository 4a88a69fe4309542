//! A run to an address, as the one at which a program is meant to end.

use crate::addresses::AddressSet;
use crate::answers;
use crate::functions::{mos6502_guard_version_1_run_rt_staticlib_mos6502_guard, mos6502_run_to};
use crate::guard::{Guarded, guarded_run};
use crate::lines::Lines;
use crate::machine::Machine;
use crate::runs::{Progress, RunAnswer};

/// How a run to an address ended, and how far it came. Only `Arrived` is what was asked for; there is no case for "it came back",
/// so that a `match` must say what becomes of each.
#[must_use = "only Arrived has come to the stop address"]
#[derive(Clone, Copy, Debug, PartialEq, Eq, Hash)]
pub enum Ending {
    /// The counter is at the stop address. Whether the byte there is a documented opcode: if not, the program cannot go on from
    /// there, unless a line is served.
    Arrived { progress: Progress, is_opcode: bool },
    /// It stopped at another address, where there is no documented opcode.
    BrokeOff(Progress),
    /// All `limit` steps were made, and the counter is not at the stop address.
    StillRunning(Progress),
    /// The count of cycles has no room for another step, and the counter is not at the stop address.
    NoCycleRoom(Progress),
    /// The memory is not `MEMORY_SIZE` long. Nothing was run.
    MemoryNotFull(Progress),
}

/// At most `limit` steps, any number of them, with the lines at these levels in all of them. It is over when the counter is at `stop`
/// before a step, whatever the byte there is and though a line may be due: after no step if it is there already.
pub fn run_to(
    mut machine: Machine,
    stop: u16,
    limit: u64,
    lines: Lines,
    memory: &mut [u8],
) -> Ending {
    let (registers, cycles) = machine.numbers();
    let mut steps = 0;
    // Sound: as in a step.
    let answer = unsafe {
        mos6502_run_to(
            registers,
            cycles,
            &mut steps,
            stop,
            limit,
            lines.byte(),
            memory.as_mut_ptr(),
            memory.len(),
        )
    };
    let progress = Progress { steps, machine };
    match answer {
        answers::NOT_REFUSED => Ending::Arrived {
            progress,
            is_opcode: is_at_opcode(machine, memory),
        },
        answers::NOT_AN_OPCODE => Ending::BrokeOff(progress),
        answers::NOT_THERE => Ending::StillRunning(progress),
        answers::NO_CYCLE_ROOM => Ending::NoCycleRoom(progress),
        answers::MEMORY_NOT_FULL => Ending::MemoryNotFull(progress),
        _ => answers::unknown(
            mos6502_guard_version_1_run_rt_staticlib_mos6502_guard,
            answer.into(),
        ),
    }
}

/// Whether the byte at the counter is a documented opcode: the proved core is asked, by a step with room for its cycles and no line
/// due that may store nowhere. So it changes no byte, and only one that is no opcode is refused as such.
fn is_at_opcode(machine: Machine, memory: &mut [u8]) -> bool {
    static NOWHERE: AddressSet = AddressSet::EMPTY;
    static EVERYWHERE: AddressSet = AddressSet::ALL;
    let machine = Machine::from(machine.registers());
    let guarded = guarded_run(machine, 1, Lines::IDLE, &NOWHERE, &EVERYWHERE, memory);
    !matches!(guarded, Guarded::Ran(RunAnswer::NotAnOpcode(_)))
}
