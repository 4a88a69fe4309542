//! Devices at some addresses: a device is asked for the byte that a step is about to read there, and told the byte that a step
//! has stored there, and it may move the interrupt lines when it is. Between two such steps the run goes at the pace of
//! [`guarded_run`], which is halted before a step that would touch one of the addresses; what that step reads and stores to is
//! known before it is made, by [`reads_of`] and [`stores_of`].
//!
//! ```
//! use saxundeer::devices::{Device, Placed, run_with};
//! use saxundeer::{AddressSet, Lines, MEMORY_SIZE, Machine};
//!
//! /// Gives 7 at each read, and keeps what was stored last.
//! struct Seven(u8);
//!
//! impl Device for Seven {
//!     fn get_byte(&mut self, _address: u16) -> u8 {
//!         7
//!     }
//!     fn set_byte(&mut self, _address: u16, value: u8) {
//!         self.0 = value;
//!     }
//! }
//!
//! let mut memory = vec![0; MEMORY_SIZE];
//! memory[0x0200..0x0203].copy_from_slice(&[0xEE, 0x00, 0xD0]); // INC $D000
//! memory[0xFFFD] = 0x02; // the program begins at 0200
//! let machine = Machine::start(&memory).expect("the memory is full");
//! let mut seven = Seven(0);
//! let addresses = AddressSet::from(0xD000..=0xD00F);
//! let devices = &mut [Placed { addresses: &addresses, device: &mut seven }];
//! let _ = run_with(machine, 1, Lines::IDLE, devices, &mut memory);
//! assert_eq!(seven.0, 8);
//! ```
//!
//! The byte that a device is told is the one that stands there after the step: no step stores to one address twice. If two devices
//! have an address, the first in the list is asked and told, and the other is not.
//!
//! It is not the bus of the 6502. The limits:
//!
//! - a device is asked before the step and told after it, not in the cycle in which the 6502 would. So it is asked first also
//!   if the 6502 stores first, as BRK and a line that is served do before they read their vector;
//! - a line that it moves is seen by the next step, in whichever cycle of this one it was touched;
//! - an address that a step reads twice is asked once, and the step reads the same byte both times;
//! - the reads of the 6502 whose byte it does not use are not asked;
//! - an instruction that reads, changes and stores (INC, ASL ..) reads once and stores once, while the 6502 stores twice, first
//!   the old byte;
//! - a step that is refused since there is no documented opcode has asked for that byte, if it lies at a device;
//! - a JSR that pushes onto its own last operand byte takes the byte that it pushed, though the device was asked for one.

use crate::addresses::AddressSet;
use crate::footprint::{reads_of, stores_of};
use crate::guard::{Guarded, guarded_run};
use crate::lines::Lines;
use crate::machine::Machine;
use crate::runs::{Progress, RunAnswer};
use crate::step::{StepAnswer, single_step};

/// What stands at some addresses in place of memory, with the first two calls of mos6502's `Bus`.
pub trait Device {
    /// The byte that a step is about to read.
    fn get_byte(&mut self, address: u16) -> u8;
    /// The byte that a step has stored.
    fn set_byte(&mut self, address: u16, value: u8);
    /// The levels to which it pulls the lines, from now on until a device is touched again: it is asked at the start of a run and
    /// after each step that touched one of the devices. Both are high if it says nothing of them.
    fn lines(&self) -> Lines {
        Lines::IDLE
    }
}

/// A device, and the addresses at which it stands.
pub struct Placed<'a> {
    pub addresses: &'a AddressSet,
    pub device: &'a mut dyn Device,
}

/// Which of the devices stands at an address: the first that has it.
fn device_at(devices: &[Placed<'_>], address: u16) -> Option<usize> {
    devices
        .iter()
        .position(|placed| placed.addresses.contains(address))
}

/// The levels of the lines, which are wired together: low where the caller or a device pulls.
fn levels_of(lines: Lines, devices: &[Placed<'_>]) -> Lines {
    devices.iter().fold(lines, |levels, placed| {
        levels.wired_with(placed.device.lines())
    })
}

/// Puts the devices' bytes where the step will read them, each address once and in the order of the step. The list is made
/// again after each: a byte that a device gave may be an opcode, an operand or part of a pointer, and decides what is read
/// next. What was read before it stays as it was. So there are no more rounds than a step reads bytes.
fn ask(machine: Machine, levels: Lines, devices: &mut [Placed<'_>], memory: &mut [u8]) {
    let mut asked = [0; 5];
    for count in 0..asked.len() {
        let reads = reads_of(machine, levels, memory);
        let is_new = |address: &u16| !asked[..count].contains(address);
        let mut new = reads.addresses().iter().copied().filter(is_new);
        let Some((address, device)) = new.find_map(|a| Some((a, device_at(devices, a)?))) else {
            return;
        };
        memory[usize::from(address)] = devices[device].device.get_byte(address);
        asked[count] = address;
    }
}

/// One step with the lines at these levels, the devices having been asked, and what it stored told to them.
fn step_and_tell(
    machine: Machine,
    levels: Lines,
    devices: &mut [Placed<'_>],
    memory: &mut [u8],
) -> StepAnswer {
    let stores = stores_of(machine, levels, memory);
    let answer = single_step(machine, levels, memory);
    if let StepAnswer::Made { .. } = answer {
        for &address in stores.addresses() {
            if let Some(device) = device_at(devices, address) {
                let value = memory[usize::from(address)];
                devices[device].device.set_byte(address, value);
            }
        }
    }
    answer
}

/// One step as by [`single_step`], with devices at their addresses. A line is low if it is low in `lines` or a device pulls it. In a
/// refusal no device is told anything.
pub fn step_with(
    machine: Machine,
    lines: Lines,
    devices: &mut [Placed<'_>],
    memory: &mut [u8],
) -> StepAnswer {
    let levels = levels_of(lines, devices);
    ask(machine, levels, devices, memory);
    step_and_tell(machine, levels, devices, memory)
}

/// At most `bound` steps, any number of them, with devices at their addresses, and never `BoundTooHigh`. A line is low if it is low
/// in `lines` or a device pulls it. It makes the same calls and gives the same answer as so many times [`step_with`], as long as a
/// device moves its lines only when one is touched: this asks for them then, that before each step.
pub fn run_with(
    machine: Machine,
    bound: u64,
    lines: Lines,
    devices: &mut [Placed<'_>],
    memory: &mut [u8],
) -> RunAnswer {
    let mut touched = AddressSet::EMPTY;
    for placed in devices.iter() {
        touched |= placed.addresses;
    }
    let mut all = Progress { steps: 0, machine };
    loop {
        let levels = levels_of(lines, devices);
        let left = bound - all.steps;
        let guarded = guarded_run(all.machine, left, levels, &touched, &touched, memory);
        match guarded {
            Guarded::Ran(answer) => return later(answer, all.steps),
            Guarded::WouldRead { progress, .. } | Guarded::WouldStore { progress, .. } => {
                all.steps += progress.steps;
                all.machine = progress.machine;
            }
        }
        // A step that only stores to a device needs no byte of one.
        if let Guarded::WouldRead { .. } = guarded {
            ask(all.machine, levels, devices, memory);
        }
        // There is room for it, but the byte that a device gives may be no opcode.
        match step_and_tell(all.machine, levels, devices, memory) {
            StepAnswer::Made { machine, .. } => {
                all.steps += 1;
                all.machine = machine;
            }
            StepAnswer::MemoryNotFull(_) => return RunAnswer::MemoryNotFull(all),
            StepAnswer::NoCycleRoom(_) => return RunAnswer::NoCycleRoom(all),
            StepAnswer::NotAnOpcode(_) => return RunAnswer::NotAnOpcode(all),
        }
    }
}

/// The answer of a run as that of a longer one, of which so many steps were made before it.
fn later(answer: RunAnswer, before: u64) -> RunAnswer {
    let counted = |progress: Progress| Progress {
        steps: before + progress.steps,
        ..progress
    };
    match answer {
        RunAnswer::Made(progress) => RunAnswer::Made(counted(progress)),
        RunAnswer::MemoryNotFull(progress) => RunAnswer::MemoryNotFull(counted(progress)),
        RunAnswer::NoCycleRoom(progress) => RunAnswer::NoCycleRoom(counted(progress)),
        RunAnswer::NotAnOpcode(progress) => RunAnswer::NotAnOpcode(counted(progress)),
        RunAnswer::BoundTooHigh(progress) => RunAnswer::BoundTooHigh(counted(progress)),
    }
}
