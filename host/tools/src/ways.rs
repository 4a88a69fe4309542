//! The ways in which a host has the port make steps, the lines being idle.

use oracle::loops;
use oracle::state::State;
use saxundeer::devices::{Device, Placed, run_with};
use saxundeer::{
    AddressSet, Guarded, HIGHEST_BOUND, Lines, Machine, Progress, RunAnswer, StepAnswer,
    guarded_run,
};

use crate::states::{machine_of, state_of};

unsafe extern "C" {
    fn mos6502_step(
        registers: *mut u64,
        cycles: *mut u64,
        lines: u8,
        first: *mut u16,
        memory: *mut u8,
        length: usize,
    ) -> u8;
}

/// Both lines high, as the C functions have it.
const IDLE: u8 = 0;

/// Makes so many steps on a memory, from the state at which the loops start.
pub type Way = fn(&mut [u8], u64) -> Result<State, String>;

/// In the order of the columns, with their heads.
pub const ALL: [(&str, Way); 6] = [
    ("run", by_run),
    ("cycles", by_cycles),
    ("step", by_step),
    ("crate", by_crate),
    ("value", by_value),
    ("guarded", by_guarded_run),
];

/// The way of the program that touches a device.
pub const DEVICES: (&str, Way) = ("devices", by_run_with);

/// An address that no loop touches: the guarded run has it guarded.
const GUARDED: u16 = 0xF000;

/// By calls that are told how many steps are left, until all are made.
fn in_parts(
    steps: u64,
    mut part: impl FnMut(Machine, u64) -> Result<Progress, String>,
) -> Result<State, String> {
    let mut all = Progress {
        steps: 0,
        machine: machine_of(&loops::START),
    };
    while all.steps < steps {
        let made = all.steps;
        let progress = part(all.machine, steps - made)
            .map_err(|fault| format!("{fault} after {made} steps"))?;
        all = Progress {
            steps: made + progress.steps,
            ..progress
        };
    }
    Ok(state_of(&all.machine))
}

/// How far a run came that made all that was asked for.
fn whole(answer: RunAnswer) -> Result<Progress, String> {
    match answer {
        RunAnswer::Made(progress) => Ok(progress),
        other => Err(format!("a run answered {other:?}")),
    }
}

/// By `mos6502_run`, a million steps a call.
pub fn by_run(memory: &mut [u8], steps: u64) -> Result<State, String> {
    in_parts(steps, |machine, left| {
        let bound = HIGHEST_BOUND.min(left);
        whole(saxundeer::run(machine, bound, Lines::IDLE, memory))
    })
}

/// By `mos6502_run_cycles`, a million cycles a call. So many steps are to be made and no more, and a call makes at most half of
/// its limit and 1: so the last calls have smaller limits, some twenty of them.
fn by_cycles(memory: &mut [u8], steps: u64) -> Result<State, String> {
    in_parts(steps, |machine, left| {
        let limit = HIGHEST_BOUND.min(2 * left - 1);
        whole(saxundeer::run_cycles(machine, limit, Lines::IDLE, memory))
    })
}

/// By `mos6502_step`, one call a step, the registers kept as a number.
fn by_step(memory: &mut [u8], steps: u64) -> Result<State, String> {
    let State {
        counter,
        accumulator,
        x,
        y,
        stack,
        status,
        mut cycles,
    } = loops::START;
    let [low, high] = counter.to_le_bytes();
    let mut registers = u64::from_le_bytes([accumulator, x, y, stack, status, low, high, 0]);
    let mut first = 0;
    for made in 0..steps {
        // Sound: the numbers are this function's own, and the memory is lent to it.
        let answer = unsafe {
            mos6502_step(
                &mut registers,
                &mut cycles,
                IDLE,
                &mut first,
                memory.as_mut_ptr(),
                memory.len(),
            )
        };
        if answer != 0 {
            return Err(format!("mos6502_step answered {answer} after {made} steps"));
        }
    }
    let [accumulator, x, y, stack, status, low, high, _] = registers.to_le_bytes();
    Ok(State {
        counter: u16::from_le_bytes([low, high]),
        accumulator,
        x,
        y,
        stack,
        status,
        cycles,
    })
}

/// By the Rust crate's step on a machine that is kept.
fn by_crate(memory: &mut [u8], steps: u64) -> Result<State, String> {
    let mut machine = machine_of(&loops::START);
    for made in 0..steps {
        match machine.step(Lines::IDLE, memory) {
            StepAnswer::Made { .. } => {}
            other => return Err(format!("step answered {other:?} after {made} steps")),
        }
    }
    Ok(state_of(&machine))
}

/// By the Rust crate's step with the machine by value.
fn by_value(memory: &mut [u8], steps: u64) -> Result<State, String> {
    let mut machine = machine_of(&loops::START);
    for made in 0..steps {
        match saxundeer::single_step(machine, Lines::IDLE, memory) {
            StepAnswer::Made { machine: after, .. } => machine = after,
            other => return Err(format!("single_step answered {other:?} after {made} steps")),
        }
    }
    Ok(state_of(&machine))
}

/// By `mos6502_guarded_run`, a million steps a call.
fn by_guarded_run(memory: &mut [u8], steps: u64) -> Result<State, String> {
    let guarded = AddressSet::from(GUARDED..=GUARDED);
    in_parts(steps, |machine, left| {
        let bound = HIGHEST_BOUND.min(left);
        match guarded_run(machine, bound, Lines::IDLE, &guarded, &guarded, memory) {
            Guarded::Ran(answer) => whole(answer),
            halted => Err(format!("a guarded run answered {halted:?}")),
        }
    })
}

/// A device that keeps its byte, as a memory does: so it changes no state.
struct Cell(u8);

impl Device for Cell {
    fn get_byte(&mut self, _address: u16) -> u8 {
        self.0
    }

    fn set_byte(&mut self, _address: u16, value: u8) {
        self.0 = value;
    }
}

/// By the Rust crate's `run_with`, a million steps a call.
fn by_run_with(memory: &mut [u8], steps: u64) -> Result<State, String> {
    let addresses = AddressSet::from(loops::DEVICE..=loops::DEVICE);
    let mut cell = Cell(memory[usize::from(loops::DEVICE)]);
    in_parts(steps, |machine, left| {
        let bound = HIGHEST_BOUND.min(left);
        let devices = &mut [Placed {
            addresses: &addresses,
            device: &mut cell,
        }];
        whole(run_with(machine, bound, Lines::IDLE, devices, memory))
    })
}
