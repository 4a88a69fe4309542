//! The port's machine and its lines as the state and the lines that the Rust's are compared with, and back.

use oracle::interrupts;
use oracle::state::State;
use saxundeer::{Level, Lines, Machine, Registers, StackPointer, Status};

/// The last level of NMI, which a state does not have, is high.
#[must_use]
pub fn machine_of(state: &State) -> Machine {
    Machine::from(Registers {
        accumulator: state.accumulator,
        index_x: state.x,
        index_y: state.y,
        stack_pointer: StackPointer(state.stack),
        program_counter: state.counter,
        status: Status::from_bits_truncate(state.status),
    })
    .with_cycles(state.cycles)
}

#[must_use]
pub fn state_of(machine: &Machine) -> State {
    let registers = machine.registers();
    State {
        counter: registers.program_counter,
        accumulator: registers.accumulator,
        x: registers.index_x,
        y: registers.index_y,
        stack: registers.stack_pointer.0,
        status: registers.status.bits(),
        cycles: machine.cycles,
    }
}

#[must_use]
pub fn level_of(level: interrupts::Level) -> Level {
    match level {
        interrupts::Level::High => Level::High,
        interrupts::Level::Low => Level::Low,
    }
}

/// What the port is given: the machine with the last level, and the present ones.
#[must_use]
pub fn given(state: &State, lines: interrupts::Lines) -> (Machine, Lines) {
    let machine = machine_of(state).with_last_nmi(level_of(lines.last_nmi));
    let lines = Lines {
        irq: level_of(lines.irq),
        nmi: level_of(lines.nmi),
    };
    (machine, lines)
}
