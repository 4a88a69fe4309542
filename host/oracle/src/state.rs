//! The registers and the count of cycles, as both cores are compared: with the six flags alone, because the Rust also
//! keeps what PLP and RTI pull into bits 4 and 5, where the part has nothing.

use std::fmt::{Display, Formatter, Result};

use mos6502::cpu::CPU;
use mos6502::instruction::Nmos6502;
use mos6502::memory::Bus;
use mos6502::registers::{StackPointer, Status};

const FLAGS: u8 = 0b1100_1111;
/// The highest count of cycles from which the rules make a step.
pub const HIGHEST_COUNT: u64 = u64::MAX - 7;

#[derive(Clone, Copy, Debug, PartialEq, Eq)]
pub struct State {
    pub counter: u16,
    pub accumulator: u8,
    pub x: u8,
    pub y: u8,
    pub stack: u8,
    pub status: u8,
    pub cycles: u64,
}

/// Counter, A, X, Y, S, the status as PHP pushes it, cycles.
impl Display for State {
    fn fmt(&self, formatter: &mut Formatter) -> Result {
        write!(formatter, "{} {}", self.registers(), self.cycles)
    }
}

impl State {
    /// The flag I in the status.
    pub const MASK: u8 = 0x04;

    /// Whether I is set, so that IRQ is not served.
    #[must_use]
    pub fn is_masked(&self) -> bool {
        self.status & State::MASK != 0
    }

    pub fn of<M: Bus>(cpu: &CPU<M, Nmos6502>) -> State {
        State {
            counter: cpu.registers.program_counter,
            accumulator: cpu.registers.accumulator,
            x: cpu.registers.index_x,
            y: cpu.registers.index_y,
            stack: cpu.registers.stack_pointer.0,
            status: cpu.registers.status.bits(),
            cycles: cpu.cycles,
        }
    }

    pub fn put<M: Bus>(&self, cpu: &mut CPU<M, Nmos6502>) {
        cpu.registers.program_counter = self.counter;
        cpu.registers.accumulator = self.accumulator;
        cpu.registers.index_x = self.x;
        cpu.registers.index_y = self.y;
        cpu.registers.stack_pointer = StackPointer(self.stack);
        cpu.registers.status = Status::from_bits_truncate(self.status);
        cpu.cycles = self.cycles;
    }

    /// The same without the cycles.
    #[must_use]
    pub fn registers(&self) -> String {
        let State {
            counter,
            accumulator,
            x,
            y,
            stack,
            status,
            ..
        } = self.with_six_flags();
        format!("{counter:04X} {accumulator:02X} {x:02X} {y:02X} {stack:02X} {status:02X}")
    }

    #[must_use]
    pub fn with_six_flags(mut self) -> State {
        self.status |= !FLAGS;
        self
    }
}

/// Whose two results are compared.
pub type Names<'a> = [&'a str; 2];

pub const RUST_AND_PORT: Names = ["the Rust", "the port"];

/// The first thing in which the second state is another than the first.
#[must_use]
pub fn difference([one, other]: Names, first: &State, second: &State) -> Option<String> {
    let [first, second] = [first, second].map(|state| state.with_six_flags());
    if first == second {
        return None;
    }
    let fields = [
        ("the counter", first.counter.into(), second.counter.into()),
        ("A", first.accumulator.into(), second.accumulator.into()),
        ("X", first.x.into(), second.x.into()),
        ("Y", first.y.into(), second.y.into()),
        ("S", first.stack.into(), second.stack.into()),
        ("the flags", first.status.into(), second.status.into()),
    ];
    let found = fields
        .iter()
        .find(|(_, first, second): &&(_, u64, u64)| first != second);
    Some(match found {
        Some((what, first, second)) => format!("{what}: {one} {first:X}, {other} {second:X}"),
        None => format!(
            "the cycles: {one} {}, {other} {}",
            first.cycles, second.cycles
        ),
    })
}

/// The first byte in which the second memory is another than the first.
#[must_use]
pub fn byte_difference([one, other]: Names, first: &[u8], second: &[u8]) -> Option<String> {
    if first == second {
        return None;
    }
    let place = first
        .iter()
        .zip(second)
        .position(|(one, other)| one != other);
    Some(match place {
        Some(place) => format!(
            "the byte at {place:04X}: {one} {:02X}, {other} {:02X}",
            first[place], second[place]
        ),
        None => format!(
            "the memory's length: {one} {}, {other} {}",
            first.len(),
            second.len()
        ),
    })
}
