//! The loop over the Rust's single step that is measured. The Rust has no bounded run, and its `run` never ends on the
//! images of `loops`: a user would loop so.

use std::time::Duration;

use crate::clock::processor_time;
use crate::loops;
use crate::state::State;
use mos6502::cpu::CPU;
use mos6502::instruction::Nmos6502;
use mos6502::memory::{Bus, Memory};

/// How long a core took, and the state and the memory in which it ended.
pub type Run = (Duration, State, Vec<u8>);

/// So many steps of an image; what it says where a step was not made. It is compiled where it is called, so that each caller
/// measures its own build of the Rust.
#[inline]
pub fn time_rust(image: &[u8], steps: u64) -> Result<Run, String> {
    let mut memory = Memory::new();
    memory.set_bytes(0, image);
    let mut cpu = CPU::new(memory, Nmos6502);
    loops::START.put(&mut cpu);
    let begin = processor_time();
    for step in 0..steps {
        if !cpu.single_step() {
            return Err(format!("the Rust made no step after {step}"));
        }
    }
    let time = processor_time() - begin;
    let end = State::of(&cpu);
    let memory = (0..=0xFFFF).map(|address| cpu.memory.get_byte(address));
    Ok((time, end, memory.collect()))
}
