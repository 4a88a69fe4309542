//! Random programs of documented opcodes on the plain memory, with the state after each step. What is listed as a difference is
//! left out: the cycle of a shift over a page is not counted, and a round ends before a JSR that pushes onto its own operand or a
//! byte that is no documented opcode. With the word --plant it spoils a byte, which must be found.

use mos6502::cpu::CPU;
use mos6502::instruction::Nmos6502;
use mos6502::memory::{Bus, Memory};
use oracle::case::Case;
use oracle::known::{self, Known};
use oracle::random::Random;
use oracle::rules;
use oracle::state::State;

const ROUNDS: usize = 400;
const STEPS_A_ROUND: usize = 500;

/// What the next step is.
fn next(cpu: &mut CPU<Memory, Nmos6502>) -> Case {
    let state = State::of(cpu);
    let mut case = Case::new(state);
    let code = [0, 1, 2].map(|number| cpu.memory.get_byte(state.operand(number)));
    case.put_code(&code);
    case
}

fn main() {
    let is_spoiled = std::env::args().any(|word| word == "--plant");
    let mut random = Random::new(6502);
    let opcodes = rules::opcodes();
    for round in 0..ROUNDS {
        let image: Vec<u8> = (0..65_536).map(|_| random.one_of(&opcodes)).collect();
        let mut cpu = CPU::new(Memory::new(), Nmos6502);
        cpu.memory.set_bytes(0x0000, &image);
        random.state().put(&mut cpu);
        for _ in 0..STEPS_A_ROUND {
            let case = next(&mut cpu);
            let cause = known::cause(&case);
            let is_onto_itself = matches!(cause, Some(Known::FirstPush | Known::SecondPush));
            if case.entry().is_none() || is_onto_itself {
                break;
            }
            let made = cpu.single_step();
            if cause.is_some() {
                cpu.cycles = 0;
            }
            println!("{made} {}", State::of(&cpu));
        }
        if is_spoiled && round == ROUNDS / 2 {
            cpu.memory.set_byte(0x1234, !image[0x1234]);
        }
        let bytes = (0..=0xFFFF).map(|address| u64::from(cpu.memory.get_byte(address)));
        println!(
            "{}",
            bytes.fold(0, |sum: u64, byte| sum.wrapping_mul(31).wrapping_add(byte))
        );
    }
}
