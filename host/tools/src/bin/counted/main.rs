//! counted LOOP WAY STEPS: makes so many steps of a loop in one of the ways, by number, under an emulator that counts for
//! arm-count. It prints the names of the loop and of the way, and where it ended: the state and a sum over the memory.

use std::arch::asm;
use std::process::ExitCode;

use oracle::loops;
use oracle::state::State;
use oracle::timed::time_rust;
use tools::ways::{self, Way};

/// Two instructions a step whatever the compiler does: arm-count holds its way of counting to them.
fn by_two_instructions(_: &mut [u8], steps: u64) -> Result<State, String> {
    // Sound: it counts down a register of its own.
    #[cfg(target_arch = "aarch64")]
    unsafe {
        asm!("2: subs {0}, {0}, #1", "b.ne 2b", inout(reg) steps => _)
    };
    #[cfg(target_arch = "x86_64")]
    unsafe {
        asm!("2: sub {0}, 1", "jnz 2b", inout(reg) steps => _)
    };
    Ok(loops::START)
}

fn by_rust(memory: &mut [u8], steps: u64) -> Result<State, String> {
    let (_, end, after) = time_rust(memory, steps)?;
    memory.copy_from_slice(&after);
    Ok(end)
}

const OTHERS: [(&str, Way); 2] = [("two", by_two_instructions), ("Rust", by_rust)];

fn counted(words: &[String]) -> Result<String, String> {
    let numbers: Vec<u64> = words.iter().filter_map(|word| word.parse().ok()).collect();
    let [program, way, steps @ (1..)] = numbers[..] else {
        return Err("usage: counted LOOP WAY STEPS".into());
    };
    let mut programs = loops::all().into_iter().chain([loops::touching()]);
    let program = programs.nth(program as usize).ok_or("no such loop")?;
    let mut ways = OTHERS.into_iter().chain(ways::ALL).chain([ways::DEVICES]);
    let (head, way) = ways.nth(way as usize).ok_or("no such way")?;
    let mut memory = program.image;
    let end = way(&mut memory, steps)?;
    let sum = memory.iter().fold(0_u64, |sum, byte| {
        sum.wrapping_mul(31).wrapping_add(u64::from(*byte))
    });
    Ok(format!("{}, {head}: {end} {sum:X}", program.name))
}

fn main() -> ExitCode {
    let words: Vec<String> = std::env::args().skip(1).collect();
    match counted(&words) {
        Ok(said) => {
            println!("{said}");
            ExitCode::SUCCESS
        }
        Err(fault) => {
            eprintln!("counted: {fault}");
            ExitCode::FAILURE
        }
    }
}
