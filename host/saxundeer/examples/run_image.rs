//! run_image STOP LIMIT IMAGE: runs an image as the program `report` does, but for LIMIT steps, any number of them, and
//! prints its line. The exit status is that of `./run report --stop STOP`: 0 only if it ended at STOP.

use std::fs;
use std::io::{self, Write};
use std::process::ExitCode;

use saxundeer::{Lines, Machine, Progress, RunAnswer, long_run};

const USAGE: &str = "usage: run_image STOP LIMIT IMAGE, as in: run_image 020B 50000000 night.img";

fn line(reason: u8, progress: &Progress) -> String {
    let registers = progress.machine.registers();
    format!(
        "{reason} {} {} {:04X} {:02X} {:02X} {:02X} {:02X} {:02X}",
        progress.steps,
        progress.machine.cycles,
        registers.program_counter,
        registers.accumulator,
        registers.index_x,
        registers.index_y,
        registers.stack_pointer.0,
        registers.status.bits()
    )
}

/// The line, and the exit status.
fn report(stop: u16, limit: u64, memory: &mut [u8]) -> (String, u8) {
    let Some(machine) = Machine::start(memory) else {
        return ("1".into(), 1);
    };
    match long_run(machine, limit, Lines::IDLE, memory) {
        RunAnswer::Made(progress) => (line(0, &progress), 20),
        RunAnswer::NotAnOpcode(progress) => {
            let is_there = progress.machine.registers().program_counter == stop;
            (line(3, &progress), if is_there { 0 } else { 3 })
        }
        RunAnswer::NoCycleRoom(progress) => (line(2, &progress), 2),
        RunAnswer::MemoryNotFull(_) => ("1".into(), 1),
        RunAnswer::BoundTooHigh(_) => unreachable!("a long run takes any bound"),
    }
}

fn main() -> ExitCode {
    let arguments: Vec<String> = std::env::args().skip(1).collect();
    let [stop, limit, name] = arguments.as_slice() else {
        eprintln!("{USAGE}");
        return ExitCode::from(64);
    };
    let (Ok(stop), Ok(limit)) = (u16::from_str_radix(stop, 16), limit.parse()) else {
        eprintln!("{USAGE}");
        return ExitCode::from(64);
    };
    match fs::read(name) {
        Ok(mut memory) => {
            let (line, status) = report(stop, limit, &mut memory);
            match writeln!(io::stdout(), "{line}") {
                Ok(()) => ExitCode::from(status),
                Err(fault) => {
                    eprintln!("standard output: {fault}");
                    ExitCode::from(74)
                }
            }
        }
        Err(fault) => {
            eprintln!("{name}: {fault}");
            ExitCode::from(66)
        }
    }
}
