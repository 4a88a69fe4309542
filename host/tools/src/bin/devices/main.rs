//! Devices by the port's crate beside those on a `Bus` of the Rust: the same calls in the same order, step by step and in runs, with
//! the same registers after them. A device gives a byte by the number of those that it gave, and moves the lines by the number of
//! its calls, so that one call more or less shows at once.
//!
//! Five things are no comparison, and end a round: a step that the port refuses, since its opcode is not documented; one that reads
//! an address of a device twice, which the crate asks once and the Rust twice; a JSR that pushes onto its own last operand byte, and
//! an instruction that changes I while IRQ is low, which are listed differences; and a line that a device moves while one is
//! served, which the Rust sees an instruction later.

mod chip;
mod port;
mod round;
mod wired;

use std::process::ExitCode;

use oracle::random::Random;
use oracle::rules;
use tools::options::{Options, Program};

use round::{Counts, Plant, round};

const USAGE: &str =
    "usage: host/devices [--seed N] [--steps N] [--plant | --plant-run | --plant-line] [ARCHIVE]";
const PLANTS: [(&str, Plant); 3] = [
    ("--plant", Plant::Step),
    ("--plant-run", Plant::Run),
    ("--plant-line", Plant::Line),
];

fn compare(options: &Options) -> Result<Counts, String> {
    let mut random = Random::new(options.number("--seed", 6502));
    let opcodes = rules::opcodes();
    let plant = options.plant(&PLANTS);
    let mut counts = Counts::default();
    while counts.steps < options.number("--steps", 1_000_000) {
        let number = counts.rounds + 1;
        round(&mut random, &opcodes, plant, &mut counts)
            .map_err(|fault| format!("the devices differ: round {number}: {fault}"))?;
    }
    Ok(counts)
}

fn run(options: &Options) -> ExitCode {
    match compare(options) {
        Ok(counts) => {
            println!(
                "{} rounds, {} steps, {} of them serving a line: {} bytes asked and {} told, all alike, and in {} runs",
                counts.rounds, counts.steps, counts.served, counts.gets, counts.sets, counts.runs
            );
            println!(
                "ended by a refused opcode {}, by an address read twice {}, by a JSR onto itself {}, by I changed while IRQ is low \
                 {}, by a line moved while one is served {}",
                counts.refused, counts.twice, counts.onto_itself, counts.masked, counts.moved
            );
            ExitCode::SUCCESS
        }
        Err(fault) => {
            println!("{fault}");
            ExitCode::FAILURE
        }
    }
}

fn main() -> ExitCode {
    let plants = PLANTS.map(|(mark, _)| mark);
    Program::new("devices", USAGE, &["--seed", "--steps"], &plants).run(run)
}
