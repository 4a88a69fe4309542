//! Runs by cycles (P11), which the Rust does not have: each is made step by step in both cores, by the rules' words, and once
//! more by one call of the port.

use oracle::interrupts::Lines;
use oracle::rules;
use oracle::state::{Names, RUST_AND_PORT, State, byte_difference};
use saxundeer::{HIGHEST_BOUND, HIGHEST_CYCLES, Progress, RunAnswer, StepAnswer};
use tools::states::given;

use crate::counts::ByCycles;
use crate::fault::{Fault, Plant};
use crate::pair::Pair;
use crate::part::Part;

const STEPS_AND_RUN: Names = ["its steps", "the run"];
const SMALL: [u64; 6] = [0, 1, 2, 7, 100, HIGHEST_BOUND + 1];
const LARGE: [u64; 2] = [65_535, HIGHEST_BOUND];

/// With every combination of the levels and the last one of NMI, and random states besides: the small limits and a random one,
/// `rounds` times, where about one byte in 40 is no opcode, and then the large ones on opcodes alone. Every second count of a small one
/// lies about the last that has room for a step.
pub fn runs_by_cycles(part: &mut Part, rounds: u64) -> Result<(), Fault> {
    for lines in Lines::all() {
        let mut memory = laid(part, Some(16));
        for _ in 0..rounds {
            let any = part.random.below(1_000) as u64;
            for limit in SMALL.into_iter().chain([any]) {
                let mut start = part.random.state();
                start.cycles = match part.random.below(2) {
                    0 => HIGHEST_CYCLES - 8 + part.random.below(16) as u64,
                    _ => part.random.draw() % (HIGHEST_CYCLES / 2),
                };
                run_by_cycles(part.pair, &mut memory, start, lines, limit)?;
            }
        }
        let mut memory = laid(part, None);
        for limit in LARGE {
            run_by_cycles(part.pair, &mut memory, part.random.state(), lines, limit)?;
            part.tell();
        }
    }
    Ok(())
}

/// Random opcodes, and of the bytes that are none one in so many or none: in both cores, and on a memory for the runs.
fn laid(part: &mut Part, one_in: Option<usize>) -> Vec<u8> {
    let random = &mut *part.random;
    let opcodes = rules::opcodes();
    let mut memory = random.memory();
    for byte in &mut memory {
        let stays = one_in.is_some_and(|number| random.below(number) == 0);
        if rules::entry(*byte).is_none() && !stays {
            *byte = random.one_of(&opcodes);
        }
    }
    part.pair.lay(&memory);
    memory
}

fn run_by_cycles(
    pair: &mut Pair,
    memory: &mut [u8],
    start: State,
    lines: Lines,
    limit: u64,
) -> Result<(), Fault> {
    let asked = limit + u64::from(pair.plant == Plant::Limit && limit > 0);
    let (machine, levels) = given(&start, lines);
    let answer = saxundeer::run_cycles(machine, asked, levels, memory);
    let expected = by_steps(pair, start, lines, limit)?;
    if answer != expected {
        let what = format!("{limit} cycles: {expected:?} by steps, the port answered {answer:?}");
        return Err(Fault::of_run(start, what));
    }
    pair.compare_all_bytes(RUST_AND_PORT)?;
    if let Some(what) = byte_difference(STEPS_AND_RUN, pair.rust.bytes(), memory) {
        return Err(Fault::of_run(start, format!("{limit} cycles: {what}")));
    }
    let ByCycles { answers, over } = &mut pair.calls.by_cycles;
    match answer {
        RunAnswer::Made(progress) => {
            answers[0] += 1;
            over[(progress.machine.cycles - start.cycles - limit) as usize] += 1;
        }
        RunAnswer::NoCycleRoom(_) => answers[1] += 1,
        RunAnswer::NotAnOpcode(_) => answers[2] += 1,
        RunAnswer::BoundTooHigh(_) => answers[3] += 1,
        RunAnswer::MemoryNotFull(_) => unreachable!("the memory is full"),
    }
    Ok(())
}

/// The run by the rules: before each step it is looked how many cycles are spent. Each step is made by both cores; where a line
/// is served, or the step refused, it is held to the rules.
fn by_steps(
    pair: &mut Pair,
    start: State,
    mut lines: Lines,
    limit: u64,
) -> Result<RunAnswer, Fault> {
    let (mut state, mut steps) = (start, 0);
    let answer: fn(Progress) -> RunAnswer = loop {
        if limit > HIGHEST_BOUND {
            break RunAnswer::BoundTooHigh;
        }
        if state.cycles - start.cycles >= limit {
            break RunAnswer::Made;
        }
        if state.cycles > HIGHEST_CYCLES {
            pair.refuse(&state, lines, StepAnswer::NoCycleRoom)?;
            break RunAnswer::NoCycleRoom;
        }
        let is_opcode = rules::entry(pair.memory[usize::from(state.counter)]).is_some();
        state = match lines.due(&state) {
            Some(line) => pair.serve(line, &state, lines)?,
            None if is_opcode => pair.step(&state, lines)?,
            None => {
                pair.refuse(&state, lines, StepAnswer::NotAnOpcode)?;
                break RunAnswer::NotAnOpcode;
            }
        };
        lines.last_nmi = lines.nmi;
        steps += 1;
    };
    let (machine, _) = given(&state, lines);
    Ok(answer(Progress { steps, machine }))
}
