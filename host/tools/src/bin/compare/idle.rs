//! The parts with idle lines: random states, directed edges, all sums, and long runs.

use oracle::case::Case;
use oracle::edges::Class;
use oracle::interrupts::Lines;
use oracle::loops;
use oracle::random::Random;
use oracle::rules;
use oracle::state::{RUST_AND_PORT, State, difference};
use oracle::sums;
use saxundeer::{HIGHEST_BOUND, RunAnswer, StepAnswer};
use tools::states::{machine_of, state_of};

use crate::fault::Fault;
use crate::pair::Pair;
use crate::part::{LONGEST, Part, RUNS, Run, random_cycles};

/// So many of each opcode.
pub fn random_states(part: &mut Part, steps: u64) -> Result<(), Fault> {
    for entry in rules::all() {
        for _ in 0..steps {
            let mut case = Case::random(entry, part.random);
            case.state.cycles = random_cycles(part.random);
            part.pair.step_case(&case)?;
        }
        part.tell();
    }
    part.pair.compare_all_bytes(RUST_AND_PORT)
}

/// One class of them. The cycles have a generator of their own, since the class holds the other one.
pub fn directed_edges(part: &mut Part, class: Class, counts: &mut Random) -> Result<(), Fault> {
    class.each(part.random, &mut |mut case| {
        case.state.cycles = random_cycles(counts);
        part.pair.step_case(&case)?;
        if part.pair.steps.is_multiple_of(65_536) {
            (part.progress)(part.pair.steps);
        }
        Ok(())
    })?;
    part.pair.compare_all_bytes(RUST_AND_PORT)
}

pub fn all_sums(part: &mut Part) -> Result<(), Fault> {
    let step = &mut |case| part.pair.step_case(&case).map(|_| ());
    sums::each(part.random, step)?;
    part.pair.compare_all_bytes(RUST_AND_PORT)
}

/// Runs with the state carried: three tenths of the steps on the programs whose rate is measured, the rest on random
/// memories. There a byte that is no opcode must be refused and is then replaced by one, so that the run goes on.
pub fn long_runs(part: &mut Part, steps: u64) -> Result<(), Fault> {
    let opcodes = rules::opcodes();
    let end = part.pair.steps + steps;
    for program in loops::all() {
        let last = part.pair.steps + HIGHEST_BOUND.min(steps / 10);
        long_run(part.pair, program.image, loops::START, last, || 0)?;
        part.tell();
    }
    while part.pair.steps < end {
        let last = end.min(part.pair.steps + LONGEST);
        let (memory, start) = (part.random.memory(), part.random.state());
        let opcode = || part.random.one_of(&opcodes);
        long_run(part.pair, memory, start, last, opcode)?;
        part.tell();
    }
    Ok(())
}

/// Until `last` steps are made in all. Every stretch up to a byte that is no opcode is also made by one run or long run of
/// the port, in turn, on a memory of its own.
fn long_run(
    pair: &mut Pair,
    mut run_memory: Vec<u8>,
    start: State,
    last: u64,
    mut replacement: impl FnMut() -> u8,
) -> Result<(), Fault> {
    pair.lay(&run_memory);
    let mut state = start;
    let mut runs = RUNS.into_iter().cycle();
    while pair.steps < last {
        let run = runs.next().unwrap_or(saxundeer::run);
        state = stretch(pair, run, &mut run_memory, state, last)?;
        if pair.steps < last {
            let opcode = replacement();
            pair.put(state.counter, opcode);
            run_memory[usize::from(state.counter)] = opcode;
        }
    }
    pair.compare_with_runs(state, &run_memory)
}

/// Steps until a byte is no opcode or `last` steps are made in all, and the same by one run of the port.
fn stretch(
    pair: &mut Pair,
    run: Run,
    run_memory: &mut [u8],
    start: State,
    last: u64,
) -> Result<State, Fault> {
    let begin = pair.steps;
    let idle = saxundeer::Lines::IDLE;
    let answer = run(machine_of(&start), last - begin, idle, run_memory);
    let mut state = start;
    while pair.steps < last && rules::entry(pair.memory[usize::from(state.counter)]).is_some() {
        state = pair.step(&state, Lines::IDLE)?;
    }
    let made = pair.steps - begin;
    let refused = made < last - begin;
    let (answered, progress) = match answer {
        RunAnswer::Made(progress) => (false, progress),
        RunAnswer::NotAnOpcode(progress) => (true, progress),
        other => {
            return Err(Fault::of_run(
                start,
                format!("the port's run answered {other:?}"),
            ));
        }
    };
    if progress.steps != made || answered != refused {
        return Err(Fault::of_run(
            start,
            format!("{made} steps were made, the port's run answered {answer:?}"),
        ));
    }
    if let Some(what) = difference(RUST_AND_PORT, &state, &state_of(&progress.machine)) {
        return Err(Fault::of_run(
            start,
            format!("after the port's run: {what}"),
        ));
    }
    let machine = machine_of(&state);
    if refused
        && saxundeer::single_step(machine, idle, &mut pair.memory)
            != StepAnswer::NotAnOpcode(machine)
    {
        return Err(Fault::of_run(
            state,
            "the step at no opcode was not refused".into(),
        ));
    }
    Ok(state)
}
