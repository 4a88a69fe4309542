//! A round: one program with its devices, by the Rust and by the port's steps, and then by the port's runs.

use oracle::mos6502::cpu::CPU;
use oracle::mos6502::instruction::Nmos6502;
use oracle::random::Random;
use oracle::state::State;
use saxundeer::{AddressSet, Level};
use tools::states::{machine_of, state_of};

use crate::chip::{
    Call, Chip, asked_first, between, counts_of, is_asked_twice, levels_of, same_calls,
};
use crate::port::Port;
use crate::wired::{Step, Wired};

const STEPS_A_ROUND: usize = 1_000;
const JSR: u8 = 0x20;
const BRK: u8 = 0x00;

/// A fault of the port's devices that is to be found.
#[derive(Clone, Copy, PartialEq, Eq)]
pub enum Plant {
    /// The first store is not told, step by step.
    Step,
    /// Nor in a run.
    Run,
    /// No line is pulled.
    Line,
}

/// What the rounds came to.
#[derive(Default)]
pub struct Counts {
    pub rounds: u64,
    pub steps: u64,
    pub gets: u64,
    pub sets: u64,
    pub served: u64,
    pub runs: u64,
    pub refused: u64,
    pub twice: u64,
    pub onto_itself: u64,
    pub masked: u64,
    pub moved: u64,
}

/// A place at which both cores were alike: the port's steps up to it, the Rust's state, and how often each device was called.
struct Mark {
    steps: u64,
    state: State,
    calls: Vec<usize>,
}

/// Whether a JSR from here pushes onto its last operand byte.
fn is_onto_itself(before: &State) -> bool {
    let operand = before.counter.wrapping_add(2);
    [before.stack, before.stack.wrapping_sub(1)]
        .iter()
        .any(|place| operand == 0x0100 | u16::from(*place))
}

/// One call of the Rust beside the port's steps that do the same: the instruction and, if a line is due after it, its service. The
/// number of these steps, and whether the round can go on; none if this is no comparison.
fn compare_call(
    rust: &mut CPU<Wired<'_>, Nmos6502>,
    port: &mut Port<'_>,
    counts: &mut Counts,
) -> Result<Option<(u64, bool)>, String> {
    let before = state_of(&port.machine);
    let begun = counts_of(&port.chips);
    rust.memory.step = Step::default();
    if !port.step() {
        counts.refused += 1;
        return Ok(None);
    }
    let from = counts_of(&rust.memory.chips);
    if !rust.single_step() {
        return Err("the Rust made none".into());
    }
    let Wired { chips, step, .. } = &rust.memory;
    let looked = step.looked.as_ref().ok_or("the Rust looked at no line")?;
    let called = between(chips, &from, looked);
    if called.iter().any(|calls| is_asked_twice(calls)) {
        counts.twice += 1;
        return Ok(None);
    }
    if step.opcode == Some(JSR) && is_onto_itself(&before) {
        counts.onto_itself += 1;
        return Ok(None);
    }
    let made = counts_of(&port.chips);
    let expected: Vec<_> = called.iter().map(|calls| asked_first(calls)).collect();
    let by_port = between(&port.chips, &begun, &made);
    if step.opcode == Some(BRK) {
        same_calls(expected.iter().map(Vec::as_slice), &by_port)?;
    } else {
        same_calls(called, &by_port)?;
    }
    let levels = levels_of(&port.chips);
    // The Rust goes by the I from before the instruction.
    if levels.irq == Level::Low && state_of(&port.machine).is_masked() != before.is_masked() {
        counts.masked += 1;
        return Ok(None);
    }
    if port.is_due() != step.serves {
        return Err(format!(
            "a line is served: by the Rust {}, by the port {}",
            step.serves,
            port.is_due()
        ));
    }
    if step.serves {
        if !port.step() {
            return Err("the port does not serve the line".into());
        }
        let called = between(chips, looked, &counts_of(chips));
        let expected: Vec<_> = called.iter().map(|calls| asked_first(calls)).collect();
        let by_port = between(&port.chips, &made, &counts_of(&port.chips));
        same_calls(expected.iter().map(Vec::as_slice), &by_port)?;
        counts.served += 1;
    }
    let steps = 1 + u64::from(step.serves);
    port.same_registers(&State::of(rust))?;
    // A line that moves while one is served the port sees an instruction sooner.
    let goes_on = levels_of(&port.chips) == levels;
    counts.moved += u64::from(!goes_on);
    Ok(Some((steps, goes_on)))
}

/// The calls of each device up to a mark.
fn up_to<'c>(chips: &'c [Chip<'_>], mark: &Mark) -> Vec<&'c [Call]> {
    between(chips, &vec![0; chips.len()], &mark.calls)
}

/// The port's runs of random lengths from mark to mark, with the calls that were compared step by step.
fn compare_runs(
    random: &mut Random,
    port: &mut Port<'_>,
    marks: &[Mark],
    compared: &[Chip<'_>],
    counts: &mut Counts,
) -> Result<(), String> {
    let (mut at, mut made) = (0, 0);
    while at < marks.len() {
        let longest = random.one_of(&[1, 20, 400]);
        at = (at + 1 + random.below(longest)).min(marks.len());
        let mark = &marks[at - 1];
        let bound = mark.steps - made;
        let before = state_of(&port.machine);
        let fault = |what| format!("a run of {bound} steps, from {before}: {what}");
        port.run(bound).map_err(fault)?;
        let all = port.chips.iter().map(|chip| chip.calls.as_slice());
        same_calls(up_to(compared, mark), &all.collect::<Vec<_>>()).map_err(fault)?;
        port.same_registers(&mark.state).map_err(fault)?;
        made = mark.steps;
        counts.runs += 1;
    }
    Ok(())
}

/// Some addresses: one to three ranges.
fn some_addresses(random: &mut Random) -> AddressSet {
    let ranges = (0..=random.below(3)).map(|_| {
        let first = random.address();
        first..=first.saturating_add(random.below(2_048) as u16)
    });
    ranges.collect()
}

/// So many steps from a random state, or up to one that is no comparison, with one to three devices; in every other round they move
/// the lines. Then the same by runs.
pub fn round(
    random: &mut Random,
    opcodes: &[u8],
    plant: Option<Plant>,
    counts: &mut Counts,
) -> Result<(), String> {
    let memory: Vec<u8> = (0..65_536).map(|_| random.one_of(opcodes)).collect();
    let sets: Vec<AddressSet> = (0..=random.below(3))
        .map(|_| some_addresses(random))
        .collect();
    let start = State {
        cycles: 0,
        ..random.state()
    };
    let moves = counts.rounds.is_multiple_of(2);
    let wired = Wired {
        bytes: memory.clone(),
        sets: &sets,
        chips: vec![Chip::new(opcodes, moves); sets.len()],
        step: Step::default(),
    };
    let mut rust = CPU::new(wired, Nmos6502);
    start.put(&mut rust);
    let port_with = |deaf: Plant| {
        let moves = moves && plant != Some(Plant::Line);
        let mut chips = vec![Chip::new(opcodes, moves); sets.len()];
        chips[0].is_deaf = plant == Some(deaf);
        Port {
            machine: machine_of(&start),
            memory: memory.clone(),
            sets: &sets,
            chips,
        }
    };
    let mut port = port_with(Plant::Step);
    let mut marks: Vec<Mark> = Vec::new();
    counts.rounds += 1;
    while marks.len() < STEPS_A_ROUND {
        let before = state_of(&port.machine);
        let compared = compare_call(&mut rust, &mut port, counts)
            .map_err(|fault| format!("step {}, from {before}: {fault}", marks.len()))?;
        let Some((steps, goes_on)) = compared else {
            rust.memory.take_back();
            break;
        };
        marks.push(Mark {
            steps: marks.last().map_or(0, |mark| mark.steps) + steps,
            state: State::of(&rust),
            calls: counts_of(&port.chips),
        });
        if !goes_on {
            break;
        }
    }
    if let Some(last) = marks.last() {
        counts.steps += last.steps;
        let calls = up_to(&port.chips, last).concat();
        let gets = calls.iter().filter(|call| matches!(call, Call::Get(_)));
        let gets = gets.count() as u64;
        counts.gets += gets;
        counts.sets += calls.len() as u64 - gets;
    }
    let mut by_runs = port_with(Plant::Run);
    compare_runs(random, &mut by_runs, &marks, &port.chips, counts)?;
    by_runs.same_bytes(&rust.memory.bytes)
}
