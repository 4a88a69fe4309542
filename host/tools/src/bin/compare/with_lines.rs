//! The parts with lines: the same call in both cores, and runs in which the port sees the levels a step later.

use oracle::case::Case;
use oracle::interrupts::{Level, Lines};
use oracle::random::Random;
use oracle::rules;
use oracle::state::{RUST_AND_PORT, State};
use saxundeer::{HIGHEST_CYCLES, Progress, RunAnswer, StepAnswer};
use tools::states::given;

use crate::fault::Fault;
use crate::pair::Pair;
use crate::part::{LONGEST, Part, RUNS, random_cycles};

/// The same call in both cores, with every opcode and every byte that is none, every combination of the levels, the last one
/// of NMI and I, and random states besides. One count of cycles in sixteen has no room for a step.
pub fn same_calls(part: &mut Part, times: u64) -> Result<(), Fault> {
    let random = &mut *part.random;
    for byte in 0..=0xFF {
        for lines in Lines::all() {
            for mask in [0, State::MASK] {
                for _ in 0..times {
                    let mut case = Case::new(random.state());
                    case.lines = lines;
                    case.state.status = case.state.status & !State::MASK | mask;
                    case.state.cycles = match random.below(16) {
                        0 => HIGHEST_CYCLES + 1 + random.below(7) as u64,
                        _ => random_cycles(random),
                    };
                    case.put_code(&[byte]);
                    case.fill(random);
                    part.pair.same_call(&case)?;
                }
            }
        }
        (part.progress)(part.pair.steps);
    }
    part.pair.compare_all_bytes(RUST_AND_PORT)
}

/// Runs on random memories with the state carried and lines that change now and then. The Rust looks at its lines after an
/// instruction, and the port sees the same levels at its next step. Every stretch of the port's steps with the same levels is
/// also made by one run, long run or run by cycles of it.
pub fn runs_with_lines(part: &mut Part, steps: u64) -> Result<(), Fault> {
    let opcodes = rules::opcodes();
    let end = part.pair.steps + steps;
    while part.pair.steps < end {
        let last = end.min(part.pair.steps + LONGEST);
        run_with_lines(part.pair, part.random, &opcodes, last)?;
        part.tell();
    }
    Ok(())
}

/// Until `last` instructions are made in all.
fn run_with_lines(
    pair: &mut Pair,
    random: &mut Random,
    opcodes: &[u8],
    last: u64,
) -> Result<(), Fault> {
    let memory = random.memory();
    pair.lay(&memory);
    let mut state = random.state();
    let mut held = Held::new(memory, state);
    while pair.steps < last {
        if rules::entry(pair.memory[usize::from(state.counter)]).is_none() {
            pair.refuse(&state, held.lines, StepAnswer::NotAnOpcode)?;
            held.end(state, true)?;
            let opcode = random.one_of(opcodes);
            pair.put(state.counter, opcode);
            held.memory[usize::from(state.counter)] = opcode;
        }
        let opcode = pair.memory[usize::from(state.counter)];
        let next = held.next_lines(opcode, random);
        let passed = pair.boundary(&state, held.lines, next)?;
        held.made();
        if (next.irq, next.nmi) != (held.lines.irq, held.lines.nmi) {
            held.end(passed.instruction, false)?;
            held.show(next);
        }
        if passed.is_served {
            held.made();
        }
        state = passed.after;
    }
    held.end(state, false)?;
    pair.compare_with_runs(state, &held.memory)
}

/// A stretch of the port's steps with the same levels, and a memory on which it is made once more by one run.
struct Held {
    memory: Vec<u8>,
    start: (State, Lines),
    /// Those of the next step.
    lines: Lines,
    steps: u64,
    /// The number of the next run among `RUNS`; one more is a run by cycles.
    runs: usize,
}

impl Held {
    fn new(memory: Vec<u8>, start: State) -> Held {
        Held {
            memory,
            start: (start, Lines::IDLE),
            lines: Lines::IDLE,
            steps: 0,
            runs: 0,
        }
    }

    /// What is seen after the next instruction: seven times of eight the same levels, and any where it may change I.
    fn next_lines(&self, opcode: u8, random: &mut Random) -> Lines {
        let changes_i = [0x00, 0x28, 0x40, 0x58, 0x78].contains(&opcode);
        let [irq, nmi] = if changes_i || random.below(8) == 0 {
            [(); 2].map(|()| random.one_of(&[Level::High, Level::Low]))
        } else {
            [self.lines.irq, self.lines.nmi]
        };
        let last_nmi = self.lines.nmi;
        Lines { irq, nmi, last_nmi }
    }

    /// Other levels from the next step on.
    fn show(&mut self, lines: Lines) {
        self.lines = lines;
        self.start.1 = lines;
    }

    /// A step was made, which records the level.
    fn made(&mut self) {
        self.steps += 1;
        self.lines.last_nmi = self.lines.nmi;
    }

    /// The stretch as one run, which must come to this state; where a step was refused after it, that is asked for too. The
    /// next stretch begins here.
    fn end(&mut self, state: State, refused: bool) -> Result<(), Fault> {
        let (start, lines) = self.start;
        let (machine, levels) = given(&start, lines);
        let more = u64::from(refused);
        let answer = match RUNS.get(self.runs) {
            Some(run) => run(machine, self.steps + more, levels, &mut self.memory),
            None => {
                let spent = state.cycles - start.cycles;
                saxundeer::run_cycles(machine, spent + more, levels, &mut self.memory)
            }
        };
        self.runs = (self.runs + 1) % (RUNS.len() + 1);
        let (machine, _) = given(&state, self.lines);
        let progress = Progress {
            steps: self.steps,
            machine,
        };
        let expected = if refused {
            RunAnswer::NotAnOpcode(progress)
        } else {
            RunAnswer::Made(progress)
        };
        if answer != expected {
            let what = format!("{expected:?} by steps, the port's run answered {answer:?}");
            return Err(Fault::of_run(start, what));
        }
        self.start = (state, self.lines);
        self.steps = 0;
        Ok(())
    }
}
