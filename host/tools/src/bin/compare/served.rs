//! Steps with lines. The Rust looks at its lines after an instruction, within the same call, and the port before an opcode, in
//! a step by itself: what each of them does is held to the rules' step that serves a line, and to each other.

use oracle::accesses::Access;
use oracle::case::Case;
use oracle::interrupts::{Line, Lines};
use oracle::state::{Names, RUST_AND_PORT, State, difference};
use saxundeer::{HIGHEST_CYCLES, Machine, StepAnswer};
use tools::states::{given, state_of};

use crate::fault::Fault;
use crate::pair::{Pair, judge_level};

const RULES_AND_PORT: Names = ["the rules", "the port"];
const LISTED_AND_RUST: Names = ["the list", "the Rust"];

/// What a call of the Rust with lines came to: the instruction alone, and all of it.
pub struct Called {
    pub instruction: State,
    pub whole: State,
}

/// An instruction, and whether a line was served after it.
pub struct Passed {
    pub instruction: State,
    pub is_served: bool,
    pub after: State,
}

impl Pair {
    /// On what stands in the Rust's memory, where the step was not made yet.
    fn fault(&self, before: &State, lines: Lines, what: String) -> Fault {
        let case = Case {
            lines,
            bytes: (0..=0xFFFF)
                .zip(self.rust.bytes().iter().copied())
                .collect(),
            ..Case::new(*before)
        };
        Fault::of_step(case.smallest(), what)
    }

    /// A step that serves a line: the byte at the counter, which is not read, and the vector.
    fn case_of(&self, before: &State, lines: Lines, line: Line) -> Case {
        let [low, high] = line.vector();
        let places = [before.counter, low, high].map(Access::Read);
        Case::of_memory(*before, lines, &places, &self.memory)
    }

    /// A case of any kind, on whatever else stands in memory: the same call in both cores.
    pub fn same_call(&mut self, case: &Case) -> Result<(), Fault> {
        let Case { state, lines, .. } = case;
        self.put_all(case);
        if state.cycles > HIGHEST_CYCLES {
            return self.refuse(state, *lines, StepAnswer::NoCycleRoom);
        }
        if case.entry().is_some() {
            let masked = usize::from(state.is_masked());
            self.calls.by_levels[usize::from(lines.number()) + 8 * masked] += 1;
            self.calls.in_both += 1;
        }
        match (lines.due(state), case.entry()) {
            (None, Some(_)) => self.step(state, *lines).map(|_| ()),
            (None, None) => self.refuse(state, *lines, StepAnswer::NotAnOpcode),
            (Some(line), entry) => {
                if entry.is_some() {
                    self.call(state, *lines)?;
                }
                self.serve(line, state, *lines).map(|_| ())
            }
        }
    }

    /// A step that the port refuses: everything is as it was, the last level too.
    pub fn refuse(
        &mut self,
        before: &State,
        lines: Lines,
        refusal: fn(Machine) -> StepAnswer,
    ) -> Result<(), Fault> {
        let (machine, levels) = given(before, lines);
        let answer = saxundeer::single_step(machine, levels, &mut self.memory);
        match answer {
            StepAnswer::NoCycleRoom(_) => self.calls.no_room += 1,
            StepAnswer::NotAnOpcode(_) => self.calls.no_opcode += 1,
            _ => {}
        }
        if answer != refusal(machine) {
            let what = format!("a step to be refused: the port answered {answer:?}");
            return Err(self.fault(before, lines, what));
        }
        self.compare_all_bytes(RULES_AND_PORT)
    }

    /// The Rust's call with lines, after which its memory is as before. It must be its own step without them and then, where a
    /// line was due before the instruction, the rules' step that serves it, but in no cycles.
    pub fn call(&mut self, before: &State, lines: Lines) -> Result<Called, Fault> {
        let at_rest = Lines {
            nmi: lines.last_nmi,
            irq: Lines::IDLE.irq,
            ..lines
        };
        let no_step = || "the Rust made no step".to_string();
        let Some(instruction) = self.rust.step_with(before, at_rest) else {
            self.rust.undo();
            return Err(self.fault(before, lines, no_step()));
        };
        let mut listed = instruction;
        let mut accesses = self.rust.accesses().to_vec();
        let mut stored: Vec<(u16, u8)> = Vec::new();
        for access in &accesses {
            if let Access::Store(address) = *access {
                stored.push((address, self.rust.bytes()[usize::from(address)]));
            }
        }
        if let Some(line) = lines.due(before) {
            let bytes = self.rust.bytes();
            let service = line.service(&instruction, |address| bytes[usize::from(address)]);
            listed = State {
                cycles: instruction.cycles,
                ..service.after
            };
            accesses.extend(line.accesses(&instruction));
            stored.retain(|(place, _)| service.pushed.iter().all(|(pushed, _)| place != pushed));
            stored.extend(service.pushed);
            self.calls.by_the_rust += 1;
        }
        self.rust.undo();
        let whole = self.rust.step_with(before, lines);
        let judged = match whole {
            None => Err(no_step()),
            Some(whole) => self
                .judge_call(&listed, &whole, &accesses, &stored)
                .map(|()| whole),
        };
        self.rust.undo();
        match judged {
            Ok(whole) => Ok(Called { instruction, whole }),
            Err(what) => Err(self.fault(before, lines, what)),
        }
    }

    fn judge_call(
        &self,
        listed: &State,
        rust: &State,
        accesses: &[Access],
        stored: &[(u16, u8)],
    ) -> Result<(), String> {
        if let Some(what) = difference(LISTED_AND_RUST, listed, rust) {
            return Err(what);
        }
        if accesses != self.rust.accesses() {
            return Err(format!(
                "the accesses: the list {accesses:04X?}, the Rust {:04X?}",
                self.rust.accesses()
            ));
        }
        for (address, byte) in stored {
            let rust = self.rust.bytes()[usize::from(*address)];
            if rust != *byte {
                return Err(format!(
                    "the byte at {address:04X}: the list {byte:02X}, the Rust {rust:02X}"
                ));
            }
        }
        Ok(())
    }

    /// The port's step that serves a line, against the rules alone: the answer, every register, the cycles, the level, the
    /// address put out first and all 65,536 bytes. Both memories are those after it.
    pub fn serve(&mut self, line: Line, before: &State, lines: Lines) -> Result<State, Fault> {
        let memory = &self.memory;
        let service = line.service(before, |address| memory[usize::from(address)]);
        let answer = self.port_step(before, lines, |pair, _, _| pair.spoil_service(before));
        let judged = judge_service(&service.after, lines, answer);
        if let Err(what) = judged {
            return Err(self.fault(before, lines, what));
        }
        match line {
            Line::Nmi => self.calls.nmi += 1,
            Line::Irq => self.calls.irq += 1,
        }
        self.window.push(self.case_of(before, lines, line));
        for (address, byte) in service.pushed {
            self.rust.put(address, byte);
        }
        self.compare_all_bytes(RULES_AND_PORT)?;
        Ok(service.after)
    }

    /// An instruction and what is due after it, with lines that the Rust sees at its end and the port at its next step. `held`
    /// are the lines of the instruction itself, none of which is due.
    pub fn boundary(&mut self, before: &State, held: Lines, next: Lines) -> Result<Passed, Fault> {
        let opcode = usize::from(self.memory[usize::from(before.counter)]);
        self.calls.in_both += 1;
        let called = self.call(before, next)?;
        let instruction = self.step(before, held)?;
        let due = next.due(&instruction);
        let after = match due {
            Some(line) => self.serve(line, &instruction, next)?,
            None => instruction,
        };
        match (next.due(before), due) {
            (rust, port) if rust == port => {
                // Where the instruction itself is a listed difference, the call was held to its own.
                let is_listed = difference(LISTED_AND_RUST, &instruction, &called.instruction);
                let charged = after.cycles - instruction.cycles;
                let rust = State {
                    cycles: called.whole.cycles.wrapping_add(charged),
                    ..called.whole
                };
                match difference(RUST_AND_PORT, &rust, &after) {
                    Some(what) if is_listed.is_none() => {
                        let what = format!("what is due after an instruction: {what}");
                        return Err(self.fault(before, next, what));
                    }
                    _ => self.calls.alike += u64::from(is_listed.is_none()),
                }
            }
            (None, Some(Line::Irq)) => self.calls.cleared[opcode] += 1,
            (Some(Line::Irq), None) => self.calls.set[opcode] += 1,
            (rust, port) => {
                let what = format!(
                    "what is due after an instruction: the Rust {rust:?}, the port {port:?}"
                );
                return Err(self.fault(before, next, what));
            }
        }
        Ok(Passed {
            instruction,
            is_served: due.is_some(),
            after,
        })
    }
}

fn judge_service(rules: &State, lines: Lines, answer: StepAnswer) -> Result<(), String> {
    let StepAnswer::Made { machine, first } = answer else {
        return Err(format!("a line is due: the port answered {answer:?}"));
    };
    judge_level(&machine, lines)?;
    if first != 0 {
        return Err(format!(
            "the address put out first: the rules 0000, the port {first:04X}"
        ));
    }
    match difference(RULES_AND_PORT, rules, &state_of(&machine)) {
        None => Ok(()),
        Some(what) => Err(format!("a line that is served: {what}")),
    }
}
