//! Both cores on equal memories, compared after every step.

use oracle::accesses::Access;
use oracle::addresses::Aim;
use oracle::case::Case;
use oracle::interrupts::Lines;
use oracle::known;
use oracle::recorder::Core;
use oracle::rules;
use oracle::state::{Names, RUST_AND_PORT, State, byte_difference, difference};
use saxundeer::{Machine, Registers, StepAnswer};
use tools::states::{given, level_of, state_of};

use crate::counts::{Calls, Firsts};
use crate::fault::{Fault, Plant};

/// The port's stores cannot be seen, so that after so many steps all 65,536 bytes are compared.
const WINDOW: usize = 256;

pub struct Pair {
    pub rust: Core,
    pub memory: Vec<u8>,
    pub(crate) plant: Plant,
    /// The cases since all bytes were compared.
    pub(crate) window: Vec<Case>,
    expected: Vec<Access>,
    pub steps: u64,
    /// The steps by opcode.
    pub made: [u64; 256],
    /// The steps that differ as is listed, by what is listed and by opcode.
    pub listed: [[u64; 256]; known::ALL.len()],
    pub firsts: Firsts,
    pub reads: u64,
    pub stores: u64,
    /// What was compared with lines.
    pub calls: Calls,
}

impl Pair {
    pub fn new(memory: Vec<u8>, plant: Plant) -> Pair {
        Pair {
            rust: Core::new(memory.clone()),
            memory,
            plant,
            window: Vec::with_capacity(WINDOW),
            expected: Vec::with_capacity(8),
            steps: 0,
            made: [0; 256],
            listed: [[0; 256]; known::ALL.len()],
            firsts: Firsts::default(),
            reads: 0,
            stores: 0,
            calls: Calls::default(),
        }
    }

    pub fn put(&mut self, address: u16, byte: u8) {
        self.rust.put(address, byte);
        self.memory[usize::from(address)] = byte;
    }

    /// All bytes, in both cores.
    pub fn lay(&mut self, memory: &[u8]) {
        for (address, byte) in (0..=0xFFFF).zip(memory) {
            self.put(address, *byte);
        }
    }

    /// The step of a case, on whatever else stands in memory.
    pub fn step_case(&mut self, case: &Case) -> Result<State, Fault> {
        self.put_all(case);
        self.step(&case.state, case.lines)
    }

    pub fn put_all(&mut self, case: &Case) {
        for (address, byte) in &case.bytes {
            self.put(*address, *byte);
        }
    }

    /// The port's step, with the planted fault in what it gives where it is made.
    pub(crate) fn port_step(
        &mut self,
        before: &State,
        lines: Lines,
        spoil: impl FnOnce(&mut Pair, &mut Machine, &mut u16),
    ) -> StepAnswer {
        let (machine, levels) = given(before, lines);
        let mut answer = saxundeer::single_step(machine, levels, &mut self.memory);
        if let StepAnswer::Made { machine, first } = &mut answer {
            if self.plant == Plant::Level {
                machine.set_last_nmi(level_of(lines.last_nmi));
            }
            spoil(self, machine, first);
        }
        answer
    }

    /// One step of both with these lines, none of which is due, and the state after it by the rules. The byte at the counter
    /// must be one of the 151.
    pub fn step(&mut self, before: &State, lines: Lines) -> Result<State, Fault> {
        let opcode = self.memory[usize::from(before.counter)];
        let entry = rules::entry(opcode).expect("a case of no opcode");
        let byte = |address| self.memory[usize::from(address)];
        entry.accesses(before, byte, &mut self.expected);
        let aim = entry.aim(before, byte);
        let case = Case::of_memory(*before, lines, &self.expected, &self.memory);
        known::in_the_rusts_order(&case, &mut self.expected);
        let rust = self.rust.step_with(before, lines);
        let answer = self.port_step(before, lines, |pair, machine, first| {
            pair.spoil(&case, aim.as_ref(), machine, first);
        });
        self.steps += 1;
        self.made[usize::from(opcode)] += 1;
        let judged = self.judge(&case, aim, rust, answer);
        self.window.push(case.clone());
        match judged {
            Err(what) => Err(Fault::of_step(case, what)),
            Ok(after) if self.window.len() < WINDOW => Ok(after),
            Ok(after) => self.compare_all_bytes(RUST_AND_PORT).map(|()| after),
        }
    }

    fn judge(
        &mut self,
        case: &Case,
        aim: Option<Aim>,
        rust: Option<State>,
        answer: StepAnswer,
    ) -> Result<State, String> {
        let Some(rust) = rust else {
            return Err("the Rust made no step".into());
        };
        let StepAnswer::Made { machine, first } = answer else {
            return Err(format!("the port answered {answer:?}"));
        };
        judge_level(&machine, case.lines)?;
        self.judge_accesses()?;
        self.judge_first(aim, first)?;
        let Some(demanded) = known::demanded(case, &rust) else {
            return Err(format!("the listed difference: the Rust went to {rust}"));
        };
        // Where the Rust's state is not the one that is demanded, the port's must be another than the Rust's too.
        match difference(RUST_AND_PORT, &demanded, &state_of(&machine)) {
            None => {
                if let Some(known) = known::cause(case) {
                    self.listed[known as usize][usize::from(case.byte(case.state.counter))] += 1;
                }
                Ok(demanded)
            }
            Some(what) if known::cause(case).is_none() => Err(what),
            Some(what) => Err(format!("{what}; here the Rust's is put right as is listed")),
        }
    }

    /// The Rust's are those of the rules, and what it stored stands in the port's memory.
    fn judge_accesses(&mut self) -> Result<(), String> {
        let accesses = self.rust.accesses();
        if accesses != self.expected {
            return Err(format!(
                "the accesses: the Rust {accesses:04X?}, the rules {:04X?}",
                self.expected
            ));
        }
        for access in accesses {
            match *access {
                Access::Read(_) => self.reads += 1,
                Access::Store(address) => {
                    self.stores += 1;
                    let place = usize::from(address);
                    let [rust, port] = [self.rust.bytes()[place], self.memory[place]];
                    if rust != port {
                        return Err(format!(
                            "the byte at {address:04X}: the Rust {rust:02X}, the port {port:02X}"
                        ));
                    }
                }
            }
        }
        Ok(())
    }

    /// The Rust has no such address: it is the rules' alone.
    fn judge_first(&mut self, aim: Option<Aim>, port: u16) -> Result<(), String> {
        let rules = aim.as_ref().map_or(0, |aim| aim.first);
        let count = match aim {
            None => &mut self.firsts.none,
            Some(aim) if aim.first == aim.address => &mut self.firsts.last,
            Some(_) => &mut self.firsts.uncarried,
        };
        *count += 1;
        if rules == port {
            return Ok(());
        }
        Err(format!(
            "the address put out first: the rules {rules:04X}, the port {port:04X}"
        ))
    }

    /// Puts the planted fault into the port's results of an opcode.
    fn spoil(&mut self, case: &Case, aim: Option<&Aim>, machine: &mut Machine, first: &mut u16) {
        let code = [0, 1, 2].map(|number| case.byte(case.state.operand(number)));
        match (self.plant, code, self.expected.last()) {
            (Plant::Store, [0x91, 0xFF, _], Some(Access::Store(address))) => {
                self.memory[usize::from(*address)] ^= 1;
            }
            (Plant::First, ..) => *first = aim.map_or(0, |aim| aim.address),
            (Plant::Call, [0x20, low, high], _) => {
                machine.set_registers(Registers {
                    program_counter: u16::from_le_bytes([low, high]),
                    ..machine.registers()
                });
            }
            _ => {}
        }
    }

    /// And into those of a step that serves a line.
    pub(crate) fn spoil_service(&mut self, before: &State) {
        if self.plant == Plant::Break {
            self.memory[usize::from(before.in_stack(0xFE))] |= 0x10;
        }
    }

    /// All bytes; where one differs, one of the cases since the last time is the input.
    pub fn compare_all_bytes(&mut self, names: Names) -> Result<(), Fault> {
        match byte_difference(names, self.rust.bytes(), &self.memory) {
            None => {
                self.window.clear();
                Ok(())
            }
            Some(what) => Err(Fault {
                cases: std::mem::take(&mut self.window),
                what,
            }),
        }
    }

    /// All bytes of both cores, and of a memory on which the port's runs made the same steps up to this state.
    pub fn compare_with_runs(&mut self, state: State, memory: &[u8]) -> Result<(), Fault> {
        self.compare_all_bytes(RUST_AND_PORT)?;
        match byte_difference(RUST_AND_PORT, self.rust.bytes(), memory) {
            None => Ok(()),
            Some(what) => Err(Fault::of_run(
                state,
                format!("after the port's runs: {what}"),
            )),
        }
    }
}

/// That the step recorded the present level of NMI.
pub fn judge_level(machine: &Machine, lines: Lines) -> Result<(), String> {
    if machine.last_nmi() == level_of(lines.nmi) {
        return Ok(());
    }
    Err(format!(
        "the last level of NMI: the rules {:?}, the port {:?}",
        lines.nmi,
        machine.last_nmi()
    ))
}
