//! A bus that counts its calls: random programs of documented opcodes, with every call of each step in its order, and the state
//! after it. From D000 to D0FF it gives a byte by the number of its calls there, so that one more or less shows in all that come
//! after it; in half of the rounds it moves IRQ, by the number of questions for it, and in half of these NMI too or IRQ's vector.
//! With the word --plant-call it does not count a store, which must be found.
//!
//! What is listed is left out. A round ends where the program comes to D000, before a JSR that pushes onto its own operand and
//! before a byte that is no documented opcode; the bus leaves IRQ high behind an instruction that may change I; and the cycles of a
//! served line, and the one of a shift over a page, are not counted.

use std::fmt::Write;

use mos6502::cpu::CPU;
use mos6502::instruction::Nmos6502;
use mos6502::memory::Bus;
use oracle::case::Case;
use oracle::known::{self, Known};
use oracle::random::Random;
use oracle::rules;
use oracle::state::State;

const ROUNDS: u64 = 400;
const STEPS_A_ROUND: usize = 500;
/// BRK, PLP, RTI, CLI, SEI.
const ON_THE_MASK: [u8; 5] = [0x00, 0x28, 0x40, 0x58, 0x78];

#[derive(Clone, Copy, PartialEq, Eq)]
enum Call {
    Get(u16),
    Set(u16, u8),
    Nmi,
    Irq,
    Vector,
}

struct Counting {
    bytes: Vec<u8>,
    calls: Vec<Call>,
    counted: u64,
    questions: u64,
    moves_nmi: bool,
    moves_irq: bool,
    vector: u16,
    opcode: u8,
    /// The next store to where it counts is not counted.
    is_deaf: bool,
}

fn is_counted(address: u16) -> bool {
    address >> 8 == 0xD0
}

impl Counting {
    /// The byte that it would give.
    fn peek(&self, address: u16) -> u8 {
        if is_counted(address) {
            (self.counted * 37 % 251) as u8
        } else {
            self.bytes[usize::from(address)]
        }
    }
}

impl Bus for Counting {
    fn get_byte(&mut self, address: u16) -> u8 {
        let byte = self.peek(address);
        self.counted += u64::from(is_counted(address));
        if self.calls.is_empty() {
            self.opcode = byte;
        }
        self.calls.push(Call::Get(address));
        byte
    }

    fn set_byte(&mut self, address: u16, value: u8) {
        self.counted += u64::from(is_counted(address) && !self.is_deaf);
        self.is_deaf &= !is_counted(address);
        self.calls.push(Call::Set(address, value));
        self.bytes[usize::from(address)] = value;
    }

    fn nmi_pending(&mut self) -> bool {
        self.questions += 1;
        self.calls.push(Call::Nmi);
        self.moves_nmi && self.questions % 11 >= 9
    }

    fn irq_pending(&mut self) -> bool {
        self.calls.push(Call::Irq);
        self.moves_irq && self.questions % 16 >= 12 && !ON_THE_MASK.contains(&self.opcode)
    }

    fn irq_vector(&mut self) -> u16 {
        self.calls.push(Call::Vector);
        self.vector
    }
}

fn spelled(calls: &[Call]) -> String {
    calls.iter().fold(String::new(), |mut text, call| {
        let written = match call {
            Call::Get(address) => write!(text, " {address:04X}"),
            Call::Set(address, value) => write!(text, " {value:02X}@{address:04X}"),
            Call::Nmi => write!(text, " nmi"),
            Call::Irq => write!(text, " irq"),
            Call::Vector => write!(text, " vector"),
        };
        written.expect("a text takes everything");
        text
    })
}

/// Whether the next step is left out; and whether its cycles are.
fn is_left_out(cpu: &CPU<Counting, Nmos6502>) -> (bool, bool) {
    let state = State::of(cpu);
    let mut case = Case::new(state);
    let places = [0, 1, 2].map(|number| state.operand(number));
    case.put_code(&places.map(|place| cpu.memory.peek(place)));
    let cause = known::cause(&case);
    let is_onto_itself = matches!(cause, Some(Known::FirstPush | Known::SecondPush));
    let is_out = case.entry().is_none() || is_onto_itself || places.into_iter().any(is_counted);
    (is_out, cause.is_some())
}

fn main() {
    let is_spoiled = std::env::args().any(|word| word == "--plant-call");
    let mut random = Random::new(6502);
    let opcodes = rules::opcodes();
    for round in 0..ROUNDS {
        let bus = Counting {
            bytes: (0..65_536).map(|_| random.one_of(&opcodes)).collect(),
            calls: Vec::new(),
            counted: 0,
            questions: 0,
            moves_nmi: round % 4 == 1,
            moves_irq: round % 2 == 1,
            vector: if round % 8 < 4 { 0xFFFE } else { 0x8000 },
            opcode: 0,
            is_deaf: is_spoiled,
        };
        let mut cpu = CPU::new(bus, Nmos6502);
        random.state().put(&mut cpu);
        for _ in 0..STEPS_A_ROUND {
            let (is_out, uncounted) = is_left_out(&cpu);
            if is_out {
                break;
            }
            cpu.memory.calls.clear();
            let made = cpu.single_step();
            let calls = &cpu.memory.calls;
            let behind = calls.iter().skip_while(|call| **call != Call::Nmi);
            let is_served = behind.skip(1).any(|call| matches!(call, Call::Get(_)));
            let text = spelled(calls);
            if is_served || uncounted {
                cpu.cycles = 0;
            }
            println!("{made} {}{text}", State::of(&cpu));
        }
    }
}
