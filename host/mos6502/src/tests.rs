//! What the comparison with mos6502 does not see: the answers, what a refusal leaves, and how things are written.

use std::format;
use std::string::{String, ToString};
use std::vec;
use std::vec::Vec;

use crate::cpu::{CPU, RunAnswer, WaitState};
use crate::instruction::Nmos6502;
use crate::memory::{Bus, Memory};
use crate::registers::{Registers, StackPointer, Status};

/// The highest count of cycles from which there is a step.
const HIGHEST_CYCLES: u64 = u64::MAX - 7;
/// The twelve bytes that jam the 6502.
const JAMS: [u8; 12] = [
    0x02, 0x12, 0x22, 0x32, 0x42, 0x52, 0x62, 0x72, 0x92, 0xB2, 0xD2, 0xF2,
];

/// A memory that writes its calls down, with lines.
struct Recorder {
    bytes: Vec<u8>,
    calls: Vec<String>,
    nmi: bool,
    irq: bool,
}

impl Bus for Recorder {
    fn get_byte(&mut self, address: u16) -> u8 {
        self.calls.push(format!("{address:04X}"));
        self.bytes[usize::from(address)]
    }

    fn set_byte(&mut self, address: u16, value: u8) {
        self.calls.push(format!("{value:02X}@{address:04X}"));
        self.bytes[usize::from(address)] = value;
    }

    fn nmi_pending(&mut self) -> bool {
        self.calls.push("nmi".to_string());
        self.nmi
    }

    fn irq_pending(&mut self) -> bool {
        self.calls.push("irq".to_string());
        self.irq
    }
}

/// The program stands at 0200, and NMI leads to 0300.
fn recorded(code: &[u8]) -> CPU<Recorder, Nmos6502> {
    let mut bytes = vec![0; 65_536];
    bytes[0x0200..0x0200 + code.len()].copy_from_slice(code);
    bytes[0xFFFB] = 0x03;
    let recorder = Recorder {
        bytes,
        calls: Vec::new(),
        nmi: false,
        irq: false,
    };
    at_0200(CPU::new(recorder, Nmos6502))
}

fn plain(code: &[u8]) -> CPU<Memory, Nmos6502> {
    let mut memory = Memory::new();
    memory.set_bytes(0x0200, code);
    at_0200(CPU::new(memory, Nmos6502))
}

fn at_0200<M: Bus>(mut cpu: CPU<M, Nmos6502>) -> CPU<M, Nmos6502> {
    cpu.registers.program_counter = 0x0200;
    cpu.registers.stack_pointer = StackPointer(0xFF);
    cpu
}

#[test]
fn a_run_says_where_it_ended_and_at_what() {
    let code = [0xA9, 0x05, 0x85, 0x10, 0x02];
    let answer = RunAnswer::NotAnOpcode {
        steps: 2,
        address: 0x0204,
        byte: 0x02,
    };
    let mut cpu = plain(&code);
    assert_eq!(cpu.run(), answer);
    assert_eq!((cpu.memory.get_byte(0x10), cpu.cycles), (0x05, 5));
    let mut cpu = recorded(&code);
    assert_eq!(cpu.run(), answer);
    assert_eq!((cpu.memory.bytes[0x10], cpu.cycles), (0x05, 5));
    assert_eq!(
        cpu.memory.calls.join(" "),
        "0200 0201 0202 0203 05@0010 0204"
    );
    assert!(answer.ended_at(0x0204) && !answer.ended_at(0x0200));
    let text = "after 2 steps it met 02 at 0204, which is no documented opcode";
    assert_eq!(answer.to_string(), text);
}

/// The first of the answers that holds is given, and nothing is changed.
#[test]
fn a_refusal_changes_nothing() {
    for cycles in [0, HIGHEST_CYCLES, HIGHEST_CYCLES + 1, u64::MAX] {
        for byte in [0x02, 0x03, 0x93, 0xFF] {
            let (steps, address) = (0, 0x0200);
            let (expected, asked) = if cycles > HIGHEST_CYCLES {
                (RunAnswer::NoCycleRoom { steps, address }, "")
            } else {
                let met = RunAnswer::NotAnOpcode {
                    steps,
                    address,
                    byte,
                };
                (met, "0200")
            };
            let mut cpu = plain(&[byte]);
            cpu.cycles = cycles;
            let registers = cpu.registers;
            assert!(!cpu.single_step());
            assert_eq!(cpu.run(), expected);
            assert_eq!((cpu.registers, cpu.cycles), (registers, cycles));

            let mut cpu = recorded(&[byte]);
            cpu.cycles = cycles;
            let bytes = cpu.memory.bytes.clone();
            assert!(!cpu.single_step());
            let lines = if asked.is_empty() { "" } else { " nmi irq" };
            assert_eq!(cpu.memory.calls.join(" "), format!("{asked}{lines}"));
            cpu.memory.calls.clear();
            assert_eq!(cpu.run(), expected);
            assert_eq!(cpu.memory.calls.join(" "), asked);
            assert_eq!((cpu.registers, cpu.cycles), (registers, cycles));
            assert!(cpu.memory.bytes == bytes);
        }
    }
}

#[test]
fn twelve_bytes_wait_for_a_reset() {
    for byte in 0..=0xFF {
        let mut cpu = plain(&[byte]);
        let is_made = cpu.single_step();
        let is_jammed = cpu.wait_state() == WaitState::WaitingForReset;
        assert_eq!(is_jammed, JAMS.contains(&byte), "{byte:02X}");
        assert!(!is_jammed || !is_made);
        cpu.reset();
        assert_eq!(cpu.wait_state(), WaitState::Running);
    }
    let mut cpu = plain(&[0x02]);
    let _ = cpu.run();
    assert_eq!(cpu.wait_state(), WaitState::WaitingForReset);
    cpu.memory.set_byte(0x0200, 0xEA);
    assert!(cpu.single_step());
    assert_eq!(cpu.wait_state(), WaitState::Running);
}

/// The instruction is made, and the line stays due until there is room for its service.
#[test]
fn a_line_without_room_is_served_later() {
    let mut cpu = recorded(&[0xEA, 0xEA]);
    cpu.memory.nmi = true;
    cpu.cycles = HIGHEST_CYCLES;
    assert!(cpu.single_step());
    assert_eq!(cpu.registers.program_counter, 0x0201);
    assert!(!cpu.single_step());
    cpu.cycles = 0;
    assert!(cpu.single_step());
    assert_eq!((cpu.registers.program_counter, cpu.cycles), (0x0300, 9));
}

#[test]
fn bits_4_and_5_stay_as_they_are() {
    // PLP, of each byte, with each of the bits set before it.
    for kept in [0x00, 0x10, 0x20, 0x30] {
        for pulled in 0..=0xFF {
            let mut cpu = plain(&[0x28]);
            cpu.registers.status = Status::from_bits_truncate(kept);
            cpu.registers.stack_pointer = StackPointer(0x7F);
            cpu.memory.set_byte(0x0180, pulled);
            assert!(cpu.single_step());
            assert_eq!(cpu.registers.status.bits(), pulled & 0xCF | kept);
        }
    }
}

#[test]
fn the_status_is_written_as_in_mos6502() {
    let status = Status::default();
    let text = "Status(PS_UNUSED | PS_DISABLE_INTERRUPTS)";
    assert_eq!(format!("{status:?}"), text);
    assert_eq!(format!("{:?}", Status::empty()), "Status(0x0)");
    let cpu = CPU::new(Memory::new(), Nmos6502);
    let text = format!("CPU {{ registers: {:?}", Registers::new());
    assert_eq!(format!("{cpu:?}"), text);
}

#[test]
fn the_flags_have_their_names() {
    for bits in 0..=0xFF {
        let status = Status::from_bits_retain(bits);
        let mut union = Status::empty();
        let mut last = 0x100;
        for (flag, (name, named)) in status.into_iter().zip(status.iter_names()) {
            assert_eq!((flag, Status::from_name(name)), (named, Some(flag)));
            assert!(flag.bits().is_power_of_two() && u16::from(flag.bits()) < last);
            last = u16::from(flag.bits());
            union |= flag;
        }
        assert_eq!(
            (union, status.iter().count()),
            (status, bits.count_ones() as usize)
        );
    }
    assert_eq!(Status::from_name("PS_NONE"), None);
}

/// A copy goes on by itself, with a bus too.
#[test]
fn a_copy_goes_on_alike() {
    #[derive(Clone)]
    struct Counter(u8);
    impl Bus for Counter {
        fn get_byte(&mut self, _address: u16) -> u8 {
            self.0 = self.0.wrapping_add(1);
            0xE8
        }
        fn set_byte(&mut self, _address: u16, _value: u8) {}
    }
    let mut cpu = CPU::new(Counter(0), Nmos6502);
    assert!(cpu.single_step());
    let mut copy = cpu.clone();
    assert!(cpu.single_step() && copy.single_step());
    assert_eq!(cpu.registers, copy.registers);
    assert_eq!((cpu.registers.index_x, copy.memory.0), (2, 2));
}
