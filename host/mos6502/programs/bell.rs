//! A door bell that calls by IRQ and is answered by a read of its register, and a power watch on NMI. The program waits in a loop;
//! the bell rings at every 50th question for its line, and the power fails at the 520th.

use mos6502::cpu::CPU;
use mos6502::instruction::Nmos6502;
use mos6502::memory::{
    Bus, IRQ_INTERRUPT_VECTOR_LO, Memory, NMI_INTERRUPT_VECTOR_LO, RESET_VECTOR_LO,
};

const BELL: u16 = 0xD000;
const TOLD: u16 = 0xD001;

struct Board {
    memory: Memory,
    questions: u32,
    is_ringing: bool,
    told: Vec<u8>,
}

impl Bus for Board {
    fn get_byte(&mut self, address: u16) -> u8 {
        if address == BELL {
            self.is_ringing = false;
        }
        self.memory.get_byte(address)
    }

    fn set_byte(&mut self, address: u16, value: u8) {
        if address == TOLD {
            self.told.push(value);
        }
        self.memory.set_byte(address, value);
    }

    fn nmi_pending(&mut self) -> bool {
        self.questions >= 520
    }

    fn irq_pending(&mut self) -> bool {
        self.questions += 1;
        if self.questions.is_multiple_of(50) {
            self.is_ringing = true;
        }
        self.is_ringing
    }
}

fn main() {
    let mut memory = Memory::new();
    // CLI, INX, JMP to the INX
    memory.set_bytes(0x0200, &[0x58, 0xE8, 0x4C, 0x01, 0x02]);
    // The bell: PHA, LDA $D000, INC $10, LDA $10, STA $D001, PLA, RTI
    memory.set_bytes(
        0x0300,
        &[
            0x48, 0xAD, 0x00, 0xD0, 0xE6, 0x10, 0xA5, 0x10, 0x8D, 0x01, 0xD0, 0x68, 0x40,
        ],
    );
    // The power: STX $20, and the end
    memory.set_bytes(0x0400, &[0x86, 0x20, 0x93]);
    memory.set_word(RESET_VECTOR_LO, 0x0200);
    memory.set_word(IRQ_INTERRUPT_VECTOR_LO, 0x0300);
    memory.set_word(NMI_INTERRUPT_VECTOR_LO, 0x0400);
    let board = Board {
        memory,
        questions: 0,
        is_ringing: false,
        told: Vec::new(),
    };
    let mut cpu = CPU::new(board, Nmos6502);
    cpu.reset();
    let mut steps = 0;
    while steps < 1_000 && cpu.single_step() {
        steps += 1;
        let registers = cpu.registers;
        println!(
            "{:04X} {:02X} {:02X} {:02X} {:?}",
            registers.program_counter,
            registers.accumulator,
            registers.index_x,
            registers.stack_pointer.0,
            cpu.memory.told
        );
    }
    let counted = cpu.memory.get_byte(0x20);
    let questions = cpu.memory.questions;
    println!("{steps} steps, {questions} questions, X {counted:02X}");
}
