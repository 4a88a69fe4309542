//! The greatest common divisor of 56 and 49, as a small program for mos6502 has it.

use mos6502::cpu::{CPU, WaitState};
use mos6502::instruction::Nmos6502;
use mos6502::memory::{Bus, Memory};

/// From 0010 on; the numbers stand at 00 and 01, and the result comes into A.
const PROGRAM: [u8; 26] = [
    0xA5, 0x00, //       0010 first  LDA $00
    0x38, //             0012 again  SEC
    0xE5, 0x01, //       0013        SBC $01
    0xF0, 0x07, //       0015        BEQ end
    0x30, 0x08, //       0017        BMI swap
    0x85, 0x00, //       0019        STA $00
    0x4C, 0x12, 0x00, // 001B        JMP again
    0xA5, 0x00, //       001E end    LDA $00
    0x02, //             0020        it jams the 6502: here the program ends
    0xA6, 0x00, //       0021 swap   LDX $00
    0xA4, 0x01, //       0023        LDY $01
    0x86, 0x01, //       0025        STX $01
    0x84, 0x00, //       0027        STY $00
    0x4C, //             0029        JMP first
];

fn main() {
    let mut cpu = CPU::new(Memory::new(), Nmos6502);
    cpu.memory.set_bytes(0x0000, &[56, 49]);
    cpu.memory.set_bytes(0x0010, &PROGRAM);
    cpu.memory.set_word(0x002A, 0x0010);
    cpu.registers.program_counter = 0x0010;

    cpu.run();

    println!("{}", cpu.registers.accumulator);
    println!("{}", cpu.wait_state() == WaitState::WaitingForReset);
    // The same step by step; the last call of single_step is the one that says so.
    cpu.reset();
    cpu.memory.set_bytes(0x0000, &[56, 49]);
    cpu.registers.program_counter = 0x0010;
    while cpu.single_step() {}
    println!("{}", cpu.registers.accumulator);
}
