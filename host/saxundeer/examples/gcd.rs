//! A small program for mos6502 0.10.1, and what becomes of it here: the greatest common divisor of 56 and 49. The lines
//! of the old program stand as comments over those that replace them.

use std::process::ExitCode;

use saxundeer::{Ending, Lines, MEMORY_SIZE, Machine, Registers, run_to};

/// From 0200 on; the numbers stand at 00 and 01, and the result comes into A.
const PROGRAM: [u8; 28] = [
    0xA5, 0x00, // 0200 LDA $00
    0x38, //       0202 SEC
    0xE5, 0x01, // 0203 SBC $01
    0xF0, 0x12, // 0205 BEQ $0219   they are equal: that is it
    0x90, 0x05, // 0207 BCC $020E   the first is below the second: change places
    0x85, 0x00, // 0209 STA $00     otherwise take the second from the first
    0x4C, 0x00, 0x02, // 020B JMP $0200
    0xA5, 0x00, // 020E LDA $00
    0xA6, 0x01, // 0210 LDX $01
    0x86, 0x00, // 0212 STX $00
    0x85, 0x01, // 0214 STA $01
    0x4C, 0x00, 0x02, // 0216 JMP $0200
    0xA5, 0x00, // 0219 LDA $00
    0x02, //       021B             no opcode: here it ends
];

fn main() -> ExitCode {
    // let mut cpu = CPU::new(Memory::new(), Nmos6502);
    let mut memory = vec![0; MEMORY_SIZE];
    let mut machine = Machine::new();

    // cpu.memory.set_bytes(0x0000, &[56, 49]);
    // cpu.memory.set_bytes(0x0200, &PROGRAM);
    memory[..2].copy_from_slice(&[56, 49]);
    memory[0x0200..0x0200 + PROGRAM.len()].copy_from_slice(&PROGRAM);

    // cpu.registers.program_counter = 0x0200;
    machine.set_registers(Registers {
        program_counter: 0x0200,
        ..machine.registers()
    });

    // cpu.run();    which came back here, whatever had happened
    // println!("{}", cpu.registers.accumulator);
    match run_to(machine, 0x021B, 10_000, Lines::IDLE, &mut memory) {
        Ending::Arrived { progress, .. } => {
            println!("{}", progress.machine.registers().accumulator);
            ExitCode::SUCCESS
        }
        Ending::BrokeOff(progress) => failed("met a byte that is no opcode", progress),
        Ending::StillRunning(progress) => failed("was still running", progress),
        Ending::NoCycleRoom(progress) => failed("ran out of cycles", progress),
        Ending::MemoryNotFull(progress) => failed("has no 65,536 bytes", progress),
    }
}

fn failed(how: &str, progress: saxundeer::Progress) -> ExitCode {
    let counter = progress.machine.registers().program_counter;
    eprintln!("after {} steps, at {counter:04X}, it {how}", progress.steps);
    ExitCode::FAILURE
}
