//! A program that asks a door bell's register over and over, and answers each ring by storing to another one. The bell is
//! rung at every thousandth question; reading its register takes the ring away, as in many a real part, which a plain memory
//! cannot do.
//!
//!     cargo run --offline --features devices --example door_bell

use std::process::ExitCode;

use saxundeer::devices::{Device, Placed, run_with};
use saxundeer::{AddressSet, Lines, MEMORY_SIZE, Machine, Registers, RunAnswer};

/// Bit 7 is set where it rang since the last question.
const RUNG: u16 = 0xD000;
/// Where the program tells how many rings it has answered.
const ANSWERED: u16 = 0xD001;
const END: u16 = 0x0210;

/// From 0200 on; the rings are counted at 10.
const PROGRAM: [u8; 17] = [
    0xAD, 0x00, 0xD0, // 0200 LDA $D000   has it rung?
    0x10, 0xFB, //       0203 BPL $0200
    0xE6, 0x10, //       0205 INC $10
    0xA5, 0x10, //       0207 LDA $10
    0x8D, 0x01, 0xD0, // 0209 STA $D001   answered
    0xC9, 0x03, //       020C CMP #$03
    0xD0, 0xF0, //       020E BNE $0200
    0x02, //             0210             no opcode: after three rings it ends
];

#[derive(Default)]
struct Bell {
    questions: u32,
    answers: Vec<u8>,
}

impl Device for Bell {
    fn get_byte(&mut self, address: u16) -> u8 {
        if address != RUNG {
            return 0;
        }
        self.questions += 1;
        if self.questions % 1000 == 0 {
            0x80
        } else {
            0x00
        }
    }

    fn set_byte(&mut self, address: u16, value: u8) {
        if address == ANSWERED {
            println!("ring {value}, after {} questions", self.questions);
            self.answers.push(value);
        }
    }
}

fn main() -> ExitCode {
    let mut memory = vec![0; MEMORY_SIZE];
    memory[0x0200..0x0200 + PROGRAM.len()].copy_from_slice(&PROGRAM);
    let machine = Machine::from(Registers {
        program_counter: 0x0200,
        ..Registers::new()
    });
    let mut bell = Bell::default();
    let addresses = AddressSet::from(RUNG..=ANSWERED);
    let devices = &mut [Placed {
        addresses: &addresses,
        device: &mut bell,
    }];
    match run_with(machine, 100_000, Lines::IDLE, devices, &mut memory) {
        RunAnswer::NotAnOpcode(progress)
            if progress.machine.registers().program_counter == END && bell.answers == [1, 2, 3] =>
        {
            ExitCode::SUCCESS
        }
        other => {
            eprintln!("it did not end as it should: {other:?}");
            ExitCode::FAILURE
        }
    }
}
