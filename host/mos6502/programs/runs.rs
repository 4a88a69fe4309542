//! Runs that end at a byte which no one decodes, on the plain memory and on a bus: the state after each, with the cycles, and the
//! memory. The lines are low on that bus, and a run does not look at them.

use mos6502::cpu::CPU;
use mos6502::instruction::Nmos6502;
use mos6502::memory::{Bus, Memory};
use oracle::loops;
use oracle::random::Random;
use oracle::state::State;

/// The bytes that mos6502 does not decode.
const ENDS: [u8; 6] = [0x93, 0x9B, 0x9C, 0x9E, 0x9F, 0xAB];
/// JMP to the start, with which each loop goes round.
const ROUND: [u8; 3] = [0x4C, 0x00, 0x02];
/// It leads to these instead, which count the rounds at FE down: DEC $FE, BNE +1, the end, JMP to the start.
const COUNTED: [u8; 3] = [0x4C, 0x00, 0xF0];

struct Plain {
    bytes: Vec<u8>,
    calls: u64,
}

impl Bus for Plain {
    fn get_byte(&mut self, address: u16) -> u8 {
        self.calls += 1;
        self.bytes[usize::from(address)]
    }

    fn set_byte(&mut self, address: u16, value: u8) {
        self.calls += 1;
        self.bytes[usize::from(address)] = value;
    }

    fn nmi_pending(&mut self) -> bool {
        self.calls += 1_000_000_000;
        true
    }

    fn irq_pending(&mut self) -> bool {
        self.calls += 1_000_000_000;
        true
    }
}

fn show<M: Bus>(mut cpu: CPU<M, Nmos6502>, start: &State) -> M {
    start.put(&mut cpu);
    cpu.run();
    println!("{}", State::of(&cpu));
    cpu.memory
}

fn sum_of(bytes: impl Iterator<Item = u8>) -> u64 {
    bytes.fold(0, |sum, byte| {
        sum.wrapping_mul(31).wrapping_add(u64::from(byte))
    })
}

fn main() {
    let mut random = Random::new(6502);
    let programs = loops::all().into_iter().chain([loops::touching()]);
    for (program, end) in programs.zip(ENDS.into_iter().cycle()) {
        let mut image = program.image;
        let place = image.windows(3).position(|code| code == ROUND);
        let place = place.expect("a loop goes round");
        image[place..place + 3].copy_from_slice(&COUNTED);
        image[0xF000..0xF005].copy_from_slice(&[0xC6, 0xFE, 0xD0, 0x01, end]);
        image[0xF005..0xF008].copy_from_slice(&ROUND);
        for rounds in 1..=4 {
            image[0xFE] = rounds;
            let start = State {
                status: random.any_byte(),
                cycles: random.draw() >> 1,
                ..loops::START
            };
            let mut memory = Memory::new();
            memory.set_bytes(0x0000, &image);
            let mut memory = show(CPU::new(memory, Nmos6502), &start);
            println!(
                "{}",
                sum_of((0..=0xFFFF).map(|address| memory.get_byte(address)))
            );
            let bus = Plain {
                bytes: image.clone(),
                calls: 0,
            };
            let bus = show(CPU::new(bus, Nmos6502), &start);
            println!("{} {}", sum_of(bus.bytes.into_iter()), bus.calls);
        }
    }
}
