//! How many millions of steps a second a program for mos6502 makes: by `run` and by `single_step` on the plain memory, and by
//! `single_step` on a bus of its own. A line for each loop of the oracle, which are counted here, so that `run` comes back; the
//! last number is a sum over the end states, so that whoever reads it sees that the same was done.

use std::hint::black_box;
use std::time::Duration;

use mos6502::cpu::CPU;
use mos6502::instruction::Nmos6502;
use mos6502::memory::{Bus, Memory};
use oracle::clock::processor_time;
use oracle::loops;
use oracle::state::State;

const TIMES: usize = 15;
const LEAST_STEPS: u64 = 2_000_000;
/// JMP to the start, with which each loop goes round.
const ROUND: [u8; 3] = [0x4C, 0x00, 0x02];
/// It leads here instead, where the rounds are counted down at FD and FE.
const COUNTED: [u8; 3] = [0x4C, 0x00, 0xF0];
const COUNTING: [u8; 12] = [
    0xC6, 0xFD, //       F000 DEC $FD
    0xD0, 0x05, //       F002 BNE $F009
    0xC6, 0xFE, //       F004 DEC $FE
    0xD0, 0x01, //       F006 BNE $F009
    0x93, //             F008           no opcode, and mos6502 does not decode it either
    0x4C, 0x00, 0x02, // F009 JMP $0200
];

/// A bus that is no more than a memory.
struct Plain(Box<[u8; 65_536]>);

impl Bus for Plain {
    #[inline]
    fn get_byte(&mut self, address: u16) -> u8 {
        self.0[usize::from(address)]
    }

    #[inline]
    fn set_byte(&mut self, address: u16, value: u8) {
        self.0[usize::from(address)] = value;
    }
}

/// A memory with a program's image.
fn memory_of(image: &[u8]) -> Memory {
    let mut memory = Memory::new();
    memory.set_bytes(0x0000, image);
    memory
}

fn bus_of(image: &[u8]) -> Plain {
    Plain(
        image
            .to_vec()
            .try_into()
            .expect("an image has 65,536 bytes"),
    )
}

fn run<M: Bus>(cpu: &mut CPU<M, Nmos6502>) -> u64 {
    cpu.run();
    0
}

fn steps<M: Bus>(cpu: &mut CPU<M, Nmos6502>) -> u64 {
    let mut made = 0;
    while cpu.single_step() {
        made += 1;
    }
    made
}

/// How long it takes, the steps if they are counted, and a sum over the end state. The cycle that mos6502 counts at the end is not
/// in it.
fn timed<M: Bus>(memory: M, way: fn(&mut CPU<M, Nmos6502>) -> u64) -> (Duration, u64, u64) {
    let mut cpu = CPU::new(memory, Nmos6502);
    loops::START.put(&mut cpu);
    let begin = processor_time();
    let made = black_box(way)(&mut cpu);
    let time = processor_time() - begin;
    let end = State {
        cycles: 0,
        ..State::of(&cpu)
    };
    let bytes = (0..=0xFFFF).map(|address| cpu.memory.get_byte(address));
    let sum = end
        .to_string()
        .bytes()
        .chain(bytes)
        .fold(0, |sum: u64, byte| {
            sum.wrapping_mul(31).wrapping_add(u64::from(byte))
        });
    (time, made, sum)
}

/// The image with so many rounds of a loop as make enough steps, and how many that are.
fn counted(image: &[u8]) -> (Vec<u8>, u64) {
    let mut image = image.to_vec();
    let place = image.windows(3).position(|code| code == ROUND);
    let place = place.expect("a loop goes round");
    image[place..place + 3].copy_from_slice(&COUNTED);
    image[0xF000..0xF000 + COUNTING.len()].copy_from_slice(&COUNTING);
    for rounds in [1, 10, 100, 1_000, 10_000_u16] {
        let [low, high] = rounds.to_le_bytes();
        // Each is counted down to 0, the higher one once more.
        (image[0xFD], image[0xFE]) = (low, high + u8::from(low != 0));
        let (_, made, _) = timed(memory_of(&image), steps);
        if made >= LEAST_STEPS {
            return (image, made);
        }
    }
    panic!("the loop is too short");
}

fn main() {
    for program in loops::all() {
        let (image, made) = counted(&program.image);
        let mut best = [Duration::MAX; 3];
        let mut sums = [0; 3];
        for _ in 0..TIMES {
            let results = [
                timed(memory_of(&image), run),
                timed(memory_of(&image), steps),
                timed(bus_of(&image), steps),
            ];
            for (place, (time, _, sum)) in results.into_iter().enumerate() {
                best[place] = time.min(best[place]);
                sums[place] = sum;
            }
        }
        assert!(sums.iter().all(|sum| *sum == sums[0]), "the ways end alike");
        let [run, step, bus] = best.map(|time| made as f64 / time.as_secs_f64() / 1e6);
        println!("{}:{run:.1}:{step:.1}:{bus:.1}:{}", program.name, sums[0]);
    }
}
