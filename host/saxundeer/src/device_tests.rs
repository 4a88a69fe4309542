//! What a step reads and stores to, and devices.

use std::collections::VecDeque;
use std::vec;
use std::vec::Vec;

use super::devices::*;
use super::footprint::*;
use super::tests::{BOTH_LOW, COPY, memory_with, start, with};
use super::*;

/// What a step of this code reads and stores to, X being 1 and the pointer at 10 leading to D0FF.
fn footprints(code: &[u8], lines: Lines) -> [Vec<u16>; 2] {
    let mut memory = memory_with(code);
    memory[0x10..0x12].copy_from_slice(&[0xFF, 0xD0]);
    let machine = with(start(), |registers| registers.index_x = 1);
    [
        reads_of(machine, lines, &memory),
        stores_of(machine, lines, &memory),
    ]
    .map(|footprint| footprint.addresses().to_vec())
}

#[test]
fn a_footprint_names_what_a_step_reads_and_stores_to() {
    let cases: [(&[u8], &[u16], &[u16]); 6] = [
        (&[0xEA], &[0x0200], &[]),
        (
            &[0xA1, 0x0F],
            &[0x0200, 0x0201, 0x0010, 0x0011, 0xD0FF],
            &[],
        ),
        (&[0x81, 0x0F], &[0x0200, 0x0201, 0x0010, 0x0011], &[0xD0FF]),
        (
            &[0xFE, 0xFF, 0xD0],
            &[0x0200, 0x0201, 0x0202, 0xD100],
            &[0xD100],
        ),
        (
            &[0x20, 0x00, 0x03],
            &[0x0200, 0x0201, 0x0202],
            &[0x01FF, 0x01FE],
        ),
        (&[0x02], &[0x0200], &[]),
    ];
    for (code, reads, stores) in cases {
        assert_eq!(footprints(code, Lines::IDLE), [reads, stores]);
    }
    // A line that is served reads its vector and no opcode.
    let pushes = &[0x01FF, 0x01FE, 0x01FD][..];
    assert_eq!(
        footprints(&[0xEA], Lines::NMI_LOW),
        [&[0xFFFA, 0xFFFB][..], pushes]
    );
    assert_eq!(
        footprints(&[0xEA], Lines::IRQ_LOW),
        [&[0xFFFE, 0xFFFF][..], pushes]
    );
}

#[test]
fn a_step_that_is_refused_before_its_opcode_has_no_footprint() {
    let memory = memory_with(&COPY);
    let late = start().with_cycles(HIGHEST_CYCLES + 1);
    for (machine, memory) in [(start(), &memory[1..]), (late, &memory[..])] {
        assert_eq!(reads_of(machine, Lines::IDLE, memory).addresses(), []);
        assert_eq!(stores_of(machine, Lines::IDLE, memory).addresses(), []);
    }
}

#[derive(Clone, Copy, Debug, PartialEq, Eq)]
enum Call {
    Get(u16),
    Set(u16, u8),
}
use Call::{Get, Set};

/// Gives these bytes in turn, and records how it was called.
#[derive(Default)]
struct Recorder {
    bytes: VecDeque<u8>,
    calls: Vec<Call>,
}

impl Device for Recorder {
    fn get_byte(&mut self, address: u16) -> u8 {
        self.calls.push(Get(address));
        self.bytes.pop_front().expect("asked too often")
    }

    fn set_byte(&mut self, address: u16, value: u8) {
        self.calls.push(Set(address, value));
    }
}

/// A run with one device.
fn run_by(
    machine: Machine,
    bound: u64,
    addresses: &AddressSet,
    device: &mut dyn Device,
    memory: &mut [u8],
) -> RunAnswer {
    let devices = &mut [Placed { addresses, device }];
    run_with(machine, bound, Lines::IDLE, devices, memory)
}

/// The calls in at most so many steps of this code, the device being at D000 to D0FF, and the answer.
fn calls_of(code: &[u8], bound: u64, bytes: &[u8]) -> (Vec<Call>, RunAnswer) {
    let mut device = Recorder {
        bytes: bytes.iter().copied().collect(),
        calls: Vec::new(),
    };
    let mut memory = memory_with(code);
    memory[0x10..0x12].copy_from_slice(&[0xFF, 0xCF]);
    let addresses = AddressSet::from(0xD000..=0xD0FF);
    let answer = run_by(start(), bound, &addresses, &mut device, &mut memory);
    (device.calls, answer)
}

/// The steps of a run that made all of them, and the machine after them.
fn made(answer: RunAnswer) -> Progress {
    match answer {
        RunAnswer::Made(progress) => progress,
        other => panic!("it answered {other:?}"),
    }
}

/// LDA $D000, ADC $D000, STA $D001 twice, and a byte that is no opcode.
const SUM: [u8; 13] = [
    0xAD, 0x00, 0xD0, 0x6D, 0x00, 0xD0, 0x8D, 0x01, 0xD0, 0x8D, 0x01, 0xD0, 0x02,
];

#[test]
fn a_device_gives_another_byte_at_each_read_and_sees_each_store() {
    let (calls, answer) = calls_of(&SUM, 100, &[3, 4]);
    // The same value is stored again, and is seen.
    assert_eq!(
        calls,
        [Get(0xD000), Get(0xD000), Set(0xD001, 7), Set(0xD001, 7)]
    );
    let RunAnswer::NotAnOpcode(progress) = answer else {
        panic!("it answered {answer:?}");
    };
    assert_eq!(progress.steps, 4);
    assert_eq!(progress.machine.registers().accumulator, 7);
}

#[test]
fn no_call_comes_after_the_last_step() {
    for (bound, expected) in [(0, 0), (1, 1), (2, 2), (3, 3), (4, 4)] {
        let (calls, answer) = calls_of(&SUM, bound, &[3, 4]);
        assert_eq!(calls.len(), expected);
        assert_eq!(made(answer).steps, bound);
    }
}

#[test]
fn a_device_that_is_not_touched_is_not_called() {
    for bound in [0, 5, 1000, u64::MAX] {
        let (calls, answer) = calls_of(&COPY, bound, &[]);
        assert_eq!(calls, []);
        let mut memory = memory_with(&COPY);
        memory[0x10..0x12].copy_from_slice(&[0xFF, 0xCF]);
        assert_eq!(answer, long_run(start(), bound, Lines::IDLE, &mut memory));
    }
    // Nor is there anything to call without a device.
    let mut memory = memory_with(&COPY);
    let answer = run_with(start(), 1000, Lines::IDLE, &mut [], &mut memory);
    let expected = run(start(), 1000, Lines::IDLE, &mut memory_with(&COPY));
    assert_eq!(answer, expected);
}

#[test]
fn what_reads_and_stores_asks_once_and_tells_once() {
    assert_eq!(
        calls_of(&[0xEE, 0x05, 0xD0], 1, &[0xFF]).0,
        [Get(0xD005), Set(0xD005, 0)]
    );
}

#[test]
fn a_byte_of_the_device_decides_what_is_read_next() {
    // JMP ($D0FF): the high byte comes from D000, as on the 6502; then the byte there is asked as an opcode, and its operand.
    let code = [0x6C, 0xFF, 0xD0];
    let (calls, answer) = calls_of(&code, 2, &[0x10, 0xD0, 0xA9, 0x2A]);
    assert_eq!(calls, [Get(0xD0FF), Get(0xD000), Get(0xD010), Get(0xD011)]);
    assert_eq!(made(answer).machine.registers().accumulator, 0x2A);
}

#[test]
fn a_refused_step_stores_nothing() {
    // JMP $D000, where the device has no opcode: it was asked, and is not told.
    let (calls, answer) = calls_of(&[0x4C, 0x00, 0xD0], 9, &[0x02]);
    assert_eq!(calls, [Get(0xD000)]);
    assert!(matches!(answer, RunAnswer::NotAnOpcode(progress) if progress.steps == 1));
    // No room for the cycles, and no full memory: not even asked.
    let mut machine = start();
    machine.cycles = HIGHEST_CYCLES + 1;
    let mut memory = memory_with(&[0x8D, 0x00, 0xD0]);
    let before = memory.clone();
    let mut device = Recorder::default();
    let answer = run_by(machine, 9, &AddressSet::ALL, &mut device, &mut memory);
    let progress = Progress { steps: 0, machine };
    assert_eq!(answer, RunAnswer::NoCycleRoom(progress));
    for bound in [0, 9] {
        let short = &mut memory[1..];
        let answer = run_by(machine, bound, &AddressSet::ALL, &mut device, short);
        assert_eq!(answer, RunAnswer::MemoryNotFull(progress));
    }
    assert_eq!(device.calls, []);
    assert_eq!(memory, before);
}

#[test]
fn the_room_for_cycles_ends_between_two_touches() {
    // STA $D000 and JMP $0200, 4 and 3 cycles: from 5 below the highest count STA, JMP and no more.
    let code = [0x8D, 0x00, 0xD0, 0x4C, 0x00, 0x02];
    let mut machine = start();
    machine.cycles = HIGHEST_CYCLES - 5;
    let mut memory = memory_with(&code);
    let mut device = Recorder::default();
    let addresses = AddressSet::from(0xD000..=0xD000);
    let answer = run_by(machine, 9, &addresses, &mut device, &mut memory);
    let RunAnswer::NoCycleRoom(progress) = answer else {
        panic!("it answered {answer:?}");
    };
    assert_eq!(progress.steps, 2);
    assert_eq!(progress.machine.registers().program_counter, 0x0200);
    assert_eq!(device.calls, [Set(0xD000, 0)]);
}

/// A device over all of memory that keeps its bytes is a memory.
#[test]
fn a_device_that_is_a_memory_changes_nothing() {
    struct Plain(Vec<u8>);

    impl Device for Plain {
        fn get_byte(&mut self, address: u16) -> u8 {
            self.0[usize::from(address)]
        }

        fn set_byte(&mut self, address: u16, value: u8) {
            self.0[usize::from(address)] = value;
        }
    }

    let mut memory = memory_with(&COPY);
    memory[0x4000..0x4004].copy_from_slice(&[9, 8, 7, 6]);
    let mut device = Plain(memory.clone());
    let expected = run(start(), 1000, Lines::IDLE, &mut memory);
    let mut lent = vec![0; MEMORY_SIZE];
    let answer = run_by(start(), 1000, &AddressSet::ALL, &mut device, &mut lent);
    assert_eq!(answer, expected);
    assert_eq!(device.0, memory);
}

// ---- several devices

#[test]
fn each_device_is_called_at_its_own_addresses() {
    // LDA $D000, STA $D800, LDA $D801, STA $D001, LDA $D900: nobody has the last.
    let code = [
        0xAD, 0x00, 0xD0, 0x8D, 0x00, 0xD8, 0xAD, 0x01, 0xD8, 0x8D, 0x01, 0xD0, 0xAD, 0x00, 0xD9,
    ];
    let sets = [0xD000..=0xD00F, 0xD800..=0xD8FF].map(AddressSet::from);
    let mut one = Recorder {
        bytes: [11].into(),
        ..Recorder::default()
    };
    let mut other = Recorder {
        bytes: [22].into(),
        ..Recorder::default()
    };
    let devices = &mut [
        Placed {
            addresses: &sets[0],
            device: &mut one,
        },
        Placed {
            addresses: &sets[1],
            device: &mut other,
        },
    ];
    let mut memory = memory_with(&code);
    let answer = run_with(start(), 5, Lines::IDLE, devices, &mut memory);
    assert_eq!(made(answer).machine.registers().accumulator, 0);
    assert_eq!(one.calls, [Get(0xD000), Set(0xD001, 22)]);
    assert_eq!(other.calls, [Set(0xD800, 11), Get(0xD801)]);
}

#[test]
fn of_two_at_one_address_the_first_is_called() {
    let [wide, narrow] = [0xD000..=0xDFFF, 0xD001..=0xD001].map(AddressSet::from);
    for (sets, calls) in [([&wide, &narrow], [4, 0]), ([&narrow, &wide], [2, 2])] {
        let mut recorders = [3, 4].map(|byte| Recorder {
            bytes: vec![byte; 2].into(),
            ..Recorder::default()
        });
        let [one, other] = &mut recorders;
        let devices = &mut [
            Placed {
                addresses: sets[0],
                device: one,
            },
            Placed {
                addresses: sets[1],
                device: other,
            },
        ];
        let mut memory = memory_with(&SUM);
        let answer = run_with(start(), 4, Lines::IDLE, devices, &mut memory);
        assert_eq!(made(answer).steps, 4);
        assert_eq!(recorders.map(|device| device.calls.len()), calls);
    }
}

// ---- lines that a device moves

/// It pulls its line when it is stored to, and lets go when it is read.
struct Puller {
    pull: Lines,
    lines: Lines,
    answered: u32,
}

impl Device for Puller {
    fn get_byte(&mut self, _address: u16) -> u8 {
        self.lines = Lines::IDLE;
        self.answered += 1;
        0
    }

    fn set_byte(&mut self, _address: u16, _value: u8) {
        self.lines = self.pull;
    }

    fn lines(&self) -> Lines {
        self.lines
    }
}

fn puller(pull: Lines) -> Puller {
    Puller {
        pull,
        lines: Lines::IDLE,
        answered: 0,
    }
}

/// 0200 STA $D000, 0203 NOP, 0204 JMP $0200; NMI leads to 0300 and IRQ to 0400: INC of 10 or 11, LDA $D000, RTI.
fn memory_with_answers() -> Vec<u8> {
    let mut memory = memory_with(&[0x8D, 0x00, 0xD0, 0xEA, 0x4C, 0x00, 0x02]);
    memory[0x0300..0x0306].copy_from_slice(&[0xE6, 0x10, 0xAD, 0x00, 0xD0, 0x40]);
    memory[0x0400..0x0406].copy_from_slice(&[0xE6, 0x11, 0xAD, 0x00, 0xD0, 0x40]);
    memory[0xFFFA..].copy_from_slice(&[0x00, 0x03, 0x00, 0x02, 0x00, 0x04]);
    memory
}

#[test]
fn a_line_that_a_touch_pulls_is_served_in_the_next_step_and_let_go_by_the_answer() {
    for (pull, vector, counts) in [
        (Lines::IRQ_LOW, 0x0400, [0, 1]),
        (Lines::NMI_LOW, 0x0300, [1, 0]),
        (BOTH_LOW, 0x0300, [1, 0]),
    ] {
        let mut memory = memory_with_answers();
        let mut device = puller(pull);
        let addresses = AddressSet::from(0xD000..=0xD000);
        // STA, and then the line is served before NOP.
        let first = made(run_by(start(), 2, &addresses, &mut device, &mut memory));
        assert_eq!(first.machine.registers().program_counter, vector);
        assert_eq!(memory[0x01FD..=0x01FF], [0x20, 0x03, 0x02]);
        // INC, LDA, which lets go, RTI, NOP and JMP: it is served no more.
        let next = made(run_by(
            first.machine,
            5,
            &addresses,
            &mut device,
            &mut memory,
        ));
        assert_eq!(next.machine.registers().program_counter, 0x0200);
        assert_eq!([memory[0x10], memory[0x11]], counts);
        assert_eq!(device.answered, 1);
        // Seven steps a round, and each round it is pulled again.
        let whole = made(run_by(
            start(),
            700,
            &addresses,
            &mut puller(pull),
            &mut memory_with_answers(),
        ));
        let again = made(run_by(
            next.machine,
            693,
            &addresses,
            &mut device,
            &mut memory,
        ));
        assert_eq!(again.machine, whole.machine);
        assert_eq!(device.answered, 100);
    }
}

#[test]
fn a_line_is_low_if_the_caller_or_a_device_pulls_it() {
    let addresses = AddressSet::from(0xD000..=0xD000);
    for (pulled, lines, vector) in [
        (Lines::IDLE, Lines::IDLE, 0x0203),
        (Lines::IRQ_LOW, Lines::IDLE, 0x0400),
        (Lines::IDLE, Lines::IRQ_LOW, 0x0400),
        (Lines::IRQ_LOW, Lines::NMI_LOW, 0x0300),
        (Lines::NMI_LOW, Lines::IRQ_LOW, 0x0300),
    ] {
        // It is so from the first step on, for a step and for a run, and whichever of two devices pulls.
        for first in [true, false] {
            let mut one = puller(Lines::IDLE);
            let mut other = puller(Lines::IDLE);
            if first {
                one.lines = pulled;
            } else {
                other.lines = pulled;
            }
            let devices = &mut [
                Placed {
                    addresses: &addresses,
                    device: &mut one,
                },
                Placed {
                    addresses: &addresses,
                    device: &mut other,
                },
            ];
            let answer = run_with(start(), 1, lines, devices, &mut memory_with_answers());
            assert_eq!(made(answer).machine.registers().program_counter, vector);
        }
        let mut one = puller(Lines::IDLE);
        one.lines = pulled;
        let devices = &mut [Placed {
            addresses: &addresses,
            device: &mut one,
        }];
        let answer = step_with(start(), lines, devices, &mut memory_with_answers());
        let StepAnswer::Made { machine, .. } = answer else {
            panic!("the step was refused");
        };
        assert_eq!(machine.registers().program_counter, vector);
        let nmi = pulled.nmi == Level::Low || lines.nmi == Level::Low;
        assert_eq!(machine.last_nmi() == Level::Low, nmi);
    }
}

// ---- a run and its steps

/// What it gives and what it pulls follows from the number of its calls.
#[derive(Clone, Default)]
struct Chip {
    calls: Vec<Call>,
    moves: bool,
}

impl Device for Chip {
    fn get_byte(&mut self, address: u16) -> u8 {
        self.calls.push(Get(address));
        (self.calls.len() * 0x6D) as u8
    }

    fn set_byte(&mut self, address: u16, value: u8) {
        self.calls.push(Set(address, value));
    }

    fn lines(&self) -> Lines {
        let level = |is_low| if is_low { Level::Low } else { Level::High };
        let count = self.calls.len();
        Lines {
            irq: level(self.moves && count % 5 == 3),
            nmi: level(self.moves && count % 7 >= 5),
        }
    }
}

fn placed<'a>(sets: &'a [AddressSet; 2], chips: &'a mut [Chip; 2]) -> [Placed<'a>; 2] {
    let [one, other] = chips;
    let [first, second] = sets;
    [
        Placed {
            addresses: first,
            device: one,
        },
        Placed {
            addresses: second,
            device: other,
        },
    ]
}

/// So many steps, one by one.
fn steps_with(
    mut machine: Machine,
    bound: u64,
    lines: Lines,
    devices: &mut [Placed<'_>],
    memory: &mut [u8],
) -> RunAnswer {
    for steps in 0..bound {
        let progress = Progress { steps, machine };
        match step_with(machine, lines, devices, memory) {
            StepAnswer::Made { machine: after, .. } => machine = after,
            StepAnswer::MemoryNotFull(_) => return RunAnswer::MemoryNotFull(progress),
            StepAnswer::NoCycleRoom(_) => return RunAnswer::NoCycleRoom(progress),
            StepAnswer::NotAnOpcode(_) => return RunAnswer::NotAnOpcode(progress),
        }
    }
    RunAnswer::Made(Progress {
        steps: bound,
        machine,
    })
}

/// The documented opcodes, as the core says it.
fn opcodes() -> Vec<u8> {
    let is_made = |byte: &u8| {
        let answer = single_step(start(), Lines::IDLE, &mut memory_with(&[*byte]));
        matches!(answer, StepAnswer::Made { .. })
    };
    (0..=0xFF).filter(is_made).collect()
}

/// Numbers that follow from each other; the high bits are the random ones.
struct Numbers(u64);

impl Numbers {
    fn below(&mut self, limit: u64) -> u64 {
        self.0 = self
            .0
            .wrapping_mul(6_364_136_223_846_793_005)
            .wrapping_add(1_442_695_040_888_963_407);
        (self.0 >> 32) % limit
    }

    fn address(&mut self) -> u16 {
        self.below(0x1_0000) as u16
    }
}

#[test]
fn a_run_with_devices_is_the_steps_it_is_made_of() {
    let opcodes = opcodes();
    let mut numbers = Numbers(6502);
    let mut called = 0;
    let mut refused = 0;
    for round in 0..400 {
        // One byte in 256 may be no opcode, so that some runs are refused.
        let image: Vec<u8> = (0..MEMORY_SIZE)
            .map(|_| match numbers.below(256) {
                0 => numbers.below(256) as u8,
                other => opcodes[other as usize % opcodes.len()],
            })
            .collect();
        let sets = [0, 1].map(|_| {
            let ranges = (0..3).map(|_| {
                let first = numbers.address() >> (numbers.below(2) * 8);
                first..=first.saturating_add(numbers.below(2_000) as u16)
            });
            ranges.collect::<AddressSet>()
        });
        let mut machine = with(start(), |registers| {
            registers.program_counter = numbers.address();
            registers.stack_pointer = StackPointer(numbers.address() as u8);
        });
        if round % 8 == 0 {
            machine.cycles = HIGHEST_CYCLES - numbers.below(500);
        }
        let lines = [Lines::IDLE, Lines::IRQ_LOW, Lines::NMI_LOW, Lines::IDLE][round % 4];
        let bound = numbers.below(500);
        let chips = [0, 1].map(|_| Chip {
            moves: round % 2 == 0,
            ..Chip::default()
        });
        let [mut ran, mut stepped] = [chips.clone(), chips];
        let [mut memory, mut other] = [image.clone(), image];
        let answer = run_with(
            machine,
            bound,
            lines,
            &mut placed(&sets, &mut ran),
            &mut memory,
        );
        let expected = steps_with(
            machine,
            bound,
            lines,
            &mut placed(&sets, &mut stepped),
            &mut other,
        );
        assert_eq!(answer, expected, "round {round}");
        for (chip, expected) in ran.iter().zip(&stepped) {
            assert_eq!(chip.calls, expected.calls, "round {round}");
            called += chip.calls.len();
        }
        assert!(memory == other, "round {round}");
        refused += u32::from(!matches!(answer, RunAnswer::Made(_)));
    }
    assert!(
        called > 2_000 && refused > 20,
        "{called} calls, {refused} refused"
    );
}
