//! Steps, runs, lines and the numbers of the C functions, each on a memory of a few bytes.

use std::vec;
use std::vec::Vec;

use super::functions::*;
use super::*;

pub(super) fn start() -> Machine {
    let registers = Registers {
        stack_pointer: StackPointer(0xFF),
        program_counter: 0x0200,
        status: Status::from_bits_truncate(0x00),
        ..Registers::new()
    };
    Machine::from(registers)
}

/// The machine with a register or some changed.
pub(super) fn with(machine: Machine, change: impl FnOnce(&mut Registers)) -> Machine {
    let mut registers = machine.registers();
    change(&mut registers);
    machine.with_registers(registers)
}

/// A full memory, zero but for these bytes from 0200 on.
pub(super) fn memory_with(code: &[u8]) -> Vec<u8> {
    let mut memory = vec![0; MEMORY_SIZE];
    memory[0x0200..0x0200 + code.len()].copy_from_slice(code);
    memory
}

/// LDX #$03, LDA $4000,X, STA $5000,X, DEX, BPL to the load, and at 020B a byte that is no opcode.
pub(super) const COPY: [u8; 12] = [
    0xA2, 0x03, 0xBD, 0x00, 0x40, 0x9D, 0x00, 0x50, 0xCA, 0x10, 0xF7, 0x02,
];

/// The number is made and read here by hand: the proved functions make the same number and read the same registers.
#[test]
fn the_number_is_that_of_the_proved_functions() {
    let mut number = 6502_u64;
    for _ in 0..100_000 {
        number = number
            .wrapping_mul(6_364_136_223_846_793_005)
            .wrapping_add(1_442_695_040_888_963_407);
        let mut machine = Machine::new();
        *machine.numbers().0 = number;
        let read = machine.registers();
        assert_eq!(read.accumulator, mos6502_accumulator(number));
        assert_eq!(read.index_x, mos6502_x(number));
        assert_eq!(read.index_y, mos6502_y(number));
        assert_eq!(read.stack_pointer.0, mos6502_stack(number));
        assert_eq!(read.status.bits(), mos6502_status(number));
        assert_eq!(read.program_counter, mos6502_counter(number));
        let nmi = mos6502_nmi(number);
        assert_eq!(machine.last_nmi() == Level::High, nmi == 1);
        assert!(nmi <= 1);
        let made = mos6502_registers(
            read.accumulator,
            read.index_x,
            read.index_y,
            read.stack_pointer.0,
            read.status.bits(),
            read.program_counter,
        );
        assert_eq!(read.number(), made);
        assert_eq!(mos6502_nmi(made), 1);
        let again = Machine::from(read).with_last_nmi(machine.last_nmi());
        assert_eq!(again.number(), made | u64::from(1 - nmi) << 56);
    }
}

#[test]
fn a_new_machine_and_reset_are_as_in_mos6502() {
    let new = Machine::new();
    assert_eq!(new, Machine::default());
    assert_eq!(new.registers(), Registers::default());
    assert_eq!(new.number(), mos6502_registers(0, 0, 0, 0, 0x04, 0));
    assert_eq!(new.cycles, 0);
    let mut memory = memory_with(&[]);
    memory[0xFFFC..0xFFFE].copy_from_slice(&[0x34, 0x12]);
    let before = Machine::from(Registers {
        accumulator: 0x5A,
        status: Status::from_bits_truncate(0x81),
        ..new.registers()
    })
    .with_cycles(7)
    .with_last_nmi(Level::Low);
    let after = Machine::from(Registers {
        stack_pointer: StackPointer(0xFD),
        program_counter: 0x1234,
        status: Status::from_bits_truncate(0x85),
        ..before.registers()
    })
    .with_cycles(7);
    assert_eq!(before.reset(&memory), Some(after));
    assert_eq!(before.reset(&memory[1..]), None);
}

#[test]
fn a_machine_starts_as_in_a_report() {
    let mut memory = memory_with(&[]);
    memory[0xFFFC..0xFFFE].copy_from_slice(&[0x34, 0x12]);
    let machine = Machine::start(&memory).unwrap();
    assert_eq!(
        machine.number(),
        mos6502_registers(0, 0, 0, 0xFF, 0x04, 0x1234)
    );
    assert_eq!(machine.cycles, 0);
    assert_eq!(Machine::start(&memory[1..]), None);
}

#[test]
fn every_register_comes_back() {
    for byte in 0..=0xFF {
        let registers = Registers {
            accumulator: byte,
            index_x: byte.wrapping_add(1),
            index_y: byte.wrapping_add(2),
            stack_pointer: StackPointer(byte.wrapping_add(3)),
            program_counter: u16::from(byte) << 8 | 0x7F,
            status: Status::from_bits_truncate(byte),
        };
        let mut machine = start();
        machine.set_registers(registers);
        for (last_nmi, lines) in [(Level::High, Lines::NMI_LOW), (Level::Low, Lines::IDLE)] {
            machine.set_last_nmi(last_nmi);
            assert_eq!(machine.registers(), registers);
            assert_eq!(machine.last_nmi(), last_nmi);
            // The memory is empty, so that the call hands back what it was given.
            assert_eq!(
                single_step(machine, lines, &mut []),
                StepAnswer::MemoryNotFull(machine)
            );
        }
    }
}

#[test]
fn a_load_is_made() {
    let mut memory = memory_with(&[0xA9, 0x85]);
    let after = with(start(), |registers| {
        registers.accumulator = 0x85;
        registers.status |= Status::PS_NEGATIVE;
        registers.program_counter = 0x0202;
    })
    .with_cycles(2);
    let made = StepAnswer::Made {
        machine: after,
        first: 0,
    };
    assert_eq!(single_step(start(), Lines::IDLE, &mut memory), made);
}

/// The first address on the bus of a step with X 20 and Y 20; at F0 stands the address 10F0.
fn first_of(code: &[u8]) -> u16 {
    let mut memory = memory_with(code);
    memory[0x00F0..0x00F2].copy_from_slice(&[0xF0, 0x10]);
    let machine = with(start(), |registers| {
        registers.index_x = 0x20;
        registers.index_y = 0x20;
    });
    match single_step(machine, Lines::IDLE, &mut memory) {
        StepAnswer::Made { first, .. } => first,
        other => panic!("the step answered {other:?}"),
    }
}

#[test]
fn a_step_says_which_address_is_put_out_first() {
    // Over a page: LDA, STA and INC abs,X, LDA abs,Y and (zp),Y. The carry has not reached the high byte.
    for code in [
        [0xBD, 0xF0, 0x10],
        [0x9D, 0xF0, 0x10],
        [0xFE, 0xF0, 0x10],
        [0xB9, 0xF0, 0x10],
        [0xB1, 0xF0, 0x00],
    ] {
        assert_eq!(first_of(&code), 0x1010);
    }
    // LDA abs,X in one page, LDA zp,X, LDA (zp,X), JMP, JMP indirect, JSR: the final address.
    assert_eq!(first_of(&[0xBD, 0x01, 0x10]), 0x1021);
    assert_eq!(first_of(&[0xB5, 0xF0]), 0x0010);
    assert_eq!(first_of(&[0xA1, 0xD0]), 0x10F0);
    assert_eq!(first_of(&[0x4C, 0x34, 0x12]), 0x1234);
    assert_eq!(first_of(&[0x6C, 0xF0, 0x00]), 0x10F0);
    assert_eq!(first_of(&[0x20, 0x34, 0x12]), 0x1234);
    // LDA immediate, INX, ASL A, BRK, RTS, BNE: there is none.
    for code in [
        [0xA9, 0x05],
        [0xE8, 0],
        [0x0A, 0],
        [0x00, 0],
        [0x60, 0],
        [0xD0, 0x10],
    ] {
        assert_eq!(first_of(&code), 0);
    }
}

/// The number is written in every refusal too.
#[test]
fn a_step_that_is_refused_or_serves_puts_out_no_address() {
    let step = |opcode, mut cycles, lines: Lines, length| {
        let mut memory = memory_with(&[opcode, 0x34, 0x12]);
        let mut number = start().number();
        let mut first = 0xFFFF;
        // Sound: the numbers and the memory are this test's own, and the memory has that many bytes.
        let answer = unsafe {
            mos6502_step(
                &mut number,
                &mut cycles,
                lines.byte(),
                &mut first,
                memory.as_mut_ptr(),
                length,
            )
        };
        (answer, first)
    };
    let idle = Lines::IDLE;
    assert_eq!(step(0xAD, 0, idle, MEMORY_SIZE), (0, 0x1234));
    assert_eq!(step(0xAD, 0, idle, MEMORY_SIZE - 1), (1, 0));
    assert_eq!(step(0xAD, HIGHEST_CYCLES + 1, idle, MEMORY_SIZE), (2, 0));
    assert_eq!(step(0x02, 0, idle, MEMORY_SIZE), (3, 0));
    // Nor does one that serves a line.
    assert_eq!(step(0xAD, 0, Lines::IRQ_LOW, MEMORY_SIZE), (0, 0));
    assert_eq!(step(0xAD, 0, Lines::NMI_LOW, MEMORY_SIZE), (0, 0));
}

#[test]
fn a_push_stores_and_wraps() {
    let mut memory = memory_with(&[0x48]);
    let machine = with(start(), |registers| {
        registers.accumulator = 0x5A;
        registers.stack_pointer = StackPointer(0);
    });
    let StepAnswer::Made { machine: after, .. } = single_step(machine, Lines::IDLE, &mut memory)
    else {
        panic!("PHA was refused");
    };
    assert_eq!(memory[0x0100], 0x5A);
    assert_eq!(after.registers().stack_pointer, StackPointer(0xFF));
}

#[test]
fn another_length_is_refused() {
    for length in [0, 1, MEMORY_SIZE - 1, MEMORY_SIZE + 1] {
        let mut memory = vec![0xEA; length];
        let answer = single_step(start(), Lines::IDLE, &mut memory);
        assert_eq!(answer, StepAnswer::MemoryNotFull(start()));
        let nothing = Progress {
            steps: 0,
            machine: start(),
        };
        // The length is looked at before the bound.
        for run in [run, long_run, run_cycles] {
            let answer = run(start(), HIGHEST_BOUND + 1, Lines::IDLE, &mut memory);
            assert_eq!(answer, RunAnswer::MemoryNotFull(nothing));
        }
        assert!(memory.iter().all(|byte| *byte == 0xEA));
    }
}

#[test]
fn the_last_count_of_cycles_steps_and_the_next_is_refused() {
    // BRK takes the 7 cycles that are left.
    let mut memory = memory_with(&[0x00]);
    let mut machine = start();
    machine.cycles = HIGHEST_CYCLES;
    let StepAnswer::Made { machine: after, .. } = single_step(machine, Lines::IDLE, &mut memory)
    else {
        panic!("there was room for BRK");
    };
    assert_eq!(after.cycles, u64::MAX);
    machine.cycles = HIGHEST_CYCLES + 1;
    let before = memory.clone();
    let answer = single_step(machine, Lines::IDLE, &mut memory);
    assert_eq!(answer, StepAnswer::NoCycleRoom(machine));
    assert_eq!(memory, before);
}

#[test]
fn a_byte_that_is_no_opcode_is_refused() {
    let mut memory = memory_with(&[0x02]);
    let before = memory.clone();
    let answer = single_step(start(), Lines::IDLE, &mut memory);
    assert_eq!(answer, StepAnswer::NotAnOpcode(start()));
    assert_eq!(memory, before);
}

#[test]
fn exactly_105_bytes_are_refused() {
    let refused = (0..=0xFF).filter(|byte| {
        let answer = single_step(start(), Lines::IDLE, &mut memory_with(&[*byte]));
        matches!(answer, StepAnswer::NotAnOpcode(_))
    });
    assert_eq!(refused.count(), 105);
}

#[test]
fn a_run_says_how_far_it_came() {
    // The report's example: one load, then a byte that is no opcode.
    let mut memory = memory_with(&[0xA9, 0x05, 0x02]);
    let RunAnswer::NotAnOpcode(progress) = run(start(), 1000, Lines::IDLE, &mut memory) else {
        panic!("the run did not stop at 02");
    };
    assert_eq!(progress.steps, 1);
    assert_eq!(progress.machine.cycles, 2);
    assert_eq!(progress.machine.registers().program_counter, 0x0202);
    assert_eq!(progress.machine.registers().accumulator, 0x05);
}

#[test]
fn a_run_makes_all_its_steps() {
    // JMP 0200 for ever.
    let mut memory = memory_with(&[0x4C, 0x00, 0x02]);
    for bound in [0, 1, HIGHEST_BOUND] {
        let mut machine = start();
        machine.cycles = 3 * bound;
        let all = Progress {
            steps: bound,
            machine,
        };
        assert_eq!(
            run(start(), bound, Lines::IDLE, &mut memory),
            RunAnswer::Made(all)
        );
        assert_eq!(
            long_run(start(), bound, Lines::IDLE, &mut memory),
            RunAnswer::Made(all)
        );
    }
}

#[test]
fn a_bound_above_a_million_is_refused() {
    let mut memory = memory_with(&[0x4C, 0x00, 0x02]);
    let nothing = Progress {
        steps: 0,
        machine: start(),
    };
    for run in [run, run_cycles] {
        for bound in [HIGHEST_BOUND + 1, u64::MAX] {
            let answer = run(start(), bound, Lines::IDLE, &mut memory);
            assert_eq!(answer, RunAnswer::BoundTooHigh(nothing));
        }
    }
}

/// Three counters, each of 256 rounds: DEX, BNE -3, DEY, BNE -6, DEC 10, BNE -10, and at 020A a byte that is no opcode.
pub(super) const COUNTERS: [u8; 11] = [
    0xCA, 0xD0, 0xFD, 0x88, 0xD0, 0xFA, 0xC6, 0x10, 0xD0, 0xF6, 0x02,
];
/// The steps that they make.
pub(super) const COUNTED: u64 = 2 * (256 + 256 * 256 + 256 * 256 * 256);

#[test]
fn a_long_run_takes_any_bound() {
    for bound in [COUNTED, COUNTED + 1, u64::MAX] {
        let answer = long_run(start(), bound, Lines::IDLE, &mut memory_with(&COUNTERS));
        let progress = match answer {
            RunAnswer::Made(progress) if bound == COUNTED => progress,
            RunAnswer::NotAnOpcode(progress) if bound > COUNTED => progress,
            other => panic!("{bound} steps: {other:?}"),
        };
        assert_eq!(progress.steps, COUNTED);
        assert_eq!(progress.machine.registers().program_counter, 0x020A);
    }
}

#[test]
fn a_long_run_is_the_runs_that_it_is_made_of() {
    let parts = [1, HIGHEST_BOUND, 0, HIGHEST_BOUND - 1, 7, HIGHEST_BOUND];
    let mut memory = memory_with(&COUNTERS);
    let mut machine = start();
    for bound in parts {
        let RunAnswer::Made(progress) = run(machine, bound, Lines::IDLE, &mut memory) else {
            panic!("a part stopped");
        };
        assert_eq!(progress.steps, bound);
        machine = progress.machine;
    }
    let mut whole = memory_with(&COUNTERS);
    let all = Progress {
        steps: parts.iter().sum(),
        machine,
    };
    assert_eq!(
        long_run(start(), all.steps, Lines::IDLE, &mut whole),
        RunAnswer::Made(all)
    );
    assert_eq!(memory, whole);
}

#[test]
fn a_run_stops_where_the_cycles_end() {
    let mut memory = memory_with(&[0x4C, 0x00, 0x02]);
    let mut machine = start();
    machine.cycles = HIGHEST_CYCLES - 3;
    for run in [run, long_run] {
        let RunAnswer::NoCycleRoom(progress) = run(machine, 10, Lines::IDLE, &mut memory) else {
            panic!("the run did not stop for want of cycles");
        };
        // Steps start at -3 and at 0 from the highest count; the third would start at +3.
        assert_eq!(progress.steps, 2);
        assert_eq!(progress.machine.cycles, HIGHEST_CYCLES + 3);
    }
}

/// The steps and the cycles of a run by cycles that came as far as was asked for.
fn spent(machine: Machine, limit: u64, memory: &mut [u8]) -> (u64, u64) {
    match run_cycles(machine, limit, Lines::IDLE, memory) {
        RunAnswer::Made(progress) => (progress.steps, progress.machine.cycles - machine.cycles),
        other => panic!("{limit} cycles: {other:?}"),
    }
}

#[test]
fn a_run_by_cycles_is_over_once_they_are_spent() {
    // BRK for ever: 7 cycles each, so that up to 6 more than the limit are spent.
    for limit in 0..=100 {
        let steps = u64::div_ceil(limit, 7);
        let brk = &mut memory_with(&[]);
        assert_eq!(spent(start(), limit, brk), (steps, 7 * steps));
        let late = start().with_cycles(u64::MAX - 7 * 100);
        assert_eq!(spent(late, limit, brk), (steps, 7 * steps));
    }
    // NOP throughout: 2 cycles each, half of the limit and 1 in steps.
    for limit in [0, 1, 2, 3, 999_999, HIGHEST_BOUND] {
        let steps = u64::div_ceil(limit, 2);
        let nop = &mut vec![0xEA; MEMORY_SIZE];
        assert_eq!(spent(start(), limit, nop), (steps, 2 * steps));
    }
}

#[test]
fn a_run_by_cycles_says_why_it_stopped() {
    // LDA #$05, and a byte that is no opcode: the limit is looked at first.
    let mut memory = memory_with(&[0xA9, 0x05, 0x02]);
    for limit in [1, 2] {
        assert_eq!(spent(start(), limit, &mut memory), (1, 2));
    }
    let answer = run_cycles(start(), 3, Lines::IDLE, &mut memory);
    let RunAnswer::NotAnOpcode(progress) = answer else {
        panic!("the run did not stop at 02");
    };
    assert_eq!(progress.steps, 1);
    assert_eq!(progress.machine.registers().program_counter, 0x0202);
    // JMP 0200 for ever. Steps start at -3 and at 0 from the highest count; the third would start at +3.
    let mut memory = memory_with(&[0x4C, 0x00, 0x02]);
    let mut machine = start();
    machine.cycles = HIGHEST_CYCLES - 3;
    for limit in 0..=6 {
        let steps = u64::div_ceil(limit, 3);
        assert_eq!(spent(machine, limit, &mut memory), (steps, 3 * steps));
    }
    for limit in [7, 10, 11, HIGHEST_BOUND] {
        let answer = run_cycles(machine, limit, Lines::IDLE, &mut memory);
        let RunAnswer::NoCycleRoom(progress) = answer else {
            panic!("the run did not stop for want of cycles");
        };
        assert_eq!(progress.steps, 2);
        assert_eq!(progress.machine.cycles, HIGHEST_CYCLES + 3);
    }
    // No limit, no step: not even where there is no room for one.
    machine.cycles = u64::MAX;
    assert_eq!(spent(machine, 0, &mut memory), (0, 0));
}

#[test]
fn a_run_by_cycles_is_the_run_of_its_steps() {
    for lines in [Lines::IDLE, Lines::IRQ_LOW, Lines::NMI_LOW, BOTH_LOW] {
        for limit in (0..200).chain([65_535, HIGHEST_BOUND]) {
            let [mut memory, mut other] = [memory_with_handlers(), memory_with_handlers()];
            let RunAnswer::Made(progress) = run_cycles(start(), limit, lines, &mut memory) else {
                panic!("the run stopped");
            };
            let answer = run(start(), progress.steps, lines, &mut other);
            assert_eq!(answer, RunAnswer::Made(progress));
            assert_eq!(memory, other);
        }
    }
}

pub(super) const BOTH_LOW: Lines = Lines {
    irq: Level::Low,
    nmi: Level::Low,
};

/// A full memory of bytes that are no opcodes, whose NMI leads to 3412 and whose IRQ to 7856.
fn memory_with_vectors() -> Vec<u8> {
    let mut memory = vec![0x02; MEMORY_SIZE];
    memory[0xFFFA..0xFFFC].copy_from_slice(&[0x12, 0x34]);
    memory[0xFFFE..].copy_from_slice(&[0x56, 0x78]);
    memory
}

/// That the step serves a line: what is pushed, and every register, the level and all other bytes besides.
fn assert_serves(machine: Machine, lines: Lines, goal: u16) {
    let mut memory = memory_with_vectors();
    let mut expected = memory.clone();
    let mut registers = machine.registers();
    let [low, high] = registers.program_counter.to_le_bytes();
    let status = registers.status.bits() & 0xCF | 0x20;
    for byte in [high, low, status] {
        let place = &mut registers.stack_pointer.0;
        expected[0x0100 + usize::from(*place)] = byte;
        *place = place.wrapping_sub(1);
    }
    registers.status |= Status::PS_DISABLE_INTERRUPTS;
    registers.program_counter = goal;
    let after = Machine::from(registers)
        .with_cycles(machine.cycles + 7)
        .with_last_nmi(lines.nmi);
    let made = StepAnswer::Made {
        machine: after,
        first: 0,
    };
    assert_eq!(single_step(machine, lines, &mut memory), made);
    assert_eq!(memory, expected);
}

#[test]
fn a_line_that_is_due_is_served_in_place_of_the_byte_at_the_counter() {
    for status in 0..=0xFF {
        for stack in [0x00, 0x01, 0x02, 0xFF] {
            let mut machine = with(start(), |registers| {
                registers.program_counter = 0xABCD;
                registers.stack_pointer = StackPointer(stack);
                registers.status = Status::from_bits_truncate(status);
            })
            .with_cycles(HIGHEST_CYCLES);
            // NMI falls, whatever I is, and before IRQ.
            assert_serves(machine, Lines::NMI_LOW, 0x3412);
            assert_serves(machine, BOTH_LOW, 0x3412);
            let masked = status & 0x04 != 0;
            for (last_nmi, lines) in [
                (Level::High, Lines::IRQ_LOW),
                (Level::Low, Lines::IRQ_LOW),
                (Level::Low, BOTH_LOW),
            ] {
                machine.set_last_nmi(last_nmi);
                if masked {
                    let answer = single_step(machine, lines, &mut memory_with_vectors());
                    assert_eq!(answer, StepAnswer::NotAnOpcode(machine));
                } else {
                    assert_serves(machine, lines, 0x7856);
                }
            }
        }
    }
}

#[test]
fn a_step_that_is_made_records_the_level_of_nmi_and_a_refused_one_keeps_it() {
    let masked = Status::PS_DISABLE_INTERRUPTS;
    for last_nmi in [Level::High, Level::Low] {
        for lines in [Lines::IDLE, Lines::IRQ_LOW, Lines::NMI_LOW, BOTH_LOW] {
            let machine =
                with(start(), |registers| registers.status = masked).with_last_nmi(last_nmi);
            // Served or NOP.
            let StepAnswer::Made { machine: after, .. } =
                single_step(machine, lines, &mut memory_with(&[0xEA]))
            else {
                panic!("the step was refused");
            };
            assert_eq!(after.last_nmi(), lines.nmi);
            let late = machine.with_cycles(HIGHEST_CYCLES + 1);
            let answer = single_step(late, lines, &mut memory_with(&[0xEA]));
            assert_eq!(answer, StepAnswer::NoCycleRoom(late));
            // A run of no steps records nothing, nor does one of no cycles.
            let nothing = Progress { steps: 0, machine };
            for run in [run, long_run, run_cycles] {
                let answer = run(machine, 0, lines, &mut memory_with(&[0xEA]));
                assert_eq!(answer, RunAnswer::Made(nothing));
            }
            let falls = last_nmi == Level::High && lines.nmi == Level::Low;
            if !falls {
                let answer = single_step(machine, lines, &mut memory_with(&[0x02]));
                assert_eq!(answer, StepAnswer::NotAnOpcode(machine));
            }
        }
    }
}

/// Whether a step on a record was made: it answers and stores what the step by value does, and the record is renewed as a whole
/// or, in a refusal, as it was.
fn renewed(before: Machine, lines: Lines, mut memory: Vec<u8>) -> bool {
    let mut lent = memory.clone();
    let given = memory.clone();
    let mut record = before;
    let answer = record.step(lines, &mut lent);
    assert_eq!(answer, single_step(before, lines, &mut memory));
    assert_eq!(lent, memory);
    if let StepAnswer::Made { machine, .. } = answer {
        assert_eq!(record, machine);
        assert!(record.cycles > before.cycles);
        assert_eq!(record.last_nmi(), lines.nmi);
        return true;
    }
    assert_eq!((record, lent), (before, given));
    false
}

#[test]
fn a_record_is_renewed_by_a_step_and_stays_as_it_was_in_a_refusal() {
    for last_nmi in [Level::High, Level::Low] {
        for lines in [Lines::IDLE, Lines::NMI_LOW, Lines::IRQ_LOW] {
            let before = start().with_last_nmi(last_nmi);
            let late = before.with_cycles(HIGHEST_CYCLES + 1);
            let served =
                lines == Lines::IRQ_LOW || lines == Lines::NMI_LOW && last_nmi == Level::High;
            assert!(renewed(before, lines, memory_with(&[0xEA])));
            assert_eq!(renewed(before, lines, memory_with(&[0x02])), served);
            assert!(!renewed(late, lines, memory_with(&[0xEA])));
            assert!(!renewed(before, lines, vec![0xEA; MEMORY_SIZE - 1]));
        }
    }
}

/// 0200 CLI, 0201 NOP, 0202 JMP $0201; NMI leads to 0300 and IRQ to 0400, to an INC of 10 or 11 and RTI each.
pub(super) fn memory_with_handlers() -> Vec<u8> {
    let mut memory = memory_with(&[0x58, 0xEA, 0x4C, 0x01, 0x02]);
    memory[0x0300..0x0303].copy_from_slice(&[0xE6, 0x10, 0x40]);
    memory[0x0400..0x0403].copy_from_slice(&[0xE6, 0x11, 0x40]);
    memory[0xFFFA..].copy_from_slice(&[0x00, 0x03, 0x00, 0x02, 0x00, 0x04]);
    memory
}

/// How often each handler was run in a run of 100 steps from 0200, I set at first.
fn handled(run: fn(Machine, u64, Lines, &mut [u8]) -> RunAnswer, lines: Lines) -> [u8; 2] {
    let mut memory = memory_with_handlers();
    let machine = with(start(), |registers| {
        registers.status = Status::PS_DISABLE_INTERRUPTS;
    });
    let RunAnswer::Made(progress) = run(machine, 100, lines, &mut memory) else {
        panic!("the run stopped");
    };
    assert_eq!(progress.steps, 100);
    assert_eq!(progress.machine.last_nmi(), lines.nmi);
    [memory[0x10], memory[0x11]]
}

#[test]
fn a_run_serves_nmi_once_and_irq_whenever_i_is_clear() {
    for run in [run, long_run] {
        assert_eq!(handled(run, Lines::IDLE), [0, 0]);
        assert_eq!(handled(run, Lines::NMI_LOW), [1, 0]);
        // CLI, and then three steps for each: served, INC, RTI.
        assert_eq!(handled(run, Lines::IRQ_LOW), [0, 33]);
        // NMI first, which returns to CLI.
        assert_eq!(handled(run, BOTH_LOW), [1, 32]);
    }
}

#[test]
fn rti_returns_from_a_line_to_the_instruction_that_was_not_begun() {
    for status in 0..=0xFF {
        for (lines, handler) in [(Lines::NMI_LOW, 0x0300), (Lines::IRQ_LOW, 0x0400)] {
            let mut memory = memory_with_handlers();
            let status = Status::from_bits_truncate(status);
            let before = with(start(), |registers| registers.status = status);
            let masked = status.contains(Status::PS_DISABLE_INTERRUPTS);
            if masked && lines == Lines::IRQ_LOW {
                continue;
            }
            let StepAnswer::Made { machine, .. } = single_step(before, lines, &mut memory) else {
                panic!("the line was not served");
            };
            assert_eq!(machine.registers().program_counter, handler);
            let RunAnswer::Made(progress) = run(machine, 2, Lines::IDLE, &mut memory) else {
                panic!("INC and RTI were not made");
            };
            let after = progress.machine;
            assert_eq!(after.registers(), before.registers());
            // The service, INC zp and RTI.
            assert_eq!(after.cycles, 7 + 5 + 6);
            assert_eq!(after.last_nmi(), Level::High);
        }
    }
}

/// The number may have any bits from 57 on, and the byte of the lines any but its lowest two.
#[test]
fn other_bits_do_not_matter() {
    for lines in 0..=0xFF {
        for top in 0..=0xFF_u8 {
            let mut memory = memory_with_handlers();
            let mut number = start().number() | u64::from(top) << 56;
            let (mut cycles, mut first) = (0, 0);
            // Sound: the numbers and the memory are this test's own, and the length is the memory's.
            let answer = unsafe {
                mos6502_step(
                    &mut number,
                    &mut cycles,
                    lines,
                    &mut first,
                    memory.as_mut_ptr(),
                    memory.len(),
                )
            };
            let falls = lines & 1 != 0 && top & 1 == 0;
            let goal = match (falls, lines & 2 != 0) {
                (true, _) => 0x0300,
                (false, true) => 0x0400,
                (false, false) => 0x0201,
            };
            assert_eq!((answer, mos6502_counter(number)), (0, goal));
            assert_eq!(number >> 56, u64::from(lines & 1));
        }
    }
}
