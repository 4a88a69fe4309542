//! Sets of addresses, the guarded run, the extract, and the run to an address.

use std::format;
use std::vec;
use std::vec::Vec;

use core::ops::RangeInclusive;

use super::functions::*;
use super::tests::{BOTH_LOW, COPY, COUNTED, COUNTERS, memory_with, memory_with_handlers, start};
use super::*;

const NONE: &AddressSet = &AddressSet::EMPTY;
const ALL: &AddressSet = &AddressSet::ALL;
/// More steps than any program here makes.
const MANY: u64 = u64::MAX;

/// A machine whose every part would show if it were changed.
fn marked() -> Machine {
    start().with_cycles(99).with_last_nmi(Level::Low)
}

// ---- sets of addresses

#[test]
fn a_set_has_the_addresses_of_its_ranges() {
    let ranges = [
        0x0000..=0x0000,
        0x0007..=0x0008,
        0x3FFF..=0x4010,
        0xFFFF..=0xFFFF,
    ];
    let set: AddressSet = ranges.iter().cloned().collect();
    for address in 0..=0xFFFF {
        let expected = ranges.iter().any(|range| range.contains(&address));
        assert_eq!(set.contains(address), expected, "{address:04X}");
    }
    assert_eq!(set.ranges().collect::<Vec<_>>(), ranges);
    assert_eq!(
        format!("{set:?}"),
        "{0000..=0000, 0007..=0008, 3FFF..=4010, FFFF..=FFFF}"
    );
    // In any order, overlapping and touching: the same set.
    let mut other = AddressSet::from(0x4001..=0x4010);
    other.extend([0xFFFF..=0xFFFF, 0x3FFF..=0x4005, 0x0007..=0x0008]);
    assert_ne!(set, other);
    other.insert(0x0000..=0x0000);
    assert_eq!(set, other);
}

#[test]
fn a_set_may_have_no_address_or_all() {
    assert!(NONE.is_empty());
    assert_eq!(*NONE, AddressSet::default());
    let backwards = RangeInclusive::new(0x4002, 0x4001);
    assert!(AddressSet::from(backwards).is_empty());
    assert!(!AddressSet::from(0xFFFF..=0xFFFF).is_empty());
    assert_eq!(AddressSet::from(0x0000..=0xFFFF), *ALL);
    assert_eq!(ALL.ranges().collect::<Vec<_>>(), [0x0000..=0xFFFF]);
}

#[test]
fn a_union_has_what_either_has() {
    let mut both = AddressSet::from(0x0010..=0x0020);
    both |= &AddressSet::from(0x0019..=0x0030);
    assert_eq!(both, AddressSet::from(0x0010..=0x0030));
    both |= NONE;
    assert_eq!(both, AddressSet::from(0x0010..=0x0030));
    both |= ALL;
    assert_eq!(both, *ALL);
}

// ---- the guarded run

/// The program's run of so many steps without a guard, and the memory after it.
fn unguarded(code: &[u8], bound: u64) -> (RunAnswer, Vec<u8>) {
    let mut memory = memory_with(code);
    let answer = long_run(start(), bound, Lines::IDLE, &mut memory);
    (answer, memory)
}

/// The progress of a run that made all its steps.
fn made(answer: RunAnswer) -> Progress {
    match answer {
        RunAnswer::Made(progress) => progress,
        other => panic!("it answered {other:?}"),
    }
}

#[test]
fn a_guarded_run_that_touches_nothing_guarded_is_the_run() {
    // 4000 to 4003 are read and 5000 to 5003 stored to: each may be guarded against the other, and all that is around them.
    let mut reads = AddressSet::from(0x020C..=0x3FFF);
    reads.extend([0x0000..=0x01FF, 0x4004..=0xFFFF]);
    let mut stores = AddressSet::from(0x0000..=0x4FFF);
    stores.insert(0x5004..=0xFFFF);
    for bound in [MANY, 17, 5, 1, 0] {
        let (answer, expected) = unguarded(&COPY, bound);
        for (reads, stores) in [
            (NONE, NONE),
            (&reads, NONE),
            (NONE, &stores),
            (&reads, &stores),
        ] {
            let mut memory = memory_with(&COPY);
            let guarded = guarded_run(start(), bound, Lines::IDLE, reads, stores, &mut memory);
            assert_eq!(guarded, Guarded::Ran(answer));
            assert_eq!(memory, expected);
        }
    }
}

#[test]
fn a_guarded_run_is_halted_before_it_touches_what_is_guarded() {
    // The second load, the sixth step, is the one of 4002, and the third store, the eleventh, the one of 5001.
    let loaded = &AddressSet::from(0x4001..=0x4002);
    let stored = &AddressSet::from(0x5000..=0x5001);
    for (reads, stores, steps, place) in [
        (loaded, NONE, 5, 0x4002),
        (loaded, stored, 5, 0x4002),
        (NONE, stored, 10, 0x5001),
    ] {
        let (answer, expected) = unguarded(&COPY, steps);
        let progress = made(answer);
        let halted = if reads == NONE {
            Guarded::WouldStore { place, progress }
        } else {
            Guarded::WouldRead { place, progress }
        };
        // All steps that were asked for are made before it.
        for (bound, guarded) in [
            (MANY, halted),
            (steps + 1, halted),
            (steps, Guarded::Ran(answer)),
        ] {
            let mut memory = memory_with(&COPY);
            let run = guarded_run(start(), bound, Lines::IDLE, reads, stores, &mut memory);
            assert_eq!(run, guarded);
            assert_eq!(memory, expected);
        }
    }
}

/// The answer of C's guarded run, the steps and the place; that the numbers and the memory are as they were if no step was made.
fn told(
    code: &[u8],
    cycles: u64,
    lines: u8,
    [reads, stores]: [&AddressSet; 2],
    bound: u64,
    length: usize,
) -> (u8, u64, u16) {
    let mut memory = memory_with(code);
    // The bits that do not matter are set, so that it shows if the number is made anew.
    let given = start().number() | 0xFE << 56;
    let (mut number, mut count) = (given, cycles);
    let (mut steps, mut place) = (77, 0x7777);
    // Sound: the numbers and the memory are this test's own, and the memory has that many bytes.
    let answer = unsafe {
        mos6502_guarded_run(
            &mut number,
            &mut count,
            &mut steps,
            &mut place,
            bound,
            lines,
            reads.map(),
            stores.map(),
            memory.as_mut_ptr(),
            length,
        )
    };
    if steps == 0 {
        assert_eq!((number, count), (given, cycles));
        assert_eq!(memory, memory_with(code));
    }
    (answer, steps, place)
}

#[test]
fn the_first_answer_that_holds_is_given() {
    let inc = [0xEE, 0x00, 0x40]; // INC $4000
    let late = HIGHEST_CYCLES + 1;
    let everywhere = [ALL, ALL];
    let full = MEMORY_SIZE;
    // The length, then no step at all, then the room, then a read, a store, and a byte that is no opcode.
    for length in [0, 1, full - 1] {
        assert_eq!(told(&inc, late, 0, everywhere, 9, length), (1, 0, 0));
        assert_eq!(told(&inc, late, 0, everywhere, 0, length), (1, 0, 0));
    }
    assert_eq!(told(&inc, late, 0, everywhere, 0, full), (0, 0, 0));
    assert_eq!(told(&inc, late, 0, everywhere, 9, full), (2, 0, 0));
    assert_eq!(told(&inc, 0, 0, everywhere, 9, full), (13, 0, 0x0200));
    assert_eq!(told(&inc, 0, 0, [NONE, ALL], 9, full), (14, 0, 0x4000));
    assert_eq!(told(&[0x02], late, 0, everywhere, 9, full), (2, 0, 0));
    assert_eq!(told(&[0x02], 0, 0, everywhere, 9, full), (13, 0, 0x0200));
    assert_eq!(told(&[0x02], 0, 0, [NONE, ALL], 9, full), (3, 0, 0));
    assert_eq!(told(&[0x02], 0, 0, [NONE, NONE], 9, full), (3, 0, 0));
    assert_eq!(told(&inc, 0, 0, [NONE, NONE], 1, full), (0, 1, 0));
    // What is read and stored to may be guarded against both: 13 is first.
    let there = &AddressSet::from(0x4000..=0x4000);
    assert_eq!(told(&inc, 0, 0, [there, there], 9, full), (13, 0, 0x4000));
    // In the order of the step: the operands before the byte they lead to.
    let [low, both] = [0x0202..=0x0202, 0x4000..=0x4000].map(AddressSet::from);
    let mut union = low.clone();
    union |= &both;
    assert_eq!(told(&inc, 0, 0, [&union, NONE], 9, full), (13, 0, 0x0202));
    // A byte that is no opcode has no operands: what stands after it is not touched.
    assert_eq!(told(&[0x02], 0, 0, [&low, NONE], 9, full), (3, 0, 0));
}

#[test]
fn a_line_that_is_served_touches_the_stack_and_its_vector() {
    let full = MEMORY_SIZE;
    for (lines, vector) in [(1, 0xFFFA), (2, 0xFFFE), (3, 0xFFFA)] {
        let both = &AddressSet::from(vector..=vector + 1);
        let second = &AddressSet::from(vector + 1..=vector + 1);
        let stack = &AddressSet::from(0x0100..=0x01FE);
        // The opcode is not read, so that it may be guarded and be none.
        let code = &AddressSet::from(0x0200..=0x0202);
        assert_eq!(told(&[0x02], 0, lines, [code, NONE], 1, full), (0, 1, 0));
        assert_eq!(
            told(&[0x02], 0, lines, [both, ALL], 9, full),
            (13, 0, vector)
        );
        let at_second = (13, 0, vector + 1);
        assert_eq!(told(&[0x02], 0, lines, [second, ALL], 9, full), at_second);
        // The first push goes to 01FF, which is not guarded.
        assert_eq!(
            told(&[0x02], 0, lines, [NONE, stack], 9, full),
            (14, 0, 0x01FE)
        );
    }
}

#[test]
fn a_guarded_run_of_another_length_changes_nothing() {
    let machine = marked();
    let refused = Guarded::Ran(RunAnswer::MemoryNotFull(Progress { steps: 0, machine }));
    for length in [0, 1, MEMORY_SIZE - 1, MEMORY_SIZE + 1] {
        let mut memory = vec![0xEA; length];
        for bound in [0, 9, MANY] {
            for lines in [Lines::IDLE, BOTH_LOW] {
                let guarded = guarded_run(machine, bound, lines, ALL, ALL, &mut memory);
                assert_eq!(guarded, refused);
                assert_eq!(extract(machine, bound, lines, ALL, &mut memory), refused);
            }
        }
        assert!(memory.iter().all(|byte| *byte == 0xEA));
    }
}

#[test]
fn a_halt_of_the_first_step_leaves_the_machine_to_the_bit() {
    let machine = marked();
    let progress = Progress { steps: 0, machine };
    let code = AddressSet::from(0x0200..=0x0200);
    let mut memory = memory_with(&COPY);
    let guarded = guarded_run(machine, 9, Lines::IDLE, &code, NONE, &mut memory);
    let place = 0x0200;
    assert_eq!(guarded, Guarded::WouldRead { place, progress });
    // Nor does a run of no steps record a level.
    let guarded = guarded_run(machine, 0, Lines::IDLE, &code, NONE, &mut memory);
    assert_eq!(guarded, Guarded::Ran(RunAnswer::Made(progress)));
    assert_eq!(memory, memory_with(&COPY));
}

#[test]
fn a_guarded_run_takes_any_bound() {
    let far = &AddressSet::from(0xF000..=0xF000);
    for bound in [COUNTED, COUNTED + 1, MANY] {
        let mut memory = memory_with(&COUNTERS);
        let guarded = guarded_run(start(), bound, Lines::IDLE, far, far, &mut memory);
        let expected = long_run(start(), bound, Lines::IDLE, &mut memory_with(&COUNTERS));
        assert_eq!(guarded, Guarded::Ran(expected));
    }
}

#[test]
fn a_guarded_run_is_the_steps_it_is_made_of() {
    for lines in [Lines::IDLE, Lines::IRQ_LOW, Lines::NMI_LOW, BOTH_LOW] {
        for bound in 0..100 {
            let [mut memory, mut other] = [memory_with_handlers(), memory_with_handlers()];
            let far = &AddressSet::from(0xF000..=0xF000);
            let guarded = guarded_run(start(), bound, lines, far, far, &mut memory);
            let expected = run(start(), bound, lines, &mut other);
            assert_eq!(guarded, Guarded::Ran(expected));
            assert_eq!(memory, other);
        }
    }
}

// ---- the extract

#[test]
fn an_extract_hands_out_what_was_stored_and_zeros() {
    let mut memory = memory_with(&COPY);
    memory[0x4000..0x4004].copy_from_slice(&[9, 8, 7, 6]);
    memory[0x4FFC..0x5010].fill(0x55);
    let mut other = memory.clone();
    let expected = long_run(start(), MANY, Lines::IDLE, &mut other);
    let sealed = AddressSet::from(0x4FFE..=0x500D);
    let extracted = extract(start(), MANY, Lines::IDLE, &sealed, &mut memory);
    assert_eq!(extracted, Guarded::Ran(expected));
    assert_eq!(
        memory[0x4FFC..0x5010],
        [
            0x55, 0x55, 0, 0, 9, 8, 7, 6, 0, 0, 0, 0, 0, 0, 0, 0, 0, 0, 0x55, 0x55
        ]
    );
    other[0x4FFE..0x5000].fill(0);
    other[0x5004..0x500E].fill(0);
    assert_eq!(memory, other);
}

#[test]
fn an_extract_is_halted_before_it_reads_and_is_blank_even_so() {
    // With no step, with none that is made, and with some.
    let late = start().with_cycles(HIGHEST_CYCLES + 1);
    let sealed = AddressSet::from(0x4000..=0x4002);
    for (machine, bound) in [(start(), 0), (late, 9), (start(), 9)] {
        let mut memory = memory_with(&COPY);
        memory[0x4000..0x4004].copy_from_slice(&[9, 8, 7, 6]);
        let mut other = memory.clone();
        other[0x4000..0x4003].fill(0);
        let expected = guarded_run(machine, bound, Lines::IDLE, &sealed, NONE, &mut other);
        let extracted = extract(machine, bound, Lines::IDLE, &sealed, &mut memory);
        assert_eq!(extracted, expected);
        assert_eq!(memory, other);
        if let Guarded::WouldRead { place, progress } = extracted {
            assert_eq!((place, progress.steps), (0x4002, 5));
        }
    }
}

/// The numbers come back to the bit if no step was made, and the place is written with every answer.
#[test]
fn an_extract_answers_as_the_guarded_run() {
    let late = HIGHEST_CYCLES + 1;
    let sealed = AddressSet::from(0x4000..=0x4003);
    for (code, cycles, bound, length, expected) in [
        (&COPY[..], late, 9, MEMORY_SIZE - 1, (1, 0, 0)),
        (&COPY, late, 9, MEMORY_SIZE, (2, 0, 0)),
        (&COPY, late, 0, MEMORY_SIZE, (0, 0, 0)),
        (&[0x4C, 0x00, 0x40], 0, 9, MEMORY_SIZE, (13, 1, 0x4000)),
        (&[0xAD, 0x02, 0x40], 0, 9, MEMORY_SIZE, (13, 0, 0x4002)),
        (&[0x02], 0, 9, MEMORY_SIZE, (3, 0, 0)),
        (&COPY, 0, 1, MEMORY_SIZE, (0, 1, 0)),
    ] {
        let mut memory = memory_with(code);
        memory[0x3FFF..0x4005].fill(0x55);
        let before = memory.clone();
        let given = start().number() | 0xFE << 56;
        let (mut number, mut count) = (given, cycles);
        let (mut steps, mut place) = (77, 0x7777);
        // Sound: the numbers and the memory are this test's own, and the memory has that many bytes.
        let answer = unsafe {
            mos6502_extract(
                &mut number,
                &mut count,
                &mut steps,
                &mut place,
                bound,
                0,
                sealed.map(),
                memory.as_mut_ptr(),
                length,
            )
        };
        assert_eq!((answer, steps, place), expected);
        if steps == 0 {
            assert_eq!((number, count), (given, cycles));
        }
        let sealed_now = if answer == 1 { 0x55 } else { 0x00 };
        assert_eq!(memory[0x4000..0x4004], [sealed_now; 4]);
        memory[0x4000..0x4004].fill(0x55);
        assert_eq!(memory, before);
    }
}

/// Nothing that comes out depends on what was sealed.
#[test]
fn an_extract_of_another_secret_is_the_same() {
    let sealed: AddressSet = [0x4002..=0x4002, 0x5000..=0x5FFF].into_iter().collect();
    let extracts = [0x00, 0x5A, 0xFF].map(|secret| {
        let mut memory = memory_with(&COPY);
        for range in sealed.ranges() {
            memory[usize::from(*range.start())..=usize::from(*range.end())].fill(secret);
        }
        let extracted = extract(start(), MANY, Lines::IDLE, &sealed, &mut memory);
        assert!(matches!(
            extracted,
            Guarded::WouldRead { place: 0x4002, .. }
        ));
        (extracted, memory)
    });
    assert!(extracts.iter().all(|extract| *extract == extracts[0]));
}

// ---- the run to an address

/// The steps of a run to an address that ended so, and its counter.
macro_rules! ended {
    ($case:ident, $answer:expr) => {
        match $answer {
            Ending::$case(progress) => {
                (progress.steps, progress.machine.registers().program_counter)
            }
            other => panic!("it ended as {other:?}"),
        }
    };
}

/// The steps of a run that arrived, and whether it is at an opcode.
fn arrived(ending: Ending, stop: u16) -> (u64, bool) {
    match ending {
        Ending::Arrived {
            progress,
            is_opcode,
        } => {
            assert_eq!(progress.machine.registers().program_counter, stop);
            (progress.steps, is_opcode)
        }
        other => panic!("it ended as {other:?}"),
    }
}

#[test]
fn a_run_to_an_address_tells_its_endings_apart() {
    let to = |stop, limit| {
        let mut memory = memory_with(&COPY);
        run_to(start(), stop, limit, Lines::IDLE, &mut memory)
    };
    // At the byte that is no opcode: LDX and four rounds of four.
    assert_eq!(arrived(to(0x020B, 99), 0x020B), (17, false));
    assert_eq!(arrived(to(0x020B, 17), 0x020B), (17, false));
    // At an opcode, the first time it is there.
    assert_eq!(arrived(to(0x0208, 99), 0x0208), (3, true));
    // It is there already, whatever the limit is.
    for limit in [0, 1, MANY] {
        assert_eq!(arrived(to(0x0200, limit), 0x0200), (0, true));
    }
    // In the middle of an instruction the counter never is.
    assert_eq!(ended!(BrokeOff, to(0x0203, 99)), (17, 0x020B));
    assert_eq!(ended!(BrokeOff, to(0x0300, 18)), (17, 0x020B));
    // All steps are made first.
    assert_eq!(ended!(StillRunning, to(0x0300, 17)), (17, 0x020B));
    assert_eq!(ended!(StillRunning, to(0x020B, 16)), (16, 0x0209));
    assert_eq!(ended!(StillRunning, to(0x020B, 0)), (0, 0x0200));
}

#[test]
fn a_run_to_an_address_is_refused_at_another_one() {
    let late = start().with_cycles(HIGHEST_CYCLES + 1);
    let to = |machine, stop, memory: &mut [u8]| run_to(machine, stop, 9, Lines::IDLE, memory);
    let mut memory = memory_with(&COPY);
    assert_eq!(
        ended!(NoCycleRoom, to(late, 0x0202, &mut memory)),
        (0, 0x0200)
    );
    assert_eq!(
        ended!(MemoryNotFull, to(late, 0x0200, &mut memory[1..])),
        (0, 0x0200)
    );
    // At the stop there need be no room, and no opcode.
    assert_eq!(arrived(to(late, 0x0200, &mut memory), 0x0200), (0, true));
    assert_eq!(memory, memory_with(&COPY));
    let mut memory = memory_with(&[0x02]);
    assert_eq!(arrived(to(late, 0x0200, &mut memory), 0x0200), (0, false));
    assert_eq!(
        ended!(BrokeOff, to(start(), 0x0201, &mut memory)),
        (0, 0x0200)
    );
    // A machine that made no step comes back as it was.
    let progress = Progress {
        steps: 0,
        machine: marked(),
    };
    let ending = to(marked(), 0x0200, &mut memory);
    let is_opcode = false;
    assert_eq!(
        ending,
        Ending::Arrived {
            progress,
            is_opcode
        }
    );
}

/// The answer of C's run to an address, and the steps; that the numbers are as they were, to the bit, if no step was made.
fn told_to(stop: u16, code: &[u8], cycles: u64, lines: u8, bound: u64, length: usize) -> (u8, u64) {
    let mut memory = memory_with(code);
    let given = start().number() | 0xFE << 56;
    let (mut number, mut count, mut steps) = (given, cycles, 77);
    // Sound: the numbers and the memory are this test's own, and the memory has that many bytes.
    let answer = unsafe {
        mos6502_run_to(
            &mut number,
            &mut count,
            &mut steps,
            stop,
            bound,
            lines,
            memory.as_mut_ptr(),
            length,
        )
    };
    if steps == 0 {
        assert_eq!((number, count), (given, cycles));
        assert_eq!(memory, memory_with(code));
    }
    (answer, steps)
}

#[test]
fn the_first_answer_of_a_run_to_an_address_that_holds_is_given() {
    let late = HIGHEST_CYCLES + 1;
    let full = MEMORY_SIZE;
    // The length, then the stop, then the bound, then the room, and then the opcode.
    assert_eq!(told_to(0x0200, &[0x02], late, 3, 0, full - 1), (1, 0));
    assert_eq!(told_to(0x0200, &[0x02], late, 3, 0, full), (0, 0));
    assert_eq!(told_to(0x0200, &[0x02], late, 3, 9, full), (0, 0));
    assert_eq!(told_to(0x0201, &[0x02], late, 0, 0, full), (15, 0));
    assert_eq!(told_to(0x0201, &[0x02], late, 0, 9, full), (2, 0));
    assert_eq!(told_to(0x0201, &[0x02], 0, 0, 9, full), (3, 0));
    // NOP: the bound is looked at before the step that would be refused.
    assert_eq!(told_to(0x0300, &[0xEA, 0x02], 0, 0, 1, full), (15, 1));
    assert_eq!(told_to(0x0300, &[0xEA, 0x02], 0, 0, 2, full), (3, 1));
    assert_eq!(told_to(0x0201, &[0xEA, 0x02], 0, 0, 1, full), (0, 1));
    let last = HIGHEST_CYCLES;
    assert_eq!(told_to(0x0201, &[0xEA, 0xEA], last, 0, 9, full), (0, 1));
    assert_eq!(told_to(0x0202, &[0xEA, 0xEA], last, 0, 9, full), (2, 1));
}

#[test]
fn an_arrival_says_of_each_byte_whether_it_is_an_opcode_and_changes_none() {
    let opcodes = (0..=0xFF).filter(|byte| {
        let mut memory = memory_with(&[*byte, 0x34, 0x12]);
        // Whatever the lines are.
        let ending = run_to(marked(), 0x0200, 9, BOTH_LOW, &mut memory);
        assert_eq!(memory, memory_with(&[*byte, 0x34, 0x12]));
        let (steps, is_opcode) = arrived(ending, 0x0200);
        assert_eq!(steps, 0);
        is_opcode
    });
    assert_eq!(opcodes.count(), 151);
}

#[test]
fn a_run_to_an_address_is_the_run_of_its_steps() {
    for lines in [Lines::IDLE, Lines::IRQ_LOW, Lines::NMI_LOW, BOTH_LOW] {
        for stop in [0x0202, 0x0300, 0x0302, 0x0400, 0x0402] {
            for limit in 0..20 {
                let [mut memory, mut other] = [memory_with_handlers(), memory_with_handlers()];
                let (Ending::Arrived { progress, .. } | Ending::StillRunning(progress)) =
                    run_to(start(), stop, limit, lines, &mut memory)
                else {
                    panic!("it was refused");
                };
                let answer = run(start(), progress.steps, lines, &mut other);
                assert_eq!(answer, RunAnswer::Made(progress));
                assert_eq!(memory, other);
            }
        }
    }
}

#[test]
fn lines_are_served_on_the_way_to_an_address() {
    let to = |stop, lines| run_to(start(), stop, 100, lines, &mut memory_with_handlers());
    // NMI is served in the first step, IRQ there too, since I is clear, and again after RTI; each leads to its handler.
    assert_eq!(arrived(to(0x0300, Lines::NMI_LOW), 0x0300), (1, true));
    assert_eq!(arrived(to(0x0400, Lines::IRQ_LOW), 0x0400), (1, true));
    assert_eq!(arrived(to(0x0400, BOTH_LOW), 0x0400), (4, true));
    // Back from NMI: CLI and NOP. While IRQ is held the program does not get there.
    assert_eq!(arrived(to(0x0202, Lines::NMI_LOW), 0x0202), (5, true));
    assert_eq!(ended!(StillRunning, to(0x0202, Lines::IRQ_LOW)).0, 100);
    assert_eq!(ended!(StillRunning, to(0x0300, Lines::IDLE)).0, 100);
    // At the stop the line that is due is not served.
    assert_eq!(arrived(to(0x0200, BOTH_LOW), 0x0200), (0, true));
}

#[test]
fn a_run_to_an_address_goes_on_after_a_million_steps() {
    let to = |limit| {
        let mut memory = memory_with(&COUNTERS);
        run_to(start(), 0x020A, limit, Lines::IDLE, &mut memory)
    };
    assert_eq!(arrived(to(MANY), 0x020A), (COUNTED, false));
    assert_eq!(ended!(StillRunning, to(2_500_000)).0, 2_500_000);
}
