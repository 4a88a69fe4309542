//! A run that is halted before it would touch a guarded byte. mos6502_guard.h says what the C functions promise.

use crate::addresses::AddressSet;
use crate::answers;
use crate::functions::{
    mos6502_extract, mos6502_guard_version_1_run_rt_staticlib_mos6502_guard, mos6502_guarded_run,
};
use crate::lines::Lines;
use crate::machine::Machine;
use crate::runs::{Progress, RunAnswer};

/// What a guarded run answers. A halt is no run's answer: a `match` has to say what becomes of it.
#[must_use = "a guarded run may have been halted: only Ran has a run's answer"]
#[derive(Clone, Copy, Debug, PartialEq, Eq, Hash)]
pub enum Guarded {
    /// No step touched a guarded byte: this is the answer of the run itself, never `BoundTooHigh`.
    Ran(RunAnswer),
    /// The next step would read `place`, which is guarded against reads, and was not made; and how far it came before that.
    WouldRead { place: u16, progress: Progress },
    /// The next step would read nothing that is guarded against reads, and store to `place`, which is guarded against stores. It
    /// was not made either.
    WouldStore { place: u16, progress: Progress },
}

impl Guarded {
    /// What a C function means that came so far, gave this place and answered so.
    #[inline]
    fn from_answer(answer: u8, progress: Progress, place: u16) -> Guarded {
        match answer {
            answers::WOULD_READ => Guarded::WouldRead { place, progress },
            answers::WOULD_STORE => Guarded::WouldStore { place, progress },
            _ => Guarded::Ran(RunAnswer::from_answer(
                answer,
                progress,
                mos6502_guard_version_1_run_rt_staticlib_mos6502_guard,
            )),
        }
    }
}

/// At most `bound` steps as by [`long_run`](crate::long_run), any number of them, halted before the first that would read a byte of
/// `reads` or store to one of `stores`. A byte that is guarded against reads may be stored to, and the other way round. Nothing that
/// it answers depends on a byte that is guarded against reads, and no byte that it leaves at any other address. The guarded bytes
/// are still in `memory`: whoever writes it out hands them out, and takes [`extract`] for that.
///
/// ```
/// use saxundeer::{AddressSet, Guarded, Lines, MEMORY_SIZE, Machine, guarded_run};
///
/// let mut memory = vec![0; MEMORY_SIZE];
/// memory[0x0200..0x0205].copy_from_slice(&[0xA9, 0x05, 0x8D, 0x10, 0x40]); // LDA #$05, STA $4010
/// memory[0xFFFD] = 0x02; // the program begins at 0200
/// let machine = Machine::start(&memory).expect("the memory is full");
/// let rom = AddressSet::from(0x4000..=0x4FFF);
/// match guarded_run(machine, 1000, Lines::IDLE, &AddressSet::EMPTY, &rom, &mut memory) {
///     Guarded::WouldStore { place, progress } => assert_eq!((place, progress.steps), (0x4010, 1)),
///     other => panic!("it stored nothing there: {other:?}"),
/// }
/// ```
#[inline]
pub fn guarded_run(
    mut machine: Machine,
    bound: u64,
    lines: Lines,
    reads: &AddressSet,
    stores: &AddressSet,
    memory: &mut [u8],
) -> Guarded {
    let (registers, cycles) = machine.numbers();
    let (mut steps, mut place) = (0, 0);
    // Sound: the numbers are this function's own, the maps and the memory are lent to it, and the length is the memory's.
    let answer = unsafe {
        mos6502_guarded_run(
            registers,
            cycles,
            &mut steps,
            &mut place,
            bound,
            lines.byte(),
            reads.map(),
            stores.map(),
            memory.as_mut_ptr(),
            memory.len(),
        )
    };
    Guarded::from_answer(answer, Progress { steps, machine }, place)
}

/// The same with the addresses of `sealed` guarded against reads and none against stores, so that it never answers `WouldStore`, and
/// with the sealed bytes made 00 before the first step: since none is read, that changes no answer. All of the memory that it leaves
/// may be handed out: what was sealed and never stored to comes back as 00. That holds of every answer but `MemoryNotFull`, with
/// which no byte is changed.
///
/// ```
/// use saxundeer::{AddressSet, Guarded, Lines, MEMORY_SIZE, Machine, Registers, RunAnswer, extract};
///
/// let mut memory = vec![0; MEMORY_SIZE];
/// memory[0x0200..0x0203].copy_from_slice(&[0x8D, 0x10, 0x40]); // STA $4010, and BRK for ever
/// memory[0xFFFD] = 0x02; // the program begins at 0200
/// memory[0x4000..0x4100].fill(0x55);
/// let mut machine = Machine::start(&memory).expect("the memory is full");
/// machine.set_registers(Registers { accumulator: 7, ..machine.registers() });
/// let sealed = AddressSet::from(0x4000..=0x40FF);
/// match extract(machine, 1, Lines::IDLE, &sealed, &mut memory) {
///     Guarded::Ran(RunAnswer::Made(_)) => assert_eq!(memory[0x400F..=0x4011], [0, 7, 0]),
///     other => panic!("it did not make the step: {other:?}"),
/// }
/// ```
pub fn extract(
    mut machine: Machine,
    bound: u64,
    lines: Lines,
    sealed: &AddressSet,
    memory: &mut [u8],
) -> Guarded {
    let (registers, cycles) = machine.numbers();
    let (mut steps, mut place) = (0, 0);
    // Sound: as above.
    let answer = unsafe {
        mos6502_extract(
            registers,
            cycles,
            &mut steps,
            &mut place,
            bound,
            lines.byte(),
            sealed.map(),
            memory.as_mut_ptr(),
            memory.len(),
        )
    };
    Guarded::from_answer(answer, Progress { steps, machine }, place)
}
