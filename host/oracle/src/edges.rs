//! The directed inputs: the places where an address, a counter or a sum turns over, each tried with every opcode that
//! can come there. What a class leaves open is random.

use std::ops::RangeInclusive;

use crate::case::Case;
use crate::random::Random;
use crate::rules::{self, Entry, Kind, Mode};

#[derive(Clone, Copy)]
pub enum Class {
    Counter,
    Stack,
    ZeroPage,
    PageCrosses,
    Branches,
    IndirectJumps,
    StackPage,
    OwnBytes,
    Breaks,
    CallFirstPush,
    CallSecondPush,
    CallPageStart,
    CallPageEnd,
    CallElsewhere,
}

pub const CLASSES: [(Class, &str); 14] = [
    (Class::Counter, "counter FFFC to 0002"),
    (Class::Stack, "S 00 01 02 FD FE FF"),
    (Class::ZeroPage, "zero page FE FF 00"),
    (Class::PageCrosses, "page crosses"),
    (Class::Branches, "branches"),
    (Class::IndirectJumps, "JMP (xxFF)"),
    (Class::StackPage, "code in the stack page"),
    (Class::OwnBytes, "stores onto own bytes"),
    (Class::Breaks, "BRK at edges"),
    (Class::CallFirstPush, "JSR under its 1st push"),
    (Class::CallSecondPush, "JSR under its 2nd push"),
    (Class::CallPageStart, "  from the zero page"),
    (Class::CallPageEnd, "  at the page's end"),
    (Class::CallElsewhere, "JSR beside its pushes"),
];

/// Takes a case; a fault ends the whole.
type Visit<'a, Fault> = dyn FnMut(Case) -> Result<(), Fault> + 'a;

impl Class {
    /// Hands over every case of the class.
    pub fn each<Fault>(self, random: &mut Random, visit: &mut Visit<Fault>) -> Result<(), Fault> {
        match self {
            Class::Counter => counter(random, visit),
            Class::Stack => stack(random, visit),
            Class::ZeroPage => zero_page(random, visit),
            Class::PageCrosses => page_crosses(random, visit),
            Class::Branches => branches(random, visit),
            Class::IndirectJumps => indirect_jumps(random, visit),
            Class::StackPage => stack_page(random, visit),
            Class::OwnBytes => own_bytes(random, visit),
            Class::Breaks => breaks(random, visit),
            Class::CallFirstPush => calls(ALL, &[0], 16, random, visit),
            Class::CallSecondPush => calls(ALL, &[1], 16, random, visit),
            // The opcode, or that and the low byte, in the zero page.
            Class::CallPageStart => calls([0x0100..=0x0101], &[0, 1], 2_048, random, visit),
            // The second push lands there after S has turned over.
            Class::CallPageEnd => calls([0x01FF..=0x01FF], &[0, 1], 4_096, random, visit),
            Class::CallElsewhere => {
                calls(ALL, &[0xFF, 2], 4, random, visit)?;
                // The same low bytes in other pages: after this one, and where the counter turns over.
                calls(
                    [0x0200..=0x0201, 0x0000..=0x0002],
                    &[0, 1],
                    512,
                    random,
                    visit,
                )
            }
        }
    }
}

const COUNTERS: [u16; 7] = [0xFFFC, 0xFFFD, 0xFFFE, 0xFFFF, 0x0000, 0x0001, 0x0002];
const STACKS: [u8; 6] = [0x00, 0x01, 0x02, 0xFD, 0xFE, 0xFF];

fn uses_stack(entry: &Entry) -> bool {
    matches!(
        entry.kind,
        Kind::Push | Kind::Pull(_) | Kind::Call | Kind::Break
    )
}

fn has_mode(modes: &'static [Mode]) -> impl Iterator<Item = Entry> {
    rules::all().filter(|entry| modes.contains(&entry.mode))
}

/// A case with what is still open filled in.
fn filled(mut case: Case, code: &[u8], random: &mut Random) -> Case {
    case.put_code(code);
    case.fill(random);
    case
}

fn counter<Fault>(random: &mut Random, visit: &mut Visit<Fault>) -> Result<(), Fault> {
    for entry in rules::all() {
        for counter in COUNTERS {
            for _ in 0..64 {
                let mut case = Case::new(random.state());
                case.state.counter = counter;
                visit(filled(case, &[entry.opcode], random))?;
            }
        }
    }
    Ok(())
}

fn stack<Fault>(random: &mut Random, visit: &mut Visit<Fault>) -> Result<(), Fault> {
    for entry in rules::all().filter(uses_stack) {
        for stack in STACKS {
            for _ in 0..512 {
                let mut case = Case::new(random.state());
                case.state.stack = stack;
                visit(filled(case, &[entry.opcode], random))?;
            }
        }
    }
    Ok(())
}

/// Every index, with an operand that leads to FE, FF or 00.
fn zero_page<Fault>(random: &mut Random, visit: &mut Visit<Fault>) -> Result<(), Fault> {
    let modes = &[
        Mode::ZeroPage,
        Mode::ZeroPageX,
        Mode::ZeroPageY,
        Mode::IndexedIndirect,
        Mode::IndirectIndexed,
    ];
    for entry in has_mode(modes) {
        for place in [0xFE, 0xFF, 0x00] {
            for index in 0..=0xFF {
                let mut case = Case::new(random.state());
                case.state.x = index;
                case.state.y = index;
                let indexed = !matches!(entry.mode, Mode::ZeroPage | Mode::IndirectIndexed);
                let operand = if indexed {
                    u8::wrapping_sub(place, index)
                } else {
                    place
                };
                visit(filled(case, &[entry.opcode, operand], random))?;
            }
        }
    }
    Ok(())
}

/// Every low byte of the base with every index, crossing or not; one base in eight stands in the last page.
fn page_crosses<Fault>(random: &mut Random, visit: &mut Visit<Fault>) -> Result<(), Fault> {
    let modes = &[Mode::AbsoluteX, Mode::AbsoluteY, Mode::IndirectIndexed];
    for entry in has_mode(modes) {
        for low in 0..=0xFF {
            for index in 0..=0xFF {
                let mut case = Case::new(random.state());
                case.state.x = index;
                case.state.y = index;
                let high = if random.below(8) == 0 {
                    0xFF
                } else {
                    random.any_byte()
                };
                if entry.mode == Mode::IndirectIndexed {
                    let pointer = random.byte();
                    case.put(pointer.into(), low);
                    case.put(pointer.wrapping_add(1).into(), high);
                    visit(filled(case, &[entry.opcode, pointer], random))?;
                } else {
                    visit(filled(case, &[entry.opcode, low, high], random))?;
                }
            }
        }
    }
    Ok(())
}

/// Every offset from every place of a page, taken and not.
fn branches<Fault>(random: &mut Random, visit: &mut Visit<Fault>) -> Result<(), Fault> {
    for entry in has_mode(&[Mode::Relative]) {
        for place in 0..=0xFF {
            for offset in 0..=0xFF {
                for status in [0x00, 0xFF] {
                    let mut case = Case::new(random.state());
                    let page = if random.below(4) == 0 {
                        [0x00, 0xFF][random.below(2)]
                    } else {
                        random.any_byte()
                    };
                    case.state.counter = u16::from_le_bytes([place, page]);
                    case.state.status = status;
                    visit(filled(case, &[entry.opcode, offset], random))?;
                }
            }
        }
    }
    Ok(())
}

fn indirect_jumps<Fault>(random: &mut Random, visit: &mut Visit<Fault>) -> Result<(), Fault> {
    for entry in has_mode(&[Mode::Indirect]) {
        for page in 0..=0xFF {
            for low in [0xFE, 0xFF, 0x00] {
                for _ in 0..16 {
                    let case = Case::new(random.state());
                    visit(filled(case, &[entry.opcode, low, page], random))?;
                }
            }
        }
    }
    Ok(())
}

/// Code at every place of the stack's page, with S near it: pushes hit the code, pulls read it.
fn stack_page<Fault>(random: &mut Random, visit: &mut Visit<Fault>) -> Result<(), Fault> {
    for entry in rules::all() {
        for place in 0..=0xFF {
            for distance in 0..9 {
                // The other opcodes do not look at S: one distance is enough.
                if distance > 0 && !uses_stack(&entry) {
                    break;
                }
                let mut case = Case::new(random.state());
                case.state.counter = u16::from_le_bytes([place, 0x01]);
                case.state.stack = u8::wrapping_add(place, distance).wrapping_sub(4);
                visit(filled(case, &[entry.opcode], random))?;
            }
        }
    }
    Ok(())
}

/// A store to, or a change of, the instruction's own opcode and operands, by absolute addresses and in the zero page.
fn own_bytes<Fault>(random: &mut Random, visit: &mut Visit<Fault>) -> Result<(), Fault> {
    let stores = rules::all().filter(|entry| matches!(entry.kind, Kind::Keep | Kind::Modify));
    for entry in stores {
        for offset in 0..3 {
            for _ in 0..128 {
                let mut case = Case::new(random.state());
                if entry.mode.operand_bytes() == 1 {
                    case.state.counter &= 0x00FF;
                }
                let target = case.state.counter.wrapping_add(offset);
                let index = match entry.mode {
                    Mode::ZeroPageX | Mode::AbsoluteX => case.state.x,
                    Mode::ZeroPageY | Mode::AbsoluteY => case.state.y,
                    _ => 0,
                };
                let [low, high] = target.wrapping_sub(index.into()).to_le_bytes();
                let code = [entry.opcode, low, high];
                let length = usize::from(entry.mode.operand_bytes()) + 1;
                visit(filled(case, &code[..length], random))?;
            }
        }
    }
    Ok(())
}

/// BRK at the edges of the memory and of the stack, with every set of flags.
fn breaks<Fault>(random: &mut Random, visit: &mut Visit<Fault>) -> Result<(), Fault> {
    for counter in COUNTERS {
        for stack in STACKS {
            for status in 0..=0xFF {
                let mut case = Case::new(random.state());
                case.state.counter = counter;
                case.state.stack = stack;
                case.state.status = status;
                visit(filled(case, &[0x00], random))?;
            }
        }
    }
    Ok(())
}

/// Every place of the stack's page.
const ALL: [RangeInclusive<u16>; 1] = [0x0100..=0x01FF];

/// A JSR whose high operand byte stands at these places, with S so far above their low bytes: at 0 the first push has the
/// same low byte, at 1 the second.
fn calls<Fault>(
    places: impl IntoIterator<Item = RangeInclusive<u16>>,
    distances: &[u8],
    times: usize,
    random: &mut Random,
    visit: &mut Visit<Fault>,
) -> Result<(), Fault> {
    for place in places.into_iter().flatten() {
        for distance in distances {
            for _ in 0..times {
                let mut case = Case::new(random.state());
                case.state.counter = place.wrapping_sub(2);
                case.state.stack = (place as u8).wrapping_add(*distance);
                visit(filled(case, &[0x20], random))?;
            }
        }
    }
    Ok(())
}
