//! The Rust's lines: the inputs of docs/DIFFERENCES.md, and what the rules have a line do.

use crate::accesses::Access::{Read, Store};
use crate::case::Case;
use crate::interrupts::{Level, Line, Lines};
use crate::recorder::Core;
use crate::state::State;
use crate::tests::STATE;

const MASKED: State = State {
    status: State::MASK,
    ..STATE
};
const IRQ: Lines = Lines {
    irq: Level::Low,
    ..Lines::IDLE
};
const NMI: Lines = Lines {
    nmi: Level::Low,
    ..Lines::IDLE
};

/// A core with these bytes at 0200; NMI leads to 3412, and IRQ to 7856.
fn core(code: &[u8]) -> Core {
    let mut case = Case::new(STATE);
    case.put_code(code);
    for (address, byte) in [
        (0xFFFA, 0x12),
        (0xFFFB, 0x34),
        (0xFFFE, 0x56),
        (0xFFFF, 0x78),
    ] {
        case.put(address, byte);
    }
    Core::new(case.memory())
}

/// What stands on the stack, the last pushed byte last.
fn stacked(core: &Core) -> Vec<u8> {
    let bytes = core.bytes()[0x0101 + usize::from(core.state().stack)..=0x01FF].iter();
    bytes.rev().copied().collect()
}

/// What a call came to: what it said, the counter, the cycles and the stack.
type Told = (bool, u16, u64, Vec<u8>);

fn call(core: &mut Core, before: &State, lines: Lines) -> Told {
    let said = core.call(before, lines);
    let State {
        counter, cycles, ..
    } = core.state();
    (said, counter, cycles, stacked(core))
}

/// Another call from where the last one ended.
fn next_call(core: &mut Core, lines: Lines) -> Told {
    let before = core.state();
    call(core, &before, lines)
}

#[test]
fn nmi_comes_first_and_irq_only_while_i_is_clear() {
    for lines in Lines::all() {
        for state in [STATE, MASKED] {
            let falls = lines.last_nmi == Level::High && lines.nmi == Level::Low;
            let due = match (falls, lines.irq, state.status) {
                (true, ..) => Some(Line::Nmi),
                (false, Level::Low, 0) => Some(Line::Irq),
                _ => None,
            };
            assert_eq!(lines.due(&state), due);
        }
    }
    assert_eq!(
        Lines::all().map(Lines::number).collect::<Vec<_>>(),
        (0..8).collect::<Vec<_>>()
    );
}

#[test]
fn a_line_is_served_through_its_vector() {
    let before = State {
        counter: 0xABCD,
        stack: 0x01,
        status: 0xFB,
        cycles: 3,
        ..STATE
    };
    for (line, goal, vector) in [(Line::Nmi, 0x3412, 0xFFFA), (Line::Irq, 0x7856, 0xFFFE)] {
        let service = line.service(&before, |address| core(&[]).bytes()[usize::from(address)]);
        assert_eq!(
            service.pushed,
            [(0x0101, 0xAB), (0x0100, 0xCD), (0x01FF, 0xEB)]
        );
        let after = State {
            counter: goal,
            stack: 0xFE,
            status: 0xFF,
            cycles: 10,
            ..before
        };
        assert_eq!(service.after, after);
        let places = [
            Store(0x0101),
            Store(0x0100),
            Store(0x01FF),
            Read(vector),
            Read(vector + 1),
        ];
        assert_eq!(line.accesses(&before), places);
    }
}

#[test]
fn the_rust_serves_after_the_instruction_and_in_no_cycles() {
    let pushed = vec![0x02, 0x01, 0x20];
    assert_eq!(
        call(&mut core(&[0xEA]), &STATE, NMI),
        (true, 0x3412, 2, pushed.clone())
    );
    assert_eq!(
        call(&mut core(&[0xEA]), &STATE, IRQ),
        (true, 0x7856, 2, pushed)
    );
    // As in the port: NMI first, an NMI that stays low is not served again, IRQ waits for I.
    let both = Lines {
        irq: Level::Low,
        ..NMI
    };
    assert_eq!(call(&mut core(&[0xEA]), &STATE, both).1, 0x3412);
    let stays = Lines {
        last_nmi: Level::Low,
        ..NMI
    };
    assert_eq!(call(&mut core(&[0xEA]), &STATE, stays).1, 0x0201);
    assert_eq!(call(&mut core(&[0xEA]), &MASKED, IRQ).1, 0x0201);
    // Whatever it keeps in bits 4 and 5, it pushes bit 4 clear and bit 5 set.
    for status in [0xCB, 0xDB, 0xEB, 0xFB] {
        let told = call(&mut core(&[0xEA]), &State { status, ..STATE }, IRQ);
        assert_eq!(told.3, [0x02, 0x01, 0xEB]);
    }
}

#[test]
fn the_rust_looks_at_i_before_the_instruction() {
    // CLI: served after one more instruction.
    let mut cleared = core(&[0x58, 0xEA]);
    assert_eq!(call(&mut cleared, &MASKED, IRQ), (true, 0x0201, 2, vec![]));
    assert_eq!(
        next_call(&mut cleared, IRQ),
        (true, 0x7856, 4, vec![0x02, 0x02, 0x20])
    );
    // SEI: served all the same, and I is set in what is pushed.
    let told = call(&mut core(&[0x78]), &STATE, IRQ);
    assert_eq!(told, (true, 0x7856, 2, vec![0x02, 0x01, 0x24]));
    // BRK: served before the first instruction at its goal.
    let told = call(&mut core(&[0x00]), &STATE, IRQ);
    assert_eq!(
        told,
        (true, 0x7856, 7, vec![0x02, 0x02, 0x30, 0x78, 0x56, 0x24])
    );
}

#[test]
fn the_rust_serves_and_records_where_it_makes_no_step() {
    let told = call(&mut core(&[0x93]), &STATE, NMI);
    assert_eq!(told, (false, 0x3412, 1, vec![0x02, 0x00, 0x20]));
    let mut core = core(&[0x93]);
    let rises = Lines {
        last_nmi: Level::Low,
        ..Lines::IDLE
    };
    assert_eq!(call(&mut core, &STATE, rises), (false, 0x0200, 1, vec![]));
    // It has seen it high.
    assert_eq!(
        next_call(&mut core, NMI),
        (false, 0x3412, 2, vec![0x02, 0x00, 0x20])
    );
}

#[test]
fn the_rust_is_woken_in_the_call_that_halts_it_and_in_no_later_one() {
    let told = call(&mut core(&[0x02]), &STATE, NMI);
    assert_eq!(told, (true, 0x3412, 2, vec![0x02, 0x01, 0x20]));
    let mut core = core(&[0x02]);
    assert_eq!(
        call(&mut core, &STATE, Lines::IDLE),
        (true, 0x0201, 2, vec![])
    );
    assert_eq!(next_call(&mut core, NMI), (false, 0x0201, 3, vec![]));
}

#[test]
fn the_rusts_run_does_not_look_at_the_lines() {
    let both = Lines {
        irq: Level::Low,
        ..NMI
    };
    let mut core = core(&[0xEA, 0x93]);
    core.run(&STATE, both);
    let State {
        counter, cycles, ..
    } = core.state();
    assert_eq!((counter, cycles, stacked(&core)), (0x0201, 2, vec![]));
}

#[test]
fn the_last_level_is_shown_without_a_trace() {
    let mut core = core(&[0xEA]);
    let before = core.bytes().to_vec();
    let stays = Lines {
        last_nmi: Level::Low,
        ..NMI
    };
    for (lines, counter) in [
        (stays, 0x0201),
        (NMI, 0x3412),
        (stays, 0x0201),
        (Lines::IDLE, 0x0201),
    ] {
        assert_eq!(call(&mut core, &STATE, lines).1, counter);
        core.undo();
        assert!(core.bytes() == before);
    }
}
