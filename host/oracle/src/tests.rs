//! The rules' lists, the listed differences and the inputs.

use crate::accesses::Access::{self, Read, Store};
use crate::case::Case;
use crate::known::{self, Known};
use crate::random::Random;
use crate::recorder::Core;
use crate::rules;
use crate::state::State;

pub(crate) const STATE: State = State {
    counter: 0x0200,
    accumulator: 0,
    x: 0,
    y: 0,
    stack: 0xFF,
    status: 0,
    cycles: 0,
};

fn case(counter: u16, code: &[u8]) -> Case {
    let mut case = Case::new(State { counter, ..STATE });
    case.put_code(code);
    case
}

fn listed(case: &Case) -> Vec<Access> {
    let entry = case.entry().expect("an opcode");
    let mut list = Vec::new();
    entry.accesses(&case.state, |address| case.byte(address), &mut list);
    list
}

#[test]
fn the_rules_have_151_opcodes() {
    assert_eq!(rules::all().count(), 151);
}

#[test]
fn an_indirect_jump_stays_in_its_page() {
    let case = case(0x0200, &[0x6C, 0xFF, 0x10]);
    let places = [0x0200, 0x0201, 0x0202, 0x10FF, 0x1000];
    assert_eq!(listed(&case), places.map(Read));
}

#[test]
fn a_pointer_at_ff_turns_over() {
    let mut case = case(0x0200, &[0xB1, 0xFF]);
    case.put(0x00FF, 0x34);
    case.put(0x0000, 0x12);
    let places = [0x0200, 0x0201, 0x00FF, 0x0000, 0x1234];
    assert_eq!(listed(&case), places.map(Read));
}

#[test]
fn operands_turn_over_and_a_store_does_not_read() {
    let case = case(0xFFFE, &[0x8D, 0x34, 0x12]);
    let expected = [Read(0xFFFE), Read(0xFFFF), Read(0x0000), Store(0x1234)];
    assert_eq!(listed(&case), expected);
}

#[test]
fn a_break_pushes_and_then_reads_its_vector() {
    let mut case = case(0x0200, &[0x00]);
    case.state.stack = 0x01;
    let expected = [
        Read(0x0200),
        Store(0x0101),
        Store(0x0100),
        Store(0x01FF),
        Read(0xFFFE),
        Read(0xFFFF),
    ];
    assert_eq!(listed(&case), expected);
}

#[test]
fn a_call_reads_its_high_operand_byte_after_its_pushes() {
    let case = case(0x0200, &[0x20, 0x34, 0x12]);
    let expected = [
        Read(0x0200),
        Read(0x0201),
        Store(0x01FF),
        Store(0x01FE),
        Read(0x0202),
    ];
    assert_eq!(listed(&case), expected);
}

/// Where the rules have the step of a case lead, and what they have it put out first.
fn aimed(case: &Case) -> Option<(u16, u16)> {
    let entry = case.entry().expect("an opcode");
    let aim = entry.aim(&case.state, |address| case.byte(address));
    aim.map(|aim| (aim.address, aim.first))
}

#[test]
fn an_index_that_carries_puts_out_the_base_s_page_first() {
    let mut absolute = case(0x0200, &[0xBD, 0xF0, 0xFF]);
    absolute.state.x = 0x20;
    assert_eq!(aimed(&absolute), Some((0x0010, 0xFF10)));
    absolute.state.x = 0x0F;
    assert_eq!(aimed(&absolute), Some((0xFFFF, 0xFFFF)));
    let mut pointed = case(0x0200, &[0x91, 0xFF]);
    pointed.put(0x00FF, 0xF0);
    pointed.put(0x0000, 0x10);
    pointed.state.y = 0x20;
    assert_eq!(aimed(&pointed), Some((0x1110, 0x1010)));
    let mut zero_page = case(0x0200, &[0xB5, 0xF0]);
    zero_page.state.x = 0x20;
    assert_eq!(aimed(&zero_page), Some((0x0010, 0x0010)));
    for code in [[0xA9, 0x05], [0xD0, 0x05], [0x0A, 0x05], [0x00, 0x05]] {
        assert_eq!(aimed(&case(0x0200, &code)), None);
    }
}

/// The inputs of docs/DIFFERENCES.md and of docs/RULES.md: the place, the operand and S; the cause; where the Rust goes and
/// where the rules lead.
#[test]
fn a_call_that_overwrites_itself_is_known_by_its_cause() {
    for (counter, operand, stack, known, rust, rules) in [
        (
            0x01FD,
            [0x00, 0x00],
            0xFF,
            Some(Known::FirstPush),
            0x0000,
            0x0100,
        ),
        (
            0x01FC,
            [0x00, 0x00],
            0xFF,
            Some(Known::SecondPush),
            0x0000,
            0xFE00,
        ),
        (
            0x017B,
            [0x55, 0x13],
            0x7D,
            Some(Known::FirstPush),
            0x1355,
            0x0155,
        ),
        // The pushed byte stands there already; the pushes land beside it; they land on the opcode and the low byte.
        (0x01FD, [0x00, 0x01], 0xFF, None, 0x0100, 0x0100),
        (0x017B, [0x55, 0x13], 0x7F, None, 0x1355, 0x1355),
        (0x017B, [0x55, 0x13], 0x7C, None, 0x1355, 0x1355),
        // The same low byte in another page.
        (0x027B, [0x55, 0x13], 0x7D, None, 0x1355, 0x1355),
    ] {
        let [low, high] = operand;
        let mut case = case(counter, &[0x20, low, high]);
        case.state.stack = stack;
        assert!(known::cause(&case) == known);
        let after = Core::new(case.memory()).step(&case.state).expect("a step");
        assert_eq!(after.counter, rust);
        let demanded = known::demanded(&case, &after).expect("as is listed");
        assert_eq!(
            demanded,
            State {
                counter: rules,
                ..after
            }
        );
        assert_eq!(aimed(&case), Some((rules, rules)));
    }
}

#[test]
fn no_step_has_more_than_five_reads_and_three_stores() {
    let mut random = Random::new(1);
    for entry in rules::all() {
        for _ in 0..100 {
            let list = listed(&Case::random(entry, &mut random));
            let stores = list
                .iter()
                .filter(|access| matches!(access, Store(_)))
                .count();
            assert!(stores <= 3 && list.len() - stores <= 5);
        }
    }
}

#[test]
fn a_case_steps_alike_on_its_own_bytes_and_on_more() {
    let mut random = Random::new(2);
    for entry in rules::all() {
        let mut case = Case::random(entry, &mut random);
        let smallest = case.smallest();
        case.put(0x5555, 0xAA);
        let [all, few] = [&case, &smallest].map(|case| Core::new(case.memory()).step(&case.state));
        assert_eq!(all, few);
    }
}

#[test]
fn the_same_seed_gives_the_same_numbers() {
    let [first, second] = [7, 7].map(|seed| Random::new(seed).draw());
    assert_eq!(first, second);
    assert_ne!(first, Random::new(8).draw());
}
