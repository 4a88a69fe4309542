//! The differences inside the domain of comparison that docs/DIFFERENCES.md lists: each told by its cause in the input, and
//! by nothing wider, with what the rules demand in place of the Rust's result.

use crate::accesses::Access;
use crate::addresses::join;
use crate::case::Case;
use crate::rules::{Kind, Mode};
use crate::state::State;

#[derive(Clone, Copy, PartialEq, Eq)]
pub enum Known {
    ModifyOverAPage,
    /// The first push of a JSR puts another byte over its high operand byte.
    FirstPush,
    /// The second one does.
    SecondPush,
}

/// What is said of each, in the order of `Known`: in the head of a column, and in a sentence.
pub const ALL: [(&str, &str); 3] = [
    (
        "8 cycles for 7",
        "ASL LSR ROL ROR INC DEC with abs,X over a page: 8 cycles in the Rust, 7 in the port",
    ),
    (
        "JSR, 1st push",
        "JSR whose first push puts another byte over its high operand byte: the Rust has read that before, the port reads it after",
    ),
    ("JSR, 2nd push", "JSR whose second push does: the same"),
];

/// The cause for which the Rust is known to end otherwise on this input, whatever the port does.
#[must_use]
pub fn cause(case: &Case) -> Option<Known> {
    let entry = case.entry()?;
    let state = &case.state;
    match (entry.kind, entry.mode) {
        (Kind::Modify, Mode::AbsoluteX) => {
            let low = case.byte(state.operand(1));
            let over_a_page = low.checked_add(state.x).is_none();
            over_a_page.then_some(Known::ModifyOverAPage)
        }
        (Kind::Call, _) => {
            let high = state.operand(2);
            let put_over = |(place, byte)| place == high && byte != case.byte(high);
            match state.pushed_by_call().map(put_over) {
                [true, _] => Some(Known::FirstPush),
                [_, true] => Some(Known::SecondPush),
                _ => None,
            }
        }
        _ => None,
    }
}

/// The state that the rules demand after a step, made of the Rust's: that one, where no cause is known. None where the
/// Rust ended neither as the rules demand nor as is listed.
#[must_use]
pub fn demanded(case: &Case, rust: &State) -> Option<State> {
    let [low, high] = [1, 2].map(|number| case.byte(case.state.operand(number)));
    let [first, second] = case.state.pushed_by_call().map(|(_, byte)| byte);
    let called = |pushed| {
        let as_listed = rust.counter == join(low, high);
        as_listed.then(|| State {
            counter: join(low, pushed),
            ..*rust
        })
    };
    match cause(case) {
        None => Some(*rust),
        Some(Known::ModifyOverAPage) => {
            let as_listed = rust.cycles.wrapping_sub(case.state.cycles) == 8;
            as_listed.then(|| State {
                cycles: case.state.cycles + 7,
                ..*rust
            })
        }
        Some(Known::FirstPush) => called(first),
        Some(Known::SecondPush) => called(second),
    }
}

/// The order in which the Rust makes the accesses of the rules: a JSR reads both operand bytes before it pushes.
pub fn in_the_rusts_order(case: &Case, accesses: &mut [Access]) {
    if case.entry().is_some_and(|entry| entry.kind == Kind::Call) {
        // The opcode and the low byte come first in both.
        accesses[2..].rotate_right(1);
    }
}
