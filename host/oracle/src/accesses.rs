//! The list of docs/RULES.md of the bytes that a step reads, written out from the rules alone, and the stores, of its
//! sections on addresses and on flags.

use crate::rules::{Entry, Kind};
use crate::state::State;

use Access::{Read, Store};

#[derive(Clone, Copy, Debug, PartialEq, Eq)]
pub enum Access {
    Read(u16),
    Store(u16),
}

impl Entry {
    /// Everything that the step reads and stores, in order.
    pub fn accesses(self, state: &State, byte: impl Fn(u16) -> u8, list: &mut Vec<Access>) {
        list.clear();
        list.push(Read(state.counter));
        let operands = (1..=self.mode.operand_bytes()).map(|number| Read(state.operand(number)));
        list.extend(operands);
        let aim = self.aim(state, byte);
        let pointer = aim.as_ref().and_then(|aim| aim.pointer);
        list.extend(pointer.into_iter().flatten().map(Read));
        let target = aim.map(|aim| aim.address);
        let pushes =
            |count: u8| (0..count).map(|place| Store(state.in_stack(0u8.wrapping_sub(place))));
        match self.kind {
            Kind::Load => list.extend(target.map(Read)),
            Kind::Keep => list.extend(target.map(Store)),
            Kind::Modify => list.extend(
                target
                    .into_iter()
                    .flat_map(|target| [Read(target), Store(target)]),
            ),
            Kind::Branch | Kind::Jump | Kind::Inside => {}
            Kind::Push => list.extend(pushes(1)),
            // P5: its last operand byte is read after the pushes.
            Kind::Call => {
                let high = list.pop();
                list.extend(pushes(2));
                list.extend(high);
            }
            Kind::Pull(count) => list.extend((1..=count).map(|place| Read(state.in_stack(place)))),
            Kind::Break => {
                list.extend(pushes(3));
                list.extend([Read(0xFFFE), Read(0xFFFF)]);
            }
        }
    }
}
