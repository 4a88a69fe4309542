//! The section of docs/RULES.md on addresses, and its P8, written out from the rules alone.

use crate::rules::{Entry, Kind, Mode};
use crate::state::State;

pub fn join(low: u8, high: u8) -> u16 {
    u16::from_le_bytes([low, high])
}

/// The two places of a pointer, both in one page.
fn pointer(low: u8, page: u8) -> [u16; 2] {
    [join(low, page), join(low.wrapping_add(1), page)]
}

/// Where a mode that has an address leads.
pub struct Aim {
    /// The places of the pointer's bytes, where there is one.
    pub pointer: Option<[u16; 2]>,
    pub address: u16,
    /// What the part puts out first: with an index, before the carry has reached the high byte.
    pub first: u16,
}

impl Aim {
    fn plain(address: u16) -> Aim {
        Aim {
            pointer: None,
            address,
            first: address,
        }
    }

    fn indexed(base: u16, index: u8) -> Aim {
        let [low, page] = base.to_le_bytes();
        Aim {
            pointer: None,
            address: base.wrapping_add(index.into()),
            first: join(low.wrapping_add(index), page),
        }
    }

    fn through(self, pointer: [u16; 2]) -> Aim {
        Aim {
            pointer: Some(pointer),
            ..self
        }
    }
}

impl State {
    /// The address of an operand byte, from 1 on.
    pub fn operand(&self, number: u16) -> u16 {
        self.counter.wrapping_add(number)
    }

    /// The place in the stack's page so far from the stack pointer.
    pub fn in_stack(&self, offset: u8) -> u16 {
        join(self.stack.wrapping_add(offset), 0x01)
    }

    /// What a JSR pushes, place and byte: the address of its last byte, the high byte first.
    pub fn pushed_by_call(&self) -> [(u16, u8); 2] {
        let [low, high] = self.operand(2).to_le_bytes();
        [(self.in_stack(0), high), (self.in_stack(0xFF), low)]
    }
}

impl Entry {
    /// Where the step leads; nowhere for the implied, accumulator, immediate and relative forms.
    pub fn aim(self, state: &State, byte: impl Fn(u16) -> u8) -> Option<Aim> {
        let first = || byte(state.operand(1));
        let absolute = || join(first(), byte(state.operand(2)));
        let pointed = |[low, high]: [u16; 2]| join(byte(low), byte(high));
        Some(match self.mode {
            Mode::None | Mode::Immediate | Mode::Relative => return None,
            Mode::ZeroPage => Aim::plain(join(first(), 0)),
            Mode::ZeroPageX => Aim::plain(join(first().wrapping_add(state.x), 0)),
            Mode::ZeroPageY => Aim::plain(join(first().wrapping_add(state.y), 0)),
            // P5: the high byte is read after the pushes, one of which may have put another there.
            Mode::Absolute if self.kind == Kind::Call => {
                let place = state.operand(2);
                let pushed = state.pushed_by_call().into_iter();
                let pushed = pushed.filter(|(address, _)| *address == place).last();
                let high = pushed.map_or_else(|| byte(place), |(_, byte)| byte);
                Aim::plain(join(first(), high))
            }
            Mode::Absolute => Aim::plain(absolute()),
            Mode::AbsoluteX => Aim::indexed(absolute(), state.x),
            Mode::AbsoluteY => Aim::indexed(absolute(), state.y),
            Mode::Indirect => {
                let places = pointer(first(), byte(state.operand(2)));
                Aim::plain(pointed(places)).through(places)
            }
            Mode::IndexedIndirect => {
                let places = pointer(first().wrapping_add(state.x), 0);
                Aim::plain(pointed(places)).through(places)
            }
            Mode::IndirectIndexed => {
                let places = pointer(first(), 0);
                Aim::indexed(pointed(places), state.y).through(places)
            }
        })
    }
}
