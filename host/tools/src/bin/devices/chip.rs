//! The device that both cores are given.

use saxundeer::devices::Device;
use saxundeer::{Level, Lines};

#[derive(Clone, Copy, Debug, PartialEq, Eq)]
pub enum Call {
    Get(u16),
    Set(u16, u8),
}

/// It gives opcodes, so that a program may also run in it, and records its calls. What it gives follows from the number of bytes
/// that it gave, and where it pulls the lines, if it moves them, from the number of its calls. Those in the stack's page are not
/// among these: there it would move a line with most that are served.
#[derive(Clone)]
pub struct Chip<'a> {
    opcodes: &'a [u8],
    pub moves: bool,
    given: usize,
    counted: usize,
    pub calls: Vec<Call>,
    /// The next store is not recorded.
    pub is_deaf: bool,
}

impl<'a> Chip<'a> {
    /// One that was not called yet.
    pub fn new(opcodes: &'a [u8], moves: bool) -> Chip<'a> {
        Chip {
            opcodes,
            moves,
            given: 0,
            counted: 0,
            calls: Vec::new(),
            is_deaf: false,
        }
    }

    fn count(&mut self, address: u16) {
        self.counted += usize::from(address >> 8 != 0x01);
    }
}

impl Device for Chip<'_> {
    fn get_byte(&mut self, address: u16) -> u8 {
        self.count(address);
        self.calls.push(Call::Get(address));
        self.given += 1;
        self.opcodes[self.given * 7 % self.opcodes.len()]
    }

    fn set_byte(&mut self, address: u16, value: u8) {
        self.count(address);
        if !self.is_deaf {
            self.calls.push(Call::Set(address, value));
        }
        self.is_deaf = false;
    }

    fn lines(&self) -> Lines {
        let level = |is_low| if is_low { Level::Low } else { Level::High };
        Lines {
            irq: level(self.moves && self.counted % 16 >= 12),
            nmi: level(self.moves && self.counted % 11 >= 9),
        }
    }
}

/// The levels to which some devices pull the lines.
pub fn levels_of(chips: &[Chip<'_>]) -> Lines {
    let levels = chips.iter().map(Device::lines);
    levels.fold(Lines::IDLE, Lines::wired_with)
}

/// How often each of them was called.
pub fn counts_of(chips: &[Chip<'_>]) -> Vec<usize> {
    chips.iter().map(|chip| chip.calls.len()).collect()
}

/// The calls of each from one count to another.
pub fn between<'c>(chips: &'c [Chip<'_>], from: &[usize], to: &[usize]) -> Vec<&'c [Call]> {
    let counts = from.iter().zip(to);
    let each = chips.iter().zip(counts);
    each.map(|(chip, (from, to))| &chip.calls[*from..*to])
        .collect()
}

/// The calls as the crate makes them where the 6502 stores before it reads: what is asked comes first.
pub fn asked_first(calls: &[Call]) -> Vec<Call> {
    let (mut gets, sets): (Vec<_>, Vec<_>) =
        calls.iter().partition(|call| matches!(call, Call::Get(_)));
    gets.extend(sets);
    gets
}

/// Whether an address is asked twice.
pub fn is_asked_twice(calls: &[Call]) -> bool {
    (1..calls.len())
        .any(|place| matches!(calls[place], Call::Get(_)) && calls[..place].contains(&calls[place]))
}

/// That the port's devices were called as the Rust's; the first call that differs.
pub fn same_calls<'c>(
    rust: impl IntoIterator<Item = &'c [Call]>,
    port: &[&[Call]],
) -> Result<(), String> {
    for (number, (rust, port)) in rust.into_iter().zip(port).enumerate() {
        let longer = rust.len().max(port.len());
        if let Some(place) = (0..longer).find(|place| rust.get(*place) != port.get(*place)) {
            return Err(format!(
                "device {number}, call {place}: the Rust {:02X?}, the port {:02X?}",
                rust.get(place),
                port.get(place)
            ));
        }
    }
    Ok(())
}
