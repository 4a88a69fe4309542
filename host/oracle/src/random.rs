//! Numbers that follow from a seed (SplitMix64), and random inputs: half of their bytes and addresses are such where
//! something ends or turns over.

use crate::state::State;

const BYTES: [u8; 12] = [
    0x00, 0x01, 0x02, 0x09, 0x0A, 0x7F, 0x80, 0x81, 0x99, 0xFD, 0xFE, 0xFF,
];
const ADDRESSES: [u16; 12] = [
    0x0000, 0x0001, 0x00FE, 0x00FF, 0x0100, 0x01FE, 0x01FF, 0x0200, 0xFFFC, 0xFFFD, 0xFFFE, 0xFFFF,
];

pub struct Random(u64);

impl Random {
    #[must_use]
    pub fn new(seed: u64) -> Random {
        Random(seed)
    }

    pub fn draw(&mut self) -> u64 {
        self.0 = self.0.wrapping_add(0x9E37_79B9_7F4A_7C15);
        let mut mixed = self.0;
        mixed = (mixed ^ (mixed >> 30)).wrapping_mul(0xBF58_476D_1CE4_E5B9);
        mixed = (mixed ^ (mixed >> 27)).wrapping_mul(0x94D0_49BB_1331_11EB);
        mixed ^ (mixed >> 31)
    }

    /// A number below `limit`.
    pub fn below(&mut self, limit: usize) -> usize {
        (self.draw() % limit as u64) as usize
    }

    /// One of a list.
    pub fn one_of<T: Copy>(&mut self, list: &[T]) -> T {
        list[self.below(list.len())]
    }

    pub fn any_byte(&mut self) -> u8 {
        self.draw() as u8
    }

    pub fn byte(&mut self) -> u8 {
        let drawn = self.draw();
        if drawn & 1 == 0 {
            BYTES[(drawn >> 8) as usize % BYTES.len()]
        } else {
            (drawn >> 32) as u8
        }
    }

    pub fn address(&mut self) -> u16 {
        let drawn = self.draw();
        let any = (drawn >> 32) as u16;
        match drawn % 8 {
            0 => ADDRESSES[(drawn >> 8) as usize % ADDRESSES.len()],
            // The last and the first places of a page, the zero page, the stack's page.
            1 | 2 => (any & 0xFF00)
                .wrapping_add((drawn >> 8 & 3) as u16)
                .wrapping_sub(2),
            3 => any & 0x00FF,
            4 => any & 0x00FF | 0x0100,
            _ => any,
        }
    }

    /// A memory of random bytes.
    pub fn memory(&mut self) -> Vec<u8> {
        (0..65_536 / 8)
            .flat_map(|_| self.draw().to_le_bytes())
            .collect()
    }

    /// Bits 4 and 5 of the status are random too: the Rust may hold anything there.
    pub fn state(&mut self) -> State {
        State {
            counter: self.address(),
            accumulator: self.byte(),
            x: self.byte(),
            y: self.byte(),
            stack: self.byte(),
            status: self.any_byte(),
            cycles: 0,
        }
    }
}
