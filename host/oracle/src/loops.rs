//! The programs whose rate is measured: three loops, and one that touches a device now and then. Each runs for ever, starts at
//! `START` and keeps changing memory, so that a wrong step shows in the end state.
//!
//! No shift, rotate, INC or DEC is indexed by X over a page: there the Rust counts a cycle more than the manual.

use crate::state::State;

pub const START: State = State {
    counter: 0x0200,
    accumulator: 0,
    x: 0,
    y: 0,
    stack: 0xFF,
    // Only I is set.
    status: 0x04,
    cycles: 0,
};

/// The state with which the program report starts an image: that one, but for the counter.
#[must_use]
pub fn start_of(image: &[u8]) -> State {
    State {
        counter: u16::from_le_bytes([image[0xFFFC], image[0xFFFD]]),
        ..START
    }
}

pub struct Loop {
    pub name: &'static str,
    pub image: Vec<u8>,
}

pub fn all() -> [Loop; 3] {
    [
        Loop {
            name: "memory copy",
            image: memory_copy(),
        },
        Loop {
            name: "decimal sums",
            image: decimal_sums(),
        },
        Loop {
            name: "nested calls",
            image: nested_calls(),
        },
    ]
}

/// Where the device stands that the program of `touching` touches.
pub const DEVICE: u16 = 0xD000;

/// The program that touches a device at every hundredth step, in turn to read a byte and to store one.
#[must_use]
pub fn touching() -> Loop {
    Loop {
        name: "a device",
        image: hundred_and_hundred(),
    }
}

fn image_of(code: &[u8]) -> Vec<u8> {
    let mut image = vec![0; 65_536];
    let start = usize::from(START.counter);
    image[start..start + code.len()].copy_from_slice(code);
    // The reset vector, so that the image also runs where a program starts by it.
    image[0xFFFC..0xFFFE].copy_from_slice(&START.counter.to_le_bytes());
    image
}

/// 64 pages from 20ss to 6000, ss one higher each round: the target keeps changing, and more and more reads cross a
/// page.
fn memory_copy() -> Vec<u8> {
    let mut image = image_of(&[
        0xA9, 0x20, //       0200 round LDA #$20
        0x85, 0x11, //       0202       STA $11     the source's page; its low byte is ss
        0xA9, 0x60, //       0204       LDA #$60
        0x85, 0x13, //       0206       STA $13     the target's page; its low byte stays 0
        0xA2, 0x40, //       0208       LDX #$40
        0xA0, 0x00, //       020A page  LDY #$00
        0xB1, 0x10, //       020C byte  LDA ($10),Y
        0x91, 0x12, //       020E       STA ($12),Y
        0xC8, //             0210       INY
        0xD0, 0xF9, //       0211       BNE byte
        0xE6, 0x11, //       0213       INC $11
        0xE6, 0x13, //       0215       INC $13
        0xCA, //             0217       DEX
        0xD0, 0xF0, //       0218       BNE page
        0xE6, 0x10, //       021A       INC $10     ss
        0x4C, 0x00, 0x02, // 021C       JMP round
    ]);
    for (address, byte) in (0x2000_usize..0x6000).zip(&mut image[0x2000..]) {
        *byte = (address * 7 + address / 256 * 13) as u8;
    }
    image
}

/// A number of 512 digits, lowest first, is added to another for ever; after each addition its pairs of digits are
/// summed up. Half of the reads cross a page.
fn decimal_sums() -> Vec<u8> {
    let mut image = image_of(&[
        0xF8, //             0200 round SED
        0x18, //             0201       CLC
        0xA2, 0x00, //       0202       LDX #$00
        0xBD, 0x80, 0x30, // 0204 add   LDA $3080,X
        0x7D, 0x80, 0x31, // 0207       ADC $3180,X
        0x9D, 0x80, 0x30, // 020A       STA $3080,X
        0xE8, //             020D       INX
        0xD0, 0xF4, //       020E       BNE add
        0x18, //             0210       CLC
        0xA9, 0x00, //       0211       LDA #$00
        0x7D, 0x80, 0x30, // 0213 total ADC $3080,X
        0xE8, //             0216       INX
        0xD0, 0xFA, //       0217       BNE total
        0x85, 0x20, //       0219       STA $20
        0x4C, 0x00, 0x02, // 021B       JMP round
    ]);
    for index in 0..256 {
        image[0x3080 + index] = two_digits(index * 53 + 7);
        image[0x3180 + index] = two_digits(index * 37 + 11);
    }
    image
}

fn two_digits(number: usize) -> u8 {
    (number / 10 % 10 * 16 + number % 10) as u8
}

/// Calls three deep, each level but the lowest calling the next one twice, with the accumulator kept on the stack.
fn nested_calls() -> Vec<u8> {
    image_of(&[
        0xA2, 0x00, //       0200 round LDX #$00
        0x8A, //             0202 again TXA
        0x20, 0x0C, 0x02, // 0203       JSR one
        0xE8, //             0206       INX
        0xD0, 0xF9, //       0207       BNE again
        0x4C, 0x00, 0x02, // 0209       JMP round
        0x48, //             020C one   PHA
        0x20, 0x15, 0x02, // 020D       JSR two
        0x20, 0x15, 0x02, // 0210       JSR two
        0x68, //             0213       PLA
        0x60, //             0214       RTS
        0x48, //             0215 two   PHA
        0x20, 0x1E, 0x02, // 0216       JSR three
        0x20, 0x1E, 0x02, // 0219       JSR three
        0x68, //             021C       PLA
        0x60, //             021D       RTS
        0x48, //             021E three PHA
        0x18, //             021F       CLC
        0x65, 0x20, //       0220       ADC $20
        0x85, 0x20, //       0222       STA $20
        0x68, //             0224       PLA
        0x60, //             0225       RTS
    ])
}

/// The bytes of one table are added to another's, and back by an exclusive or: a hundred steps each, the 97th of them at the device.
/// It goes on with what it read there, so that a byte that is lost shows.
fn hundred_and_hundred() -> Vec<u8> {
    let mut image = image_of(&[
        0xA2, 0x13, //       0200 round LDX #$13
        0xBD, 0x00, 0x30, // 0202 add   LDA $3000,X
        0x7D, 0x80, 0x30, // 0205       ADC $3080,X
        0x9D, 0x00, 0x30, // 0208       STA $3000,X
        0xCA, //             020B       DEX
        0xD0, 0xF4, //       020C       BNE add
        0xAD, 0x00, 0xD0, // 020E       LDA $D000   the device
        0x65, 0x20, //       0211       ADC $20
        0x85, 0x20, //       0213       STA $20
        0x8D, 0x90, 0x30, // 0215       STA $3090
        0xA2, 0x13, //       0218       LDX #$13
        0xBD, 0x80, 0x30, // 021A mix   LDA $3080,X
        0x5D, 0x00, 0x30, // 021D       EOR $3000,X
        0x9D, 0x80, 0x30, // 0220       STA $3080,X
        0xCA, //             0223       DEX
        0xD0, 0xF4, //       0224       BNE mix
        0x8D, 0x00, 0xD0, // 0226       STA $D000   the device
        0xE6, 0x21, //       0229       INC $21
        0x18, //             022B       CLC
        0x4C, 0x00, 0x02, // 022C       JMP round
    ]);
    for index in 0..0x14 {
        image[0x3000 + index] = (index * 53 + 7) as u8;
        image[0x3080 + index] = (index * 37 + 11) as u8;
    }
    image
}
