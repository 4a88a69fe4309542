//! The opcode table of docs/RULES.md, written out from the rules alone.

use std::sync::LazyLock;

#[derive(Clone, Copy, PartialEq, Eq)]
pub enum Mode {
    /// Implied or accumulator.
    None,
    Immediate,
    ZeroPage,
    ZeroPageX,
    ZeroPageY,
    Relative,
    Absolute,
    AbsoluteX,
    AbsoluteY,
    Indirect,
    IndexedIndirect,
    IndirectIndexed,
}

#[derive(Clone, Copy, PartialEq, Eq)]
pub enum Kind {
    /// Reads its target.
    Load,
    /// Stores to its target.
    Keep,
    /// Reads its target and stores to it.
    Modify,
    Branch,
    Jump,
    Call,
    Push,
    /// So many bytes are pulled.
    Pull(u8),
    Break,
    /// Works on registers and flags only.
    Inside,
}

#[derive(Clone, Copy)]
pub struct Entry {
    pub opcode: u8,
    pub kind: Kind,
    pub mode: Mode,
}

/// The eight columns of the first rows.
const COLUMNS: [(Mode, u8); 8] = [
    (Mode::Immediate, 0x09),
    (Mode::ZeroPage, 0x05),
    (Mode::ZeroPageX, 0x15),
    (Mode::Absolute, 0x0D),
    (Mode::AbsoluteX, 0x1D),
    (Mode::AbsoluteY, 0x19),
    (Mode::IndexedIndirect, 0x01),
    (Mode::IndirectIndexed, 0x11),
];

/// The columns of the shifts.
const SHIFTS: [(Mode, u8); 5] = [
    (Mode::None, 0x0A),
    (Mode::ZeroPage, 0x06),
    (Mode::ZeroPageX, 0x16),
    (Mode::Absolute, 0x0E),
    (Mode::AbsoluteX, 0x1E),
];

/// The entries that the rules list one by one.
const SINGLE: [(Kind, Mode, &[u8]); 24] = [
    // DEC, INC
    (Kind::Modify, Mode::ZeroPage, &[0xC6, 0xE6]),
    (Kind::Modify, Mode::ZeroPageX, &[0xD6, 0xF6]),
    (Kind::Modify, Mode::Absolute, &[0xCE, 0xEE]),
    (Kind::Modify, Mode::AbsoluteX, &[0xDE, 0xFE]),
    // LDX, LDY, CPX, CPY, BIT
    (Kind::Load, Mode::Immediate, &[0xA2, 0xA0, 0xE0, 0xC0]),
    (Kind::Load, Mode::ZeroPage, &[0xA6, 0xA4, 0xE4, 0xC4, 0x24]),
    (Kind::Load, Mode::Absolute, &[0xAE, 0xAC, 0xEC, 0xCC, 0x2C]),
    (Kind::Load, Mode::ZeroPageX, &[0xB4]),
    (Kind::Load, Mode::ZeroPageY, &[0xB6]),
    (Kind::Load, Mode::AbsoluteX, &[0xBC]),
    (Kind::Load, Mode::AbsoluteY, &[0xBE]),
    // STX, STY
    (Kind::Keep, Mode::ZeroPage, &[0x86, 0x84]),
    (Kind::Keep, Mode::ZeroPageY, &[0x96]),
    (Kind::Keep, Mode::ZeroPageX, &[0x94]),
    (Kind::Keep, Mode::Absolute, &[0x8E, 0x8C]),
    // JMP, JSR, the branches
    (Kind::Jump, Mode::Absolute, &[0x4C]),
    (Kind::Jump, Mode::Indirect, &[0x6C]),
    (Kind::Call, Mode::Absolute, &[0x20]),
    (
        Kind::Branch,
        Mode::Relative,
        &[0x10, 0x30, 0x50, 0x70, 0x90, 0xB0, 0xD0, 0xF0],
    ),
    // BRK, PHP and PHA, PLP and PLA, RTS
    (Kind::Break, Mode::None, &[0x00]),
    (Kind::Push, Mode::None, &[0x08, 0x48]),
    (Kind::Pull(1), Mode::None, &[0x28, 0x68]),
    (Kind::Pull(2), Mode::None, &[0x60]),
    (Kind::Pull(3), Mode::None, &[0x40]),
];

/// DEY TAY INY INX CLC SEC CLI SEI TYA CLV CLD SED TXA TXS TAX TSX DEX NOP.
const INSIDE: [u8; 18] = [
    0x88, 0xA8, 0xC8, 0xE8, 0x18, 0x38, 0x58, 0x78, 0x98, 0xB8, 0xD8, 0xF8, 0x8A, 0x9A, 0xAA, 0xBA,
    0xCA, 0xEA,
];

fn entries() -> Vec<Entry> {
    let mut entries = Vec::new();
    let mut add = |kind, mode, opcode| entries.push(Entry { opcode, kind, mode });
    for (mode, opcode) in COLUMNS {
        // ORA, AND, EOR, ADC, LDA, CMP, SBC; then STA, which has no immediate form.
        for row in [0x00, 0x20, 0x40, 0x60, 0xA0, 0xC0, 0xE0] {
            add(Kind::Load, mode, opcode + row);
        }
        if mode != Mode::Immediate {
            add(Kind::Keep, mode, opcode + 0x80);
        }
    }
    for (mode, opcode) in SHIFTS {
        // ASL, ROL, LSR, ROR; on the accumulator nothing is read.
        for row in [0x00, 0x20, 0x40, 0x60] {
            let kind = if mode == Mode::None {
                Kind::Inside
            } else {
                Kind::Modify
            };
            add(kind, mode, opcode + row);
        }
    }
    for (kind, mode, opcodes) in SINGLE {
        opcodes.iter().for_each(|opcode| add(kind, mode, *opcode));
    }
    INSIDE
        .iter()
        .for_each(|opcode| add(Kind::Inside, Mode::None, *opcode));
    entries
}

static TABLE: LazyLock<[Option<Entry>; 256]> = LazyLock::new(|| {
    let mut table = [None; 256];
    for entry in entries() {
        let place = &mut table[usize::from(entry.opcode)];
        assert!(place.is_none(), "the rules have {:02X} twice", entry.opcode);
        *place = Some(entry);
    }
    table
});

/// What the rules say of a byte: nothing if it is not among the 151.
#[must_use]
pub fn entry(opcode: u8) -> Option<Entry> {
    TABLE[usize::from(opcode)]
}

/// The 151, by opcode.
pub fn all() -> impl Iterator<Item = Entry> {
    TABLE.iter().flatten().copied()
}

/// Their opcodes.
#[must_use]
pub fn opcodes() -> Vec<u8> {
    all().map(|entry| entry.opcode).collect()
}

impl Mode {
    #[must_use]
    pub fn operand_bytes(self) -> u16 {
        match self {
            Mode::None => 0,
            Mode::Absolute | Mode::AbsoluteX | Mode::AbsoluteY | Mode::Indirect => 2,
            _ => 1,
        }
    }
}
