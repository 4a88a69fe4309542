//! Has the program list show every opcode, and compares its lines with the names and modes of the Rust of docs/src.

use std::fs::{self, File};
use std::process::{Command, ExitCode};

use oracle::mos6502::Variant;
use oracle::mos6502::instruction::{AddressingMode, Nmos6502};
use oracle::rules;

const IMAGE: &str = "target/host/opcodes.img";
/// The two bytes after each opcode. None of them is an opcode, so that each opcode begins a line.
const PAIRS: [(u8, u8); 2] = [(0x34, 0x12), (0xF4, 0x92)];

/// The operand of an instruction at an address, as the manual writes it.
fn operand(mode: AddressingMode, at: u16, low: u8, high: u8) -> String {
    match mode {
        AddressingMode::Accumulator => " A".to_string(),
        AddressingMode::Implied => String::new(),
        AddressingMode::Immediate => format!(" #${low:02X}"),
        AddressingMode::ZeroPage => format!(" ${low:02X}"),
        AddressingMode::ZeroPageX => format!(" ${low:02X},X"),
        AddressingMode::ZeroPageY => format!(" ${low:02X},Y"),
        AddressingMode::Relative => {
            let offset = i16::from(low.cast_signed());
            format!(" ${:04X}", at.wrapping_add(2).wrapping_add_signed(offset))
        }
        AddressingMode::Absolute => format!(" ${high:02X}{low:02X}"),
        AddressingMode::AbsoluteX => format!(" ${high:02X}{low:02X},X"),
        AddressingMode::AbsoluteY => format!(" ${high:02X}{low:02X},Y"),
        AddressingMode::BuggyIndirect => format!(" (${high:02X}{low:02X})"),
        AddressingMode::IndexedIndirectX => format!(" (${low:02X},X)"),
        AddressingMode::IndirectIndexedY => format!(" (${low:02X}),Y"),
        other => panic!("the NMOS 6502 has no mode {other:?}"),
    }
}

/// The lines of one opcode and the two bytes after it.
fn lines(opcode: u8, low: u8, high: u8) -> String {
    let at = 3 * u16::from(opcode);
    let bytes = [opcode, low, high];
    let mut text = String::new();
    let mut shown = 0;
    // The Rust decodes some bytes that are no documented opcodes.
    if rules::entry(opcode).is_some()
        && let Some((instruction, mode)) = Nmos6502::decode(opcode)
    {
        shown = 1 + usize::from(mode.extra_bytes());
        let hex: Vec<String> = bytes[..shown]
            .iter()
            .map(|byte| format!("{byte:02X}"))
            .collect();
        text += &format!(
            "{at:04X} {} {instruction:?}{}\n",
            hex.join(" "),
            operand(mode, at, low, high)
        );
    }
    for (place, byte) in (at..).zip(bytes).skip(shown) {
        text += &format!("{place:04X} {byte:02X} ???\n");
    }
    text
}

fn main() -> ExitCode {
    let plant = std::env::args().any(|argument| argument == "--plant");
    let mut equal = 0;
    for (low, high) in PAIRS {
        let mut image: Vec<u8> = (0..=255).flat_map(|opcode| [opcode, low, high]).collect();
        let mut expected: String = (0..=255).map(|opcode| lines(opcode, low, high)).collect();
        if plant {
            expected = expected.replacen("LDX", "LDY", 1);
        }
        image.resize(65536, 0);
        fs::write(IMAGE, image).expect("the image is written");
        let listed = Command::new("./run")
            .args(["list", "0000", "02FF"])
            .stdin(File::open(IMAGE).expect("the image is there"))
            .output()
            .expect("run starts");
        if !listed.status.success() {
            println!("./run list: {}", listed.status);
            return ExitCode::from(1);
        }
        let listed = String::from_utf8_lossy(&listed.stdout).into_owned();
        for (rust, port) in expected.lines().zip(listed.lines()) {
            if rust != port {
                println!("differ\n  the Rust: {rust}\n  list:     {port}");
                return ExitCode::from(1);
            }
            equal += 1;
        }
        if expected != listed {
            println!(
                "differ: {} lines by the Rust, {} by list",
                expected.lines().count(),
                listed.lines().count()
            );
            return ExitCode::from(1);
        }
    }
    println!("256 opcodes, each with 2 pairs of operand bytes: {equal} lines are equal");
    ExitCode::SUCCESS
}
