//! An input for each thing in which the package is another than mos6502: what comes of it, a line each.

use mos6502::cpu::CPU;
use mos6502::instruction::Nmos6502;
use mos6502::memory::{Bus, Memory};
use mos6502::registers::{StackPointer, Status};

/// A memory with lines, which writes down its calls.
struct Lined {
    bytes: Vec<u8>,
    calls: Vec<String>,
    nmi: bool,
    irq: bool,
    /// An address, and the byte that it gives from its second reading on.
    then: Option<(u16, u8)>,
}

impl Bus for Lined {
    fn get_byte(&mut self, address: u16) -> u8 {
        self.calls.push(format!("{address:04X}"));
        let byte = self.bytes[usize::from(address)];
        match self.then {
            Some((place, then)) if place == address => self.bytes[usize::from(address)] = then,
            _ => {}
        }
        byte
    }

    fn set_byte(&mut self, address: u16, value: u8) {
        self.calls.push(format!("{value:02X}@{address:04X}"));
        self.bytes[usize::from(address)] = value;
    }

    fn nmi_pending(&mut self) -> bool {
        self.nmi
    }

    fn irq_pending(&mut self) -> bool {
        self.irq
    }
}

fn lined(place: u16, code: &[u8]) -> CPU<Lined, Nmos6502> {
    let mut bytes = vec![0; 65_536];
    let start = usize::from(place);
    bytes[start..start + code.len()].copy_from_slice(code);
    // NMI leads to 0300 and IRQ to 0400, where there are NOPs.
    bytes[0xFFFA..].copy_from_slice(&[0x00, 0x03, 0x00, 0x00, 0x00, 0x04]);
    bytes[0x0300..0x0500].fill(0xEA);
    let bus = Lined {
        bytes,
        calls: Vec::new(),
        nmi: false,
        irq: false,
        then: None,
    };
    let mut cpu = CPU::new(bus, Nmos6502);
    prepare(&mut cpu, place);
    cpu
}

fn plain(place: u16, code: &[u8]) -> CPU<Memory, Nmos6502> {
    let mut cpu = CPU::new(Memory::new(), Nmos6502);
    cpu.memory.set_bytes(place, code);
    prepare(&mut cpu, place);
    cpu
}

fn prepare<M: Bus>(cpu: &mut CPU<M, Nmos6502>, place: u16) {
    cpu.registers.program_counter = place;
    cpu.registers.stack_pointer = StackPointer(0xFF);
    cpu.registers.status = Status::empty();
}

fn state<M: Bus>(cpu: &CPU<M, Nmos6502>) -> String {
    let counter = cpu.registers.program_counter;
    let accumulator = cpu.registers.accumulator;
    let status = cpu.registers.status.bits();
    let cycles = cpu.cycles;
    let state = cpu.wait_state();
    format!(
        "counter {counter:04X}, A {accumulator:02X}, status {status:02X}, {cycles} cycles, {state:?}"
    )
}

/// What a single step says, and what it leaves.
fn stepped<M: Bus>(cpu: &mut CPU<M, Nmos6502>) -> String {
    let made = cpu.single_step();
    format!("{made}, {}", state(cpu))
}

/// The same with the calls of the bus.
fn called(cpu: &mut CPU<Lined, Nmos6502>) -> String {
    cpu.memory.calls.clear();
    let text = stepped(cpu);
    let calls = &cpu.memory.calls;
    let calls = if calls.is_empty() {
        "no call".to_string()
    } else {
        calls.join(" ")
    };
    format!("{text}, {calls}")
}

fn show(what: &str, result: String) {
    println!("{what}: {result}");
}

fn main() {
    let mut cpu = plain(0x0200, &[0x1E, 0xFF, 0x00]);
    cpu.registers.index_x = 1;
    show("a shift over a page", stepped(&mut cpu));
    show(
        "JSR whose first push is its operand",
        stepped(&mut plain(0x01FD, &[0x20, 0x00, 0x00])),
    );
    show(
        "JSR whose second push is",
        stepped(&mut plain(0x01FC, &[0x20, 0x00, 0x00])),
    );

    show("undecoded, a step", stepped(&mut plain(0x0200, &[0x93])));
    show(
        "undocumented, a step",
        stepped(&mut plain(0x0200, &[0x03, 0x00])),
    );
    let mut cpu = plain(0x0200, &[0x02]);
    show("jammed, a step", stepped(&mut cpu));
    show("jammed, another step", stepped(&mut cpu));
    let mut cpu = plain(0x0200, &[0x02]);
    cpu.run();
    show("jammed, a run", state(&cpu));
    let mut cpu = plain(0x0200, &[0xEA, 0x03, 0x00, 0x93]);
    cpu.run();
    show("undocumented, a run", state(&cpu));
    let mut cpu = plain(0x0200, &[0xEA]);
    cpu.cycles = u64::MAX - 6;
    show("the last cycles, a step", stepped(&mut cpu));
    let mut cpu = plain(0x0200, &[0xEA, 0x93]);
    cpu.cycles = u64::MAX - 6;
    cpu.run();
    show("the last cycles, a run", state(&cpu));
    show("PLP of 00", {
        let mut cpu = plain(0x0200, &[0x28]);
        cpu.registers.status = Status::all();
        stepped(&mut cpu)
    });
    show("PLP of FF", {
        let mut cpu = plain(0x0200, &[0x28]);
        cpu.memory.set_byte(0x0100, 0xFF);
        stepped(&mut cpu)
    });

    let mut cpu = lined(0x0200, &[0xEA]);
    cpu.memory.nmi = true;
    show("NMI after NOP", called(&mut cpu));
    let mut cpu = lined(0x0200, &[0x58, 0xEA]);
    cpu.registers.status = Status::PS_DISABLE_INTERRUPTS;
    cpu.memory.irq = true;
    show("IRQ after CLI", called(&mut cpu));
    let mut cpu = lined(0x0200, &[0x78, 0xEA]);
    cpu.memory.irq = true;
    show("IRQ after SEI", called(&mut cpu));
    for (what, code) in [("NMI, undecoded", 0x93), ("NMI, jammed", 0x02)] {
        let mut cpu = lined(0x0200, &[code]);
        cpu.memory.nmi = true;
        show(what, called(&mut cpu));
    }
    let mut cpu = lined(0x0200, &[0xEA, 0x93]);
    cpu.memory.nmi = true;
    cpu.registers.status = Status::all();
    let _ = called(&mut cpu);
    cpu.registers.program_counter = 0x0201;
    cpu.memory.nmi = false;
    let _ = called(&mut cpu);
    cpu.memory.nmi = true;
    show("undecoded, NMI high and low again", called(&mut cpu));
    let mut cpu = lined(0x0200, &[0x02]);
    let _ = called(&mut cpu);
    cpu.memory.nmi = true;
    show("NMI once it is jammed", called(&mut cpu));

    show(
        "undocumented, on a bus",
        called(&mut lined(0x0200, &[0x07, 0x10])),
    );
    let mut cpu = lined(0x0200, &[0xAD, 0x01, 0x02]);
    cpu.memory.then = Some((0x0201, 0x77));
    show(
        "LDA of its own operand, another the second time",
        called(&mut cpu),
    );
}
