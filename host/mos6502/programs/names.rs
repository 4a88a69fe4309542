//! The public names of the NMOS part, each used as a program may use it, and what comes of it.

use std::collections::{BTreeSet, HashSet};

use mos6502::Variant;
use mos6502::cpu::{self, CPU, WaitState};
use mos6502::instruction::{self, Nmos6502};
use mos6502::memory::{self, Bus, Memory};
use mos6502::registers::{Registers, StackPointer, Status, StatusArgs, map_physical_address};

/// A bus that only has what it must.
#[derive(Clone, Default)]
struct Least(Vec<(u16, u8)>);

impl Bus for Least {
    fn get_byte(&mut self, address: u16) -> u8 {
        address as u8
    }

    fn set_byte(&mut self, address: u16, value: u8) {
        self.0.push((address, value));
    }
}

/// One that has all it can.
struct Most;

impl Bus for Most {
    fn get_byte(&mut self, _address: u16) -> u8 {
        0xEA
    }

    fn set_byte(&mut self, _address: u16, _value: u8) {}

    fn set_word(&mut self, _address: u16, _value: u16) {}

    fn set_bytes(&mut self, _start: u16, _values: &[u8]) {}

    fn nmi_pending(&mut self) -> bool {
        false
    }

    fn irq_pending(&mut self) -> bool {
        false
    }

    fn irq_vector(&mut self) -> u16 {
        0xFFF6
    }

    fn set_mapping_register(&mut self, _index: usize, _value: u8) {}
}

/// A machine of a user's: the CPU as a part, and functions over any bus and any variant.
struct Machine {
    cpu: cpu::CPU<Memory, instruction::Nmos6502>,
}

fn step<M: Bus, V: Variant>(cpu: &mut CPU<M, V>) -> bool {
    cpu.single_step()
}

fn through_a_bus(bus: &mut dyn Bus) -> u8 {
    bus.set_word(0x1000, 0x1234);
    bus.set_bytes(0x2000, &[1, 2, 3]);
    bus.get_byte(0x2001)
}

static BLANK: Memory = Memory::new();
const FLAGS: Status = Status::PS_ZERO.union(Status::PS_CARRY);

fn of_memory() {
    let mut copied = BLANK;
    println!("{}", through_a_bus(&mut copied));
    let copies = [copied, copied.clone(), Memory::default()];
    println!("{:?}", copies.map(|mut memory| memory.get_byte(0x1001)));
    let addresses = [
        memory::MEMORY_ADDRESS_LO,
        memory::MEMORY_ADDRESS_HI,
        memory::STACK_ADDRESS_LO,
        memory::STACK_ADDRESS_HI,
        memory::NMI_INTERRUPT_VECTOR_LO,
        memory::NMI_INTERRUPT_VECTOR_HI,
        memory::RESET_VECTOR_LO,
        memory::RESET_VECTOR_HI,
        memory::IRQ_INTERRUPT_VECTOR_LO,
        memory::IRQ_INTERRUPT_VECTOR_HI,
    ];
    println!("{addresses:04X?}");
    let mut least = Least::default();
    println!("{} {:04X?}", through_a_bus(&mut least), least.0);
    println!(
        "{} {} {:04X}",
        least.nmi_pending(),
        least.irq_pending(),
        least.irq_vector()
    );
    least.set_word(0xFFFF, 0x1234);
    least.set_mapping_register(1, 2);
    println!("{:04X?}", least.0);
}

fn of_status() {
    let mut status = Status::default();
    println!(
        "{:02X} {:02X} {:02X}",
        status.bits(),
        Status::empty().bits(),
        Status::all().bits()
    );
    let asked = Status::new(StatusArgs {
        overflow: true,
        brk: true,
        ..StatusArgs::none()
    });
    println!("{:02x} {:08b} {:o} {asked:X}", asked.bits(), asked, asked);
    status |= asked;
    status &= !Status::PS_BRK;
    status ^= Status::PS_CARRY | Status::PS_NEGATIVE;
    status -= Status::PS_UNUSED;
    println!("{:02X}", status.bits());
    status.insert(FLAGS);
    status.remove(Status::PS_CARRY);
    status.toggle(Status::PS_DECIMAL_MODE);
    status.set(Status::PS_OVERFLOW, false);
    println!("{:02X}", status.bits());
    status.and(Status::PS_ZERO | Status::PS_DISABLE_INTERRUPTS);
    status.or(Status::PS_NEGATIVE);
    status.set_with_mask(Status::PS_ZERO, Status::PS_CARRY);
    println!("{:02X}", status.bits());
    println!(
        "{} {}",
        status.contains(Status::PS_CARRY),
        status.contains(FLAGS)
    );
    println!("{} {}", status.intersects(FLAGS), status.is_empty());
    println!(
        "{} {}",
        Status::all().is_all(),
        status == Status::from_bits_truncate(0x85)
    );
    println!("{:?}", Status::from_bits(0x85).map(|status| status.bits()));
    let combined = [
        status & FLAGS,
        status | FLAGS,
        status ^ FLAGS,
        status - FLAGS,
        status.intersection(FLAGS),
        status.difference(FLAGS),
        status.symmetric_difference(FLAGS),
        FLAGS.complement(),
    ];
    println!("{:02X?}", combined.map(|status| status.bits()));
    let sum: Status = combined[..2].iter().copied().collect();
    status.extend([Status::PS_BRK, Status::PS_UNUSED]);
    println!("{:02X} {:02X}", sum.bits(), status.bits());
    let sorted: BTreeSet<Status> = combined.into_iter().collect();
    let hashed: HashSet<Status> = combined.into_iter().collect();
    println!("{} {} {}", sorted.len(), hashed.len(), FLAGS < status);
}

fn of_registers() {
    let mut stack = StackPointer(0x00);
    stack.decrement();
    println!(
        "{:04X} {:?} {}",
        stack.to_u16(),
        stack,
        stack > StackPointer(0x01)
    );
    stack.increment();
    let registers = Registers {
        accumulator: 1,
        index_x: 2,
        index_y: 3,
        stack_pointer: stack,
        program_counter: 0x0200,
        status: Status::PS_DECIMAL_MODE,
        mpr: [0, 1, 0, 0, 0, 0, 0, 9],
    };
    println!(
        "{:05X} {:05X}",
        registers.physical_address(0x2001),
        map_physical_address(&registers.mpr, 0xFFFF)
    );
    println!(
        "{} {}",
        registers == Registers::new(),
        Registers::default() == Registers::new()
    );
    let Registers {
        accumulator,
        status,
        ..
    } = registers;
    println!("{accumulator} {:02X}", status.bits());
}

fn of_cpus() {
    let mut machine = Machine {
        cpu: CPU::new(Memory::new(), Nmos6502),
    };
    machine
        .cpu
        .memory
        .set_bytes(0xFFFC, &[0x00, 0x03, 0x34, 0x12]);
    machine.cpu.reset();
    println!("{:04X}", machine.cpu.registers.program_counter);
    let mut copy = machine.cpu.clone();
    println!("{} {}", step(&mut copy), step(&mut machine.cpu));
    println!(
        "{} {}",
        copy.registers == machine.cpu.registers,
        copy.cycles
    );
    let mut made: CPU<Memory, Nmos6502> = CPU::default();
    println!(
        "{} {:?} {}",
        step(&mut made),
        made.wait_state(),
        made.cycles
    );
    println!("{}", made.wait_state() == WaitState::default());
    let mut least = CPU::new(Least::default(), Nmos6502);
    let mut copy = least.clone();
    println!("{} {:04X?}", step(&mut least), least.memory.0);
    println!("{}", step(&mut copy) && least.memory.0 == copy.memory.0);
    let mut most = CPU::<Most, Nmos6502>::new(Most, Nmos6502);
    println!("{} {}", step(&mut most), most.cycles);
    println!(
        "{:?}",
        std::thread::spawn(move || step(&mut most)).join().is_ok()
    );
    // A new count and new registers are taken by the next step.
    made.cycles = 1_000;
    made.registers.program_counter = 0x4000;
    made.memory.set_byte(0x4000, 0xE8);
    made.registers.index_x = 0xFF;
    println!(
        "{} {} {:02X}",
        step(&mut made),
        made.cycles,
        made.registers.index_x
    );
    println!("{:02X}", made.registers.status.bits());
}

fn main() {
    of_memory();
    of_status();
    of_registers();
    of_cpus();
}
