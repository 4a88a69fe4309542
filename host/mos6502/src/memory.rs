//! What the 6502 reads and stores to: a bus, and the plain memory.

pub const MEMORY_ADDRESS_LO: u16 = 0x0000;
pub const MEMORY_ADDRESS_HI: u16 = 0xFFFF;
pub const STACK_ADDRESS_LO: u16 = 0x0100;
pub const STACK_ADDRESS_HI: u16 = 0x01FF;
pub const NMI_INTERRUPT_VECTOR_LO: u16 = 0xFFFA;
pub const NMI_INTERRUPT_VECTOR_HI: u16 = 0xFFFB;
pub const RESET_VECTOR_LO: u16 = 0xFFFC;
pub const RESET_VECTOR_HI: u16 = 0xFFFD;
pub const IRQ_INTERRUPT_VECTOR_LO: u16 = 0xFFFE;
pub const IRQ_INTERRUPT_VECTOR_HI: u16 = 0xFFFF;

pub(crate) const SIZE: usize = 65_536;

/// What stands at the 65,536 addresses, and pulls the interrupt lines. Whoever has one needs no more than the first two functions.
pub trait Bus {
    /// The byte that the CPU reads at an address.
    fn get_byte(&mut self, address: u16) -> u8;

    /// Takes the byte that the CPU stores at an address.
    fn set_byte(&mut self, address: u16, value: u8);

    /// Sets two bytes, the low one first.
    fn set_word(&mut self, address: u16, value: u16) {
        let [low, high] = value.to_le_bytes();
        self.set_byte(address, low);
        self.set_byte(address.wrapping_add(1), high);
    }

    /// Sets bytes from an address on. As in mos6502 the number of bytes is taken modulo 65,536, and the address may not pass FFFF.
    fn set_bytes(&mut self, start: u16, values: &[u8]) {
        for offset in 0..values.len() as u16 {
            self.set_byte(start + offset, values[usize::from(offset)]);
        }
    }

    /// Whether NMI is low. It is asked once a [`single_step`](crate::cpu::CPU::single_step), at its end.
    fn nmi_pending(&mut self) -> bool {
        false
    }

    /// Whether IRQ is low. It is asked after NMI, unless that is served.
    fn irq_pending(&mut self) -> bool {
        false
    }

    /// Where the address of IRQ's handler stands. It is asked if IRQ is about to be served.
    fn irq_vector(&mut self) -> u16 {
        IRQ_INTERRUPT_VECTOR_LO
    }

    /// Never called: the NMOS 6502 has no mapping registers. It is here for a bus that has it.
    fn set_mapping_register(&mut self, index: usize, value: u8) {
        let _ = (index, value);
    }

    /// The bytes, if this is nothing but memory, on which a run is quick. A bus outside of this package cannot answer it: it would
    /// have to name the argument.
    #[doc(hidden)]
    fn plain_bytes(&mut self, _: private::Asked) -> Option<&mut [u8; SIZE]> {
        None
    }
}

pub(crate) mod private {
    #[derive(Clone, Copy, Debug)]
    pub struct Asked;
}

/// A plain memory of 65,536 bytes.
#[derive(Copy, Clone, Debug)]
pub struct Memory {
    bytes: [u8; SIZE],
}

impl Memory {
    /// All bytes are 00.
    #[must_use]
    pub const fn new() -> Memory {
        Memory { bytes: [0; SIZE] }
    }
}

impl Default for Memory {
    fn default() -> Memory {
        Memory::new()
    }
}

impl Bus for Memory {
    #[inline]
    fn get_byte(&mut self, address: u16) -> u8 {
        self.bytes[usize::from(address)]
    }

    #[inline]
    fn set_byte(&mut self, address: u16, value: u8) {
        self.bytes[usize::from(address)] = value;
    }

    /// Sets bytes from an address on. It panics if they go past FFFF.
    fn set_bytes(&mut self, start: u16, values: &[u8]) {
        let start = usize::from(start);
        self.bytes[start..start + values.len()].copy_from_slice(values);
    }

    #[inline]
    fn plain_bytes(&mut self, _: private::Asked) -> Option<&mut [u8; SIZE]> {
        Some(&mut self.bytes)
    }
}
