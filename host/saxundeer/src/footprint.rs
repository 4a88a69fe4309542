//! What a step will read and store to, before it is made. mos6502_footprint.h says what the C functions promise.

use crate::answers;
use crate::lines::Lines;
use crate::machine::Machine;

unsafe extern "C" {
    fn mos6502_reads(
        registers: u64,
        cycles: u64,
        lines: u8,
        memory: *const u8,
        length: usize,
        places: *mut [u16; PLACES],
    ) -> usize;
    fn mos6502_stores(
        registers: u64,
        cycles: u64,
        lines: u8,
        memory: *const u8,
        length: usize,
        places: *mut [u16; PLACES],
    ) -> usize;
    safe fn mos6502_footprint_version_1_run_rt_staticlib_mos6502_footprint() -> u8;
}

/// The places that the C functions write, and the most addresses of a step.
const PLACES: usize = 5;

/// A few addresses in order: at most five.
#[derive(Clone, Copy, Debug, Default, PartialEq, Eq, Hash)]
pub struct Footprint {
    count: usize,
    places: [u16; PLACES],
}

impl Footprint {
    /// The addresses, in the order of the step.
    #[must_use]
    pub fn addresses(&self) -> &[u16] {
        &self.places[..self.count]
    }
}

/// A C function that lists addresses.
type Lister = unsafe extern "C" fn(u64, u64, u8, *const u8, usize, *mut [u16; PLACES]) -> usize;

/// A footprint by one of these functions.
fn footprint(function: Lister, machine: Machine, lines: Lines, memory: &[u8]) -> Footprint {
    let mut places = [0; PLACES];
    // Sound: the places are this function's own, the memory is lent to it, and the length is the memory's.
    let count = unsafe {
        function(
            machine.number(),
            machine.cycles,
            lines.byte(),
            memory.as_ptr(),
            memory.len(),
            &mut places,
        )
    };
    if count > PLACES {
        answers::unknown(
            mos6502_footprint_version_1_run_rt_staticlib_mos6502_footprint,
            count,
        );
    }
    Footprint { count, places }
}

/// The addresses that a step from here reads, in order; none if it is refused before it reads the opcode.
#[must_use]
pub fn reads_of(machine: Machine, lines: Lines, memory: &[u8]) -> Footprint {
    footprint(mos6502_reads, machine, lines, memory)
}

/// The addresses that a step from here stores to, in order; none if it is refused.
#[must_use]
pub fn stores_of(machine: Machine, lines: Lines, memory: &[u8]) -> Footprint {
    footprint(mos6502_stores, machine, lines, memory)
}
