//! The C functions: mos6502.h, mos6502_step.h and mos6502_guard.h say what each promises.

use crate::addresses::MAP_SIZE;

/// The three kinds of run take the same.
pub(crate) type RunFunction =
    unsafe extern "C" fn(*mut u64, *mut u64, *mut u64, u64, u8, *mut u8, usize) -> u8;

unsafe extern "C" {
    pub(crate) fn mos6502_step(
        registers: *mut u64,
        cycles: *mut u64,
        lines: u8,
        first: *mut u16,
        memory: *mut u8,
        length: usize,
    ) -> u8;
    pub(crate) fn mos6502_run(
        registers: *mut u64,
        cycles: *mut u64,
        steps: *mut u64,
        bound: u64,
        lines: u8,
        memory: *mut u8,
        length: usize,
    ) -> u8;
    pub(crate) fn mos6502_long_run(
        registers: *mut u64,
        cycles: *mut u64,
        steps: *mut u64,
        bound: u64,
        lines: u8,
        memory: *mut u8,
        length: usize,
    ) -> u8;
    pub(crate) fn mos6502_run_cycles(
        registers: *mut u64,
        cycles: *mut u64,
        steps: *mut u64,
        limit: u64,
        lines: u8,
        memory: *mut u8,
        length: usize,
    ) -> u8;
    pub(crate) fn mos6502_guarded_run(
        registers: *mut u64,
        cycles: *mut u64,
        steps: *mut u64,
        place: *mut u16,
        bound: u64,
        lines: u8,
        reads: *const [u8; MAP_SIZE],
        stores: *const [u8; MAP_SIZE],
        memory: *mut u8,
        length: usize,
    ) -> u8;
    pub(crate) fn mos6502_extract(
        registers: *mut u64,
        cycles: *mut u64,
        steps: *mut u64,
        place: *mut u16,
        bound: u64,
        lines: u8,
        sealed: *const [u8; MAP_SIZE],
        memory: *mut u8,
        length: usize,
    ) -> u8;
    pub(crate) fn mos6502_run_to(
        registers: *mut u64,
        cycles: *mut u64,
        steps: *mut u64,
        stop: u16,
        bound: u64,
        lines: u8,
        memory: *mut u8,
        length: usize,
    ) -> u8;
}

// Only an archive of the version that the crate asks for has its function: `answers::unknown` says why it is named.
unsafe extern "C" {
    pub(crate) safe fn mos6502_version_1_run_rt_staticlib_mos6502() -> u8;
    pub(crate) safe fn mos6502_step_version_1_run_rt_staticlib_mos6502_step() -> u8;
    pub(crate) safe fn mos6502_guard_version_1_run_rt_staticlib_mos6502_guard() -> u8;
}

// Those that only take and give numbers are safe to call. The crate makes and reads the number of the registers by itself,
// and its tests hold that to these.
#[cfg(test)]
unsafe extern "C" {
    pub(crate) safe fn mos6502_registers(
        accumulator: u8,
        x: u8,
        y: u8,
        stack: u8,
        status: u8,
        counter: u16,
    ) -> u64;
    pub(crate) safe fn mos6502_accumulator(registers: u64) -> u8;
    pub(crate) safe fn mos6502_x(registers: u64) -> u8;
    pub(crate) safe fn mos6502_y(registers: u64) -> u8;
    pub(crate) safe fn mos6502_stack(registers: u64) -> u8;
    pub(crate) safe fn mos6502_status(registers: u64) -> u8;
    pub(crate) safe fn mos6502_counter(registers: u64) -> u16;
    pub(crate) safe fn mos6502_nmi(registers: u64) -> u8;
}
