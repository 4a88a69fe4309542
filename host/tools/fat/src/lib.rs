//! The loop over the Rust once more, for `rate` to load: a library built with `-C lto=fat -C codegen-units=1`, so that both
//! builds of the Rust are measured in one process.

use std::slice;

use oracle::timed::time_rust;

/// So many steps of an image of 65,536 bytes, which becomes the memory after them. `end` gets the counter, A, X, Y, S, the
/// status and the cycles. It gives the nanoseconds of processor time, or the highest number where a step was not made.
///
/// # Safety
/// The image is 65,536 bytes and `end` is seven numbers, lent to this call alone.
#[unsafe(no_mangle)]
pub unsafe extern "C" fn fat_run(image: *mut u8, steps: u64, end: *mut u64) -> u64 {
    // Sound: the caller says so.
    let (image, end) = unsafe {
        (
            slice::from_raw_parts_mut(image, 65_536),
            slice::from_raw_parts_mut(end, 7),
        )
    };
    let Ok((time, state, memory)) = time_rust(image, steps) else {
        return u64::MAX;
    };
    image.copy_from_slice(&memory);
    end.copy_from_slice(&[
        state.counter.into(),
        state.accumulator.into(),
        state.x.into(),
        state.y.into(),
        state.stack.into(),
        state.status.into(),
        state.cycles,
    ]);
    time.as_nanos() as u64
}
