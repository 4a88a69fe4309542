//! The processor time of this process. A rate taken by the clock on the wall would count what other programs on the
//! machine take away.

use std::time::Duration;

#[repr(C)]
struct Timespec {
    seconds: i64,
    nanoseconds: i64,
}

/// Linux's number for the clock of a whole process.
const CLOCK_PROCESS_CPUTIME_ID: i32 = 2;

unsafe extern "C" {
    fn clock_gettime(clock: i32, time: *mut Timespec) -> i32;
}

pub fn processor_time() -> Duration {
    let mut time = Timespec {
        seconds: 0,
        nanoseconds: 0,
    };
    // Sound: the C library of 64-bit Linux writes two numbers of 64 bits.
    let answer = unsafe { clock_gettime(CLOCK_PROCESS_CPUTIME_ID, &mut time) };
    assert!(answer == 0, "this system has no clock of processor time");
    Duration::new(time.seconds as u64, time.nanoseconds as u32)
}
