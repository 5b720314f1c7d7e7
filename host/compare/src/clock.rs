//! The processor time of this thread, which other work of the machine doesn't lengthen as it does a clock's.
#![allow(unsafe_code)]

use std::ffi::{c_int, c_long};
use std::time::Duration;

#[repr(C)]
struct Timespec {
    seconds: i64,
    nanoseconds: c_long,
}

unsafe extern "C" {
    /// POSIX, in the C library that std links.
    fn clock_gettime(clock: c_int, time: *mut Timespec) -> c_int;
}

/// Linux's number of the clock.
const CLOCK_THREAD_CPUTIME_ID: c_int = 3;

pub fn thread_time() -> Duration {
    let mut time = Timespec {
        seconds: 0,
        nanoseconds: 0,
    };
    // SAFETY: the pointer is to a record of the layout that x86-64 Linux has.
    let failed = unsafe { clock_gettime(CLOCK_THREAD_CPUTIME_ID, &mut time) };
    assert_eq!(failed, 0, "Linux has this clock");
    Duration::new(time.seconds as u64, time.nanoseconds as u32)
}
