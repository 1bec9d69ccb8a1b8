//! The processor time that this process has used.

#[repr(C)]
struct Timespec {
    seconds: i64,
    nanoseconds: i64,
}

extern "C" {
    fn clock_gettime(clock: i32, time: *mut Timespec) -> i32;
}

/// CLOCK_PROCESS_CPUTIME_ID of Linux.
const PROCESS: i32 = 2;

pub fn nanoseconds() -> i64 {
    let mut time = Timespec {
        seconds: 0,
        nanoseconds: 0,
    };
    // SAFETY: the clock writes one `timespec`, whose two fields have 64 bits on this machine.
    let failed = unsafe { clock_gettime(PROCESS, &mut time) };
    assert_eq!(failed, 0, "Linux has this clock");
    time.seconds * 1_000_000_000 + time.nanoseconds
}
