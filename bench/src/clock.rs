//! The processor time of this thread.

#[repr(C)]
struct Timespec {
    seconds: i64,
    nanoseconds: i64,
}

unsafe extern "C" {
    fn clock_gettime(clock: i32, time: *mut Timespec) -> i32;
}

/// Of Linux.
const CLOCK_THREAD_CPUTIME_ID: i32 = 3;

fn now() -> u64 {
    let mut time = Timespec {
        seconds: 0,
        nanoseconds: 0,
    };
    // `time` has the layout of the 64-bit C library's `struct timespec`.
    let result = unsafe { clock_gettime(CLOCK_THREAD_CPUTIME_ID, &mut time) };
    assert_eq!(result, 0, "no clock of the thread's processor time");
    time.seconds as u64 * 1_000_000_000 + time.nanoseconds as u64
}

/// The nanoseconds that a call takes the processor.
pub fn time(call: impl FnOnce()) -> u64 {
    let start = now();
    call();
    now() - start
}
