//! Processor time, so that other work on the machine does not count: the C library's functions,
//! since Rust's own library has none. The structs and numbers are those of 64-bit Linux.

#[repr(C)]
#[derive(Default)]
struct Time {
    seconds: i64,
    /// Microseconds or nanoseconds.
    parts: i64,
}

#[repr(C)]
#[derive(Default)]
struct Usage {
    user: Time,
    system: Time,
    others: [i64; 14],
}

extern "C" {
    fn getrusage(who: i32, usage: *mut Usage) -> i32;
    fn clock_gettime(clock: i32, time: *mut Time) -> i32;
}

const CHILDREN: i32 = -1;
const THREAD_CLOCK: i32 = 3;

/// User and system time of the processes that have ended, in nanoseconds.
pub fn of_children() -> f64 {
    let mut usage = Usage::default();
    // SAFETY: the struct is lent for the call, and is as long as the C library's.
    assert_eq!(unsafe { getrusage(CHILDREN, &mut usage) }, 0);
    let nanoseconds = |time: Time| (time.seconds * 1_000_000 + time.parts) as f64 * 1e3;
    nanoseconds(usage.user) + nanoseconds(usage.system)
}

/// Time of this thread, in nanoseconds.
pub fn of_this_thread() -> f64 {
    let mut time = Time::default();
    // SAFETY: as above.
    assert_eq!(unsafe { clock_gettime(THREAD_CLOCK, &mut time) }, 0);
    (time.seconds * 1_000_000_000 + time.parts) as f64
}
