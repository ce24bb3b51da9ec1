//! Processor time, which other work on the machine disturbs least.

#[repr(C)]
struct Timespec {
    seconds: i64,
    nanoseconds: i64,
}

#[repr(C)]
#[derive(Default)]
struct Timeval {
    seconds: i64,
    microseconds: i64,
}

/// Linux's rusage: time in the program and in the kernel, and 14 other numbers.
#[repr(C)]
#[derive(Default)]
struct Usage {
    program: Timeval,
    kernel: Timeval,
    others: [i64; 14],
}

extern "C" {
    fn clock_gettime(clock: i32, time: *mut Timespec) -> i32;
    fn getrusage(who: i32, usage: *mut Usage) -> i32;
}

/// Linux's numbers of the clock and of the processes asked about.
const CLOCK_THREAD_CPUTIME_ID: i32 = 3;
const RUSAGE_CHILDREN: i32 = -1;

/// Nanoseconds used by this thread so far.
pub fn nanoseconds() -> u64 {
    let mut time = Timespec {
        seconds: 0,
        nanoseconds: 0,
    };
    let result = unsafe { clock_gettime(CLOCK_THREAD_CPUTIME_ID, &mut time) };
    assert_eq!(result, 0);
    time.seconds as u64 * 1_000_000_000 + time.nanoseconds as u64
}

/// Nanoseconds used by the processes that this one started and that have ended.
pub fn children() -> u64 {
    let mut usage = Usage::default();
    let result = unsafe { getrusage(RUSAGE_CHILDREN, &mut usage) };
    assert_eq!(result, 0);
    let whole =
        |time: Timeval| time.seconds as u64 * 1_000_000_000 + time.microseconds as u64 * 1_000;
    whole(usage.program) + whole(usage.kernel)
}
