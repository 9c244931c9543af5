//! The processor time of this thread, and of the processes that it waited for, which other programs on the machine don't add to.

use std::time::Duration;

/// `CLOCK_THREAD_CPUTIME_ID` of Linux.
const THREAD_TIME: i32 = 3;

/// `struct timespec` of x86-64 Linux.
#[repr(C)]
struct Timespec {
    seconds: i64,
    nanoseconds: i64,
}

/// `RUSAGE_CHILDREN` of Linux.
const CHILDREN: i32 = -1;

/// `struct timeval` of x86-64 Linux.
#[repr(C)]
#[derive(Clone, Copy, Default)]
struct Timeval {
    seconds: i64,
    microseconds: i64,
}

/// `struct rusage` of x86-64 Linux: two times, and fourteen numbers that aren't asked for here.
#[repr(C)]
#[derive(Default)]
struct Usage {
    user: Timeval,
    system: Timeval,
    others: [i64; 14],
}

extern "C" {
    fn clock_gettime(clock: i32, time: *mut Timespec) -> i32;
    fn getrusage(who: i32, usage: *mut Usage) -> i32;
}

/// The time that the processes which were waited for have been running, in their programs and in the kernel for them.
pub fn children_time() -> Duration {
    let mut usage = Usage::default();
    // SAFETY: the C library, which std links, writes one rusage to the place that it is given.
    let status = unsafe { getrusage(CHILDREN, &mut usage) };
    assert_eq!(status, 0, "Linux tells the time of children");
    let time = |of: Timeval| Duration::new(of.seconds as u64, 1000 * of.microseconds as u32);
    time(usage.user) + time(usage.system)
}

/// The time that this thread has been running, in the program and in the kernel for it.
pub fn thread_time() -> Duration {
    let mut time = Timespec {
        seconds: 0,
        nanoseconds: 0,
    };
    // SAFETY: the C library, which std links, writes one timespec to the place that it is given.
    let status = unsafe { clock_gettime(THREAD_TIME, &mut time) };
    assert_eq!(status, 0, "Linux has a clock for each thread");
    Duration::new(time.seconds as u64, time.nanoseconds as u32)
}

#[cfg(test)]
mod tests {
    use super::thread_time;

    /// Work takes time, and sleeping takes none.
    #[test]
    fn time_goes_by_in_work_only() {
        let start = thread_time();
        std::thread::sleep(std::time::Duration::from_millis(50));
        let slept = thread_time();
        assert!((slept - start).as_millis() < 25);
        while thread_time() == slept {}
    }
}
