//! Processor time, in nanoseconds.

use core::mem::MaybeUninit;

#[repr(C)]
struct Timespec {
    seconds: i64,
    nanoseconds: i64,
}

const CLOCK_THREAD_CPUTIME_ID: i32 = 3;

#[repr(C)]
struct Timeval {
    seconds: i64,
    microseconds: i64,
}

#[repr(C)]
struct Rusage {
    user: Timeval,
    system: Timeval,
    others: [i64; 14],
}

const RUSAGE_CHILDREN: i32 = -1;

unsafe extern "C" {
    fn clock_gettime(clock: i32, time: *mut Timespec) -> i32;
    fn getrusage(who: i32, usage: *mut Rusage) -> i32;
}

/// The processor time of this thread. The machine may be shared: what others run meanwhile is not
/// ours.
#[must_use]
pub fn thread() -> u64 {
    let mut time = Timespec { seconds: 0, nanoseconds: 0 };
    // SAFETY: the struct is Linux's timespec on x86-64, and is ours to write.
    let failed = unsafe { clock_gettime(CLOCK_THREAD_CPUTIME_ID, &mut time) };
    assert_eq!(failed, 0, "this system has no clock of a thread's processor time");
    time.seconds as u64 * 1_000_000_000 + time.nanoseconds as u64
}

/// The processor time of all processes that were waited for.
#[must_use]
pub fn children() -> f64 {
    let mut usage = MaybeUninit::<Rusage>::zeroed();
    // SAFETY: the struct is Linux's rusage on x86-64, and is ours to write; any bytes are one.
    let usage = unsafe {
        assert_eq!(getrusage(RUSAGE_CHILDREN, usage.as_mut_ptr()), 0, "getrusage");
        usage.assume_init()
    };
    let Rusage { user, system, others: _ } = usage;
    (user.seconds + system.seconds) as f64 * 1e9
        + (user.microseconds + system.microseconds) as f64 * 1e3
}

#[cfg(test)]
mod tests {
    use super::*;
    use core::hint::black_box;
    use std::process::Command;

    #[test]
    fn work_of_the_thread_is_counted() {
        let start = thread();
        (0..1_000_000_u32).for_each(|i| _ = black_box(i));
        assert!(thread() > start);
    }

    #[test]
    fn a_process_that_was_waited_for_is_counted() {
        let start = children();
        for _ in 0..20 {
            let status = Command::new("true").status().expect("true runs");
            assert!(status.success());
        }
        assert!(children() > start);
    }
}
