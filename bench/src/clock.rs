//! CPU time of this process, so that other processes do not count.

#[cfg(target_os = "linux")]
pub fn cpu_seconds() -> f64 {
    #[repr(C)]
    struct Time {
        seconds: i64,
        nanoseconds: i64,
    }
    extern "C" {
        fn clock_gettime(clock: i32, time: *mut Time) -> i32;
    }
    const PROCESS_CPU_TIME: i32 = 2;
    let mut time = Time { seconds: 0, nanoseconds: 0 };
    // SAFETY: `time` has the layout of a timespec on 64-bit Linux and is lent
    // for the call only.
    let status = unsafe { clock_gettime(PROCESS_CPU_TIME, &mut time) };
    assert_eq!(status, 0, "no CPU clock");
    time.seconds as f64 + time.nanoseconds as f64 / 1e9
}

/// Elsewhere wall time stands in.
#[cfg(not(target_os = "linux"))]
pub fn cpu_seconds() -> f64 {
    use std::sync::OnceLock;
    use std::time::Instant;
    static BEGIN: OnceLock<Instant> = OnceLock::new();
    BEGIN.get_or_init(Instant::now).elapsed().as_secs_f64()
}

/// How long one call takes, with what it answers.
pub fn timed<T>(call: impl FnOnce() -> T) -> (f64, T) {
    let begin = cpu_seconds();
    let answer = call();
    (cpu_seconds() - begin, answer)
}
