//! What this process has taken: time on the processor, and memory.

#[repr(C)]
struct Time {
    seconds: i64,
    nanoseconds: i64,
}

extern "C" {
    fn clock_gettime(clock: i32, time: *mut Time) -> i32;
}

/// Linux' number for the time of all threads of this process.
const PROCESS_CPUTIME: i32 = 2;

pub fn cpu_seconds() -> f64 {
    let mut time = Time { seconds: 0, nanoseconds: 0 };
    // The system writes the time to where the pointer leads.
    let status = unsafe { clock_gettime(PROCESS_CPUTIME, &mut time) };
    assert_eq!(status, 0);
    time.seconds as f64 + time.nanoseconds as f64 / 1e9
}

/// The most memory that was resident at once.
pub fn peak_kilobytes() -> u64 {
    let text = std::fs::read_to_string("/proc/self/status").expect("the process's status");
    let line = text.lines().find(|l| l.starts_with("VmHWM:")).expect("the peak");
    line.split_whitespace().nth(1).expect("a number").parse().expect("a number")
}
