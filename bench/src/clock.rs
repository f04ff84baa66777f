//! Processor time of this process and of the programs it has waited for: what else the machine does in
//! the meantime isn't counted, as it would be by a clock on the wall.

use std::time::Duration;

#[repr(C)]
#[derive(Default)]
struct Time {
    seconds: i64,
    part: i64,
}

/// The C library's rusage: user and system time, then fourteen counts.
#[repr(C)]
#[derive(Default)]
struct Usage {
    user: Time,
    system: Time,
    counts: [i64; 14],
}

const PROCESS_CPU_TIME: i32 = 2;
const CHILDREN: i32 = -1;

extern "C" {
    fn clock_gettime(clock: i32, time: *mut Time) -> i32;
    fn getrusage(who: i32, usage: *mut Usage) -> i32;
}

pub fn spent() -> Duration {
    let mut own = Time::default();
    let mut programs = Usage::default();
    // Both write one record, which has the layout of Linux on 64 bits.
    let failed =
        unsafe { clock_gettime(PROCESS_CPU_TIME, &mut own) | getrusage(CHILDREN, &mut programs) };
    assert!(failed == 0, "the system doesn't tell processor time");
    let programs = [programs.user, programs.system].map(|time| {
        Duration::from_secs(time.seconds as u64) + Duration::from_micros(time.part as u64)
    });
    Duration::new(own.seconds as u64, own.part as u32) + programs[0] + programs[1]
}
