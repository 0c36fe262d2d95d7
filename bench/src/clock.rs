//! The wall clock, and the processor time of this thread, in which what other programs take meanwhile does not count.

use std::time::{Duration, Instant};

#[repr(C)]
struct Timespec {
    seconds: i64,
    nanoseconds: i64,
}

// Linux on x86-64, the only one that the library is compiled for.
const CLOCK_THREAD_CPUTIME_ID: i32 = 3;

extern "C" {
    fn clock_gettime(clock: i32, time: *mut Timespec) -> i32;
}

/// Both clocks, from a start on.
pub struct Clock {
    wall: Instant,
    own: Duration,
}

/// What a call took by the wall clock and of this thread's processor time.
#[derive(Clone, Copy)]
pub struct Time {
    pub wall: Duration,
    pub own: Duration,
}

impl Clock {
    pub fn start() -> Clock {
        let own = now();
        Clock { wall: Instant::now(), own }
    }

    pub fn elapsed(&self) -> Time {
        let wall = self.wall.elapsed();
        Time { wall, own: now() - self.own }
    }
}

fn now() -> Duration {
    let mut time = Timespec { seconds: 0, nanoseconds: 0 };
    // Safety: `time` has C's layout of a timespec, and lives through the call.
    let failed = unsafe { clock_gettime(CLOCK_THREAD_CPUTIME_ID, &mut time) };
    assert_eq!(failed, 0);
    Duration::new(time.seconds as u64, time.nanoseconds as u32)
}
