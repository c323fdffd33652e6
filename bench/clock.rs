// Times a planning.

use crate::panel::{CAP, FULL_DEGREE};
use crate::systems::System;
use std::hint::black_box;

// The processor's time of this thread: what others run in between does not count, as it would by the clock on the wall.
fn now() -> f64 {
    #[repr(C)]
    struct Timespec {
        seconds: i64,
        nanoseconds: i64,
    }
    unsafe extern "C" {
        fn clock_gettime(clock: i32, time: *mut Timespec) -> i32;
    }
    // Linux's number for it.
    const THREAD: i32 = 3;
    let mut t = Timespec { seconds: 0, nanoseconds: 0 };
    // The struct is laid out as C has it on 64-bit Linux, and lives through the call.
    let status = unsafe { clock_gettime(THREAD, &mut t) };
    assert_eq!(status, 0, "no clock for a thread");
    t.seconds as f64 + 1e-9 * t.nanoseconds as f64
}

pub type Plan = fn(u64, u64, u64, u64, u64, &[u8], &mut [u8]) -> [u64; 5];

// The reply, and the seconds of one walk.
pub fn once(plan: Plan, s: &System, repeats: u64, out: &mut [u8]) -> ([u64; 5], f64) {
    let terms = s.terms.as_flattened();
    let mut five = [0; 5];
    let began = now();
    for _ in 0..repeats {
        let (n, marks, degree) = black_box((s.n, s.marks, FULL_DEGREE));
        five = black_box(plan(n, marks, degree, CAP, s.limit, black_box(terms), out));
    }
    (five, (now() - began) / repeats as f64)
}
