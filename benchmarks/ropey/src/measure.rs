//! Times and checksums of workloads.

use crate::numbers::Fnv;
use ropey::Rope;
use std::hint::black_box;

/// The outcome of a run of a workload.
pub struct Outcome {
    /// The number of operations.
    pub operations: usize,
    /// The processor time of all of them, in nanoseconds.
    pub nanos: u64,
    /// A checksum of the results.
    pub checksum: u64,
}

/// Returns the processor time of this thread, in nanoseconds.
fn now() -> u64 {
    #[repr(C)]
    struct Timespec {
        seconds: i64,
        nanos: i64,
    }
    extern "C" {
        fn clock_gettime(clock: i32, time: *mut Timespec) -> i32;
    }
    const THREAD_CPU_TIME: i32 = 3;
    let mut time = Timespec {
        seconds: 0,
        nanos: 0,
    };
    // SAFETY: the call writes a `timespec`, which `time` is on 64-bit Linux.
    let status = unsafe { clock_gettime(THREAD_CPU_TIME, &mut time) };
    assert_eq!(status, 0, "the clock failed");
    time.seconds as u64 * 1_000_000_000 + time.nanos as u64
}

/// Times the work, but neither the checksum of its result nor the result's drop.
pub fn timed<T>(
    operations: usize,
    work: impl FnOnce() -> T,
    checksum: impl FnOnce(&T) -> u64,
) -> Outcome {
    let start = now();
    let made = black_box(work());
    let nanos = now() - start;
    Outcome {
        operations,
        nanos,
        checksum: checksum(&made),
    }
}

/// Times a function that returns its checksum.
pub fn timed_sum(operations: usize, sum: impl FnOnce() -> u64) -> Outcome {
    timed(operations, sum, |&sum| sum)
}

/// Returns a checksum of the four lengths of a rope.
pub fn lens(rope: &Rope) -> u64 {
    let bytes = rope.len_bytes() as u64;
    let chars = rope.len_chars() as u64;
    let lines = rope.len_lines() as u64;
    let units = rope.len_utf16_cu() as u64;
    bytes ^ (chars << 1) ^ (lines << 2) ^ (units << 3)
}

/// Returns a checksum of the bytes and the lengths of a rope.
pub fn whole(rope: &Rope) -> u64 {
    let mut sum = Fnv::new();
    for chunk in rope.chunks() {
        sum.add(chunk.as_bytes());
    }
    sum.sum() ^ lens(rope)
}

/// Mixes a number into a checksum.
pub fn mix(sum: u64, number: usize) -> u64 {
    sum.wrapping_mul(31).wrapping_add(number as u64)
}
