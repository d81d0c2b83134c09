//! Ropes and slices compared and hashed.

use crate::edits::fragment;
use crate::measure::{timed, timed_sum, Outcome};
use crate::numbers::{Fnv, Numbers};
use crate::sample::Sample;
use crate::workloads::Workload;
use ropey::Rope;
use std::cmp::Ordering;
use std::hash::{Hash, Hasher};

/// The workloads on each text, in order.
pub const WORKLOADS: &[Workload] = &[
    ("eq_other_cutting", equal),
    ("cmp_other_cutting", order),
    ("eq_slices_1000", slices),
    ("eq_str", text),
    ("hash_fnv", hash_fnv),
    ("hash_lens", hash_lens),
];

/// The number of characters of a slice.
const CHARS: usize = 1_000;

/// The number of times that lengths are hashed: once takes less than half a millisecond.
const PASSES: usize = 20;

/// Returns a rope of the same text with other chunk boundaries.
fn other_of(sample: &Sample) -> Rope {
    let mut rope = sample.fresh();
    fragment(&mut rope, sample.operations(20_000));
    rope
}

fn equal(sample: &Sample) -> Outcome {
    let other = other_of(sample);
    timed_sum(1, || u64::from(sample.rope == other))
}

fn order(sample: &Sample) -> Outcome {
    let other = other_of(sample);
    timed(
        1,
        || sample.rope.cmp(&other),
        |order| match order {
            Ordering::Less => 0,
            Ordering::Equal => 1,
            Ordering::Greater => 2,
        },
    )
}

fn slices(sample: &Sample) -> Outcome {
    let other = other_of(sample);
    let count = sample.operations(100_000);
    timed_sum(count, || {
        let mut numbers = Numbers::new();
        let most = sample.rope.len_chars().saturating_sub(CHARS + 1);
        let mut sum: u64 = 0;
        for _ in 0..count {
            let start = numbers.up_to(most);
            if are_equal(&sample.rope, &other, start, start + CHARS) {
                sum += 1;
            }
        }
        sum
    })
}

fn are_equal(rope: &Rope, other: &Rope, start: usize, end: usize) -> bool {
    match (rope.get_slice(start..end), other.get_slice(start..end)) {
        (Some(one), Some(two)) => one == two,
        _ => false,
    }
}

fn text(sample: &Sample) -> Outcome {
    timed_sum(1, || u64::from(sample.rope == *sample.text))
}

/// A hasher by FNV-1a.
struct FnvHasher(Fnv);

impl Hasher for FnvHasher {
    fn finish(&self) -> u64 {
        self.0.sum()
    }

    fn write(&mut self, bytes: &[u8]) {
        self.0.add(bytes);
    }
}

fn hash_fnv(sample: &Sample) -> Outcome {
    timed_sum(1, || {
        let mut hasher = FnvHasher(Fnv::new());
        sample.rope.hash(&mut hasher);
        hasher.finish()
    })
}

/// A hasher that counts bytes.
struct LensHasher(u64);

impl Hasher for LensHasher {
    fn finish(&self) -> u64 {
        self.0
    }

    fn write(&mut self, bytes: &[u8]) {
        self.0 = self.0.wrapping_add(bytes.len() as u64);
    }
}

fn hash_lens(sample: &Sample) -> Outcome {
    timed_sum(PASSES, || {
        let mut hasher = LensHasher(0);
        for _ in 0..PASSES {
            sample.rope.hash(&mut hasher);
        }
        hasher.finish()
    })
}
