//! Clones that are edited, and clones that are kept for undo.

use crate::measure::{mix, timed, timed_sum, whole, Outcome};
use crate::numbers::Numbers;
use crate::sample::Sample;
use crate::workloads::Workload;
use ropey::Rope;

/// The workloads on each text, in order.
pub const WORKLOADS: &[Workload] = &[
    ("clone_and_insert", clone_and_insert),
    ("undo_10000", undo),
    ("undo_drop", undo_drop),
];

/// The number of clones in full size.
const CLONES: usize = 10_000;

fn clone_and_insert(sample: &Sample) -> Outcome {
    let count = sample.operations(CLONES);
    timed_sum(count, || {
        let mut numbers = Numbers::new();
        let mut sum: u64 = 0;
        for _ in 0..count {
            let mut copy = sample.rope.clone();
            let char_idx = numbers.up_to(copy.len_chars());
            copy.insert_char(char_idx, 'x');
            sum = sum.wrapping_add(copy.len_bytes() as u64);
        }
        sum
    })
}

/// Inserts characters at random indices, and returns a clone of the rope before each.
pub fn edit_and_keep(rope: &mut Rope, count: usize) -> Vec<Rope> {
    let mut numbers = Numbers::new();
    let mut kept = Vec::new();
    for _ in 0..count {
        kept.push(rope.clone());
        let char_idx = numbers.up_to(rope.len_chars());
        rope.insert_char(char_idx, 'x');
    }
    kept
}

fn undo(sample: &Sample) -> Outcome {
    let count = sample.operations(CLONES);
    let mut rope = sample.fresh();
    timed(
        count,
        || {
            let kept = edit_and_keep(&mut rope, count);
            (rope, kept)
        },
        |(rope, kept)| mix(whole(rope), kept.len()),
    )
}

fn undo_drop(sample: &Sample) -> Outcome {
    let count = sample.operations(CLONES);
    let mut rope = sample.fresh();
    let kept = edit_and_keep(&mut rope, count);
    timed(
        count,
        || {
            drop(kept);
            rope
        },
        whole,
    )
}
