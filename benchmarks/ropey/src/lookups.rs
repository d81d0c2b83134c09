//! Lookups at random indices of a rope.

use crate::measure::{mix, timed_sum, Outcome};
use crate::numbers::Numbers;
use crate::sample::Sample;
use crate::workloads::Workload;
use ropey::Rope;

/// The workloads on each text, in order.
pub const WORKLOADS: &[Workload] = &[
    ("char_to_byte", char_to_byte),
    ("char_to_line", char_to_line),
    ("char_to_utf16_cu", char_to_utf16_cu),
    ("byte_to_char", byte_to_char),
    ("byte_to_line", byte_to_line),
    ("line_to_char", line_to_char),
    ("line_to_byte", line_to_byte),
    ("utf16_cu_to_char", utf16_cu_to_char),
    ("char_to_position", char_to_position),
    ("position_to_char", position_to_char),
    ("byte", byte),
    ("char", char),
    ("line", line),
    ("chunk_at_byte", chunk_at_byte),
    ("chunk_at_char", chunk_at_char),
    ("chunk_at_line_break", chunk_at_line_break),
];

/// The number of lookups in full size.
const LOOKUPS: usize = 1_000_000;

/// Adds up the results of a lookup at random indices from 0 to `most`.
fn sum_of(sample: &Sample, most: usize, lookup: impl Fn(usize) -> usize) -> Outcome {
    let count = sample.operations(LOOKUPS);
    timed_sum(count, || {
        let mut numbers = Numbers::new();
        let mut sum: u64 = 0;
        for _ in 0..count {
            sum = sum.wrapping_add(lookup(numbers.up_to(most)) as u64);
        }
        sum
    })
}

pub fn char_to_byte(sample: &Sample) -> Outcome {
    let rope = &sample.rope;
    sum_of(sample, rope.len_chars(), |i| rope.char_to_byte(i))
}

pub fn char_to_line(sample: &Sample) -> Outcome {
    let rope = &sample.rope;
    sum_of(sample, rope.len_chars(), |i| rope.char_to_line(i))
}

pub fn char_to_utf16_cu(sample: &Sample) -> Outcome {
    let rope = &sample.rope;
    sum_of(sample, rope.len_chars(), |i| rope.char_to_utf16_cu(i))
}

fn byte_to_char(sample: &Sample) -> Outcome {
    let rope = &sample.rope;
    sum_of(sample, rope.len_bytes(), |i| rope.byte_to_char(i))
}

fn byte_to_line(sample: &Sample) -> Outcome {
    let rope = &sample.rope;
    sum_of(sample, rope.len_bytes(), |i| rope.byte_to_line(i))
}

pub fn line_to_char(sample: &Sample) -> Outcome {
    let rope = &sample.rope;
    sum_of(sample, rope.len_lines(), |i| rope.line_to_char(i))
}

fn line_to_byte(sample: &Sample) -> Outcome {
    let rope = &sample.rope;
    sum_of(sample, rope.len_lines(), |i| rope.line_to_byte(i))
}

fn utf16_cu_to_char(sample: &Sample) -> Outcome {
    let rope = &sample.rope;
    sum_of(sample, rope.len_utf16_cu(), |i| rope.utf16_cu_to_char(i))
}

pub fn byte(sample: &Sample) -> Outcome {
    let rope = &sample.rope;
    sum_of(sample, rope.len_bytes() - 1, |i| usize::from(rope.byte(i)))
}

pub fn char(sample: &Sample) -> Outcome {
    let rope = &sample.rope;
    sum_of(sample, rope.len_chars() - 1, |i| rope.char(i) as usize)
}

/// Returns the byte of a chunk at an index, or 0.
pub fn byte_of(chunk: &str, index: usize) -> usize {
    usize::from(chunk.as_bytes().get(index).copied().unwrap_or(0))
}

fn chunk_at_byte(sample: &Sample) -> Outcome {
    let rope = &sample.rope;
    sum_of(sample, rope.len_bytes() - 1, |i| {
        let (chunk, before, _, _) = rope.chunk_at_byte(i);
        byte_of(chunk, i.wrapping_sub(before))
    })
}

/// Chunk boundaries differ, so the checksum has only whether the chunk begins at or before the
/// index.
fn chunk_at_char(sample: &Sample) -> Outcome {
    let rope = &sample.rope;
    sum_of(sample, rope.len_chars(), |i| {
        let (_, _, before, _) = rope.chunk_at_char(i);
        usize::from(before <= i)
    })
}

/// Chunk boundaries differ, so the checksum has only whether the chunk begins at or before the
/// index.
pub fn chunk_at_line_break(sample: &Sample) -> Outcome {
    let rope = &sample.rope;
    sum_of(sample, rope.len_lines() - 1, |i| {
        let (_, _, _, before) = rope.chunk_at_line_break(i);
        usize::from(before <= i)
    })
}

pub fn line(sample: &Sample) -> Outcome {
    let count = sample.operations(100_000);
    timed_sum(count, || {
        let mut numbers = Numbers::new();
        let last = sample.rope.len_lines() - 1;
        let mut sum = 0;
        for _ in 0..count {
            sum = mix(sum, sample.rope.line(numbers.up_to(last)).len_chars());
        }
        sum
    })
}

/// Returns a line, and a column in UTF-16 code units.
fn position_of(rope: &Rope, char_idx: usize) -> (usize, usize) {
    let line = rope.char_to_line(char_idx);
    let start = rope.char_to_utf16_cu(rope.line_to_char(line));
    (line, rope.char_to_utf16_cu(char_idx) - start)
}

fn char_to_position(sample: &Sample) -> Outcome {
    let count = sample.operations(LOOKUPS);
    timed_sum(count, || {
        let mut numbers = Numbers::new();
        let most = sample.rope.len_chars();
        let mut sum = 0;
        for _ in 0..count {
            let (line, column) = position_of(&sample.rope, numbers.up_to(most));
            sum = mix(mix(sum, line), column);
        }
        sum
    })
}

/// Times only the conversions from positions, which are made before.
fn position_to_char(sample: &Sample) -> Outcome {
    let rope = &sample.rope;
    let count = sample.operations(LOOKUPS);
    let mut numbers = Numbers::new();
    let positions: Vec<_> = (0..count)
        .map(|_| position_of(rope, numbers.up_to(rope.len_chars())))
        .collect();
    timed_sum(count, || {
        let mut sum = 0;
        for &(line, column) in &positions {
            let start = rope.char_to_utf16_cu(rope.line_to_char(line));
            if let Ok(char_idx) = rope.try_utf16_cu_to_char(start + column) {
                sum = mix(sum, char_idx);
            }
        }
        sum
    })
}
