//! Slices of 1,000 characters at random indices.

use crate::cursors::{mix_of_lines, sum_of_bytes, sum_of_chars};
use crate::measure::{mix, timed_sum, Outcome};
use crate::numbers::Numbers;
use crate::sample::Sample;
use crate::workloads::Workload;
use ropey::{Rope, RopeSlice};
use std::borrow::Cow;

/// The workloads on each text, in order.
pub const WORKLOADS: &[Workload] = &[
    ("slice_and_line", line),
    ("slice_lookups", lookups),
    ("slice_conversions", conversions),
    ("slice_byte_and_char", byte_and_char),
    ("slice_chunk_at", chunks_at),
    ("slice_cursors_at", cursors_at),
    ("slice_chars_sum", chars),
    ("slice_bytes_sum", bytes),
    ("slice_lines", lines),
    ("slice_of_slice", of_slice),
    ("byte_slice", byte_slices),
    ("slice_to_string", to_string),
    ("slice_into_string", into_string),
    ("slice_to_cow", to_cow),
];

/// The number of slices in full size.
const SLICES: usize = 100_000;

/// The number of characters of a slice.
const CHARS: usize = 1_000;

/// Returns the last start of a slice.
fn most_of(rope: &Rope) -> usize {
    rope.len_chars().saturating_sub(CHARS + 1)
}

/// Folds many slices into a checksum.
fn read(sample: &Sample, add: impl Fn(u64, RopeSlice<'_>, &mut Numbers) -> u64) -> Outcome {
    let count = sample.operations(SLICES);
    timed_sum(count, || {
        let mut numbers = Numbers::new();
        let most = most_of(&sample.rope);
        let mut sum = 0;
        for _ in 0..count {
            let start = numbers.up_to(most);
            if let Some(slice) = sample.rope.get_slice(start..start + CHARS) {
                sum = add(sum, slice, &mut numbers);
            }
        }
        sum
    })
}

fn line(sample: &Sample) -> Outcome {
    read(sample, |sum, slice, numbers| {
        let last = slice.len_lines() - 1;
        mix(sum, slice.line(numbers.up_to(last)).len_chars())
    })
}

fn lookups(sample: &Sample) -> Outcome {
    read(sample, |sum, slice, numbers| {
        let first = slice.char_to_byte(numbers.up_to(slice.len_chars()));
        let second = slice.byte_to_line(numbers.up_to(slice.len_bytes()));
        let third = slice.char_to_utf16_cu(numbers.up_to(slice.len_chars()));
        mix(mix(mix(sum, first), second), third)
    })
}

fn conversions(sample: &Sample) -> Outcome {
    read(sample, |sum, slice, numbers| {
        let first = slice.byte_to_char(numbers.up_to(slice.len_bytes()));
        let second = slice.char_to_line(numbers.up_to(slice.len_chars()));
        let third = slice.line_to_char(numbers.up_to(slice.len_lines()));
        let fourth = slice.line_to_byte(numbers.up_to(slice.len_lines()));
        let fifth = slice.utf16_cu_to_char(numbers.up_to(slice.len_utf16_cu()));
        mix(mix(mix(mix(mix(sum, first), second), third), fourth), fifth)
    })
}

fn byte_and_char(sample: &Sample) -> Outcome {
    read(sample, |sum, slice, numbers| {
        let byte = slice.get_byte(numbers.up_to(CHARS - 1)).unwrap_or(0);
        let c = slice.get_char(numbers.up_to(CHARS - 1)).unwrap_or('\0');
        mix(mix(sum, usize::from(byte)), c as usize)
    })
}

/// Chunk boundaries differ, so the checksum has only whether each chunk begins at or before its
/// index.
fn chunks_at(sample: &Sample) -> Outcome {
    read(sample, |sum, slice, numbers| {
        let byte = numbers.up_to(slice.len_bytes());
        let (_, bytes, _, _) = slice.chunk_at_byte(byte);
        let char_idx = numbers.up_to(slice.len_chars());
        let (_, _, chars, _) = slice.chunk_at_char(char_idx);
        let line = numbers.up_to(slice.len_lines());
        let (_, _, _, breaks) = slice.chunk_at_line_break(line);
        let are_before = bytes <= byte && chars <= char_idx && breaks <= line;
        mix(sum, usize::from(are_before))
    })
}

fn cursors_at(sample: &Sample) -> Outcome {
    read(sample, |sum, slice, numbers| {
        let mut bytes = slice.bytes_at(numbers.up_to(slice.len_bytes()));
        let mut chars = slice.chars_at(numbers.up_to(slice.len_chars()));
        let mut lines = slice.lines_at(numbers.up_to(slice.len_lines()));
        let byte = usize::from(bytes.next().unwrap_or(0));
        let number = chars.next().unwrap_or('\0') as usize;
        let length = lines.next().map_or(0, |line| line.len_chars());
        mix(mix(mix(sum, byte), number), length)
    })
}

fn chars(sample: &Sample) -> Outcome {
    read(sample, |sum, slice, _| {
        sum.wrapping_add(sum_of_chars(slice.chars()))
    })
}

fn bytes(sample: &Sample) -> Outcome {
    read(sample, |sum, slice, _| {
        sum.wrapping_add(sum_of_bytes(slice.bytes()))
    })
}

fn lines(sample: &Sample) -> Outcome {
    read(sample, |sum, slice, _| mix_of_lines(sum, slice.lines()))
}

fn of_slice(sample: &Sample) -> Outcome {
    read(sample, |sum, slice, numbers| {
        let start = numbers.up_to(500);
        match slice.get_slice(start..start + 400) {
            Some(part) => mix(sum, part.len_bytes()),
            None => sum,
        }
    })
}

/// Times only the slices by bytes, not the conversions of their bounds.
fn byte_slices(sample: &Sample) -> Outcome {
    let rope = &sample.rope;
    let count = sample.operations(SLICES);
    let mut numbers = Numbers::new();
    let most = most_of(rope);
    let ranges: Vec<_> = (0..count)
        .map(|_| {
            let start = numbers.up_to(most);
            let end = (start + CHARS).min(rope.len_chars());
            (rope.char_to_byte(start), rope.char_to_byte(end))
        })
        .collect();
    timed_sum(count, || {
        let mut sum = 0;
        for &(from, to) in &ranges {
            if let Some(slice) = rope.get_byte_slice(from..to) {
                sum = mix(sum, slice.len_chars());
            }
        }
        sum
    })
}

/// Mixes the length of a text and its last byte into a checksum.
fn mix_of_text(sum: u64, text: &str) -> u64 {
    let last = text.as_bytes().last().copied().unwrap_or(0);
    mix(mix(sum, text.len()), usize::from(last))
}

fn to_string(sample: &Sample) -> Outcome {
    read(sample, |sum, slice, _| mix_of_text(sum, &slice.to_string()))
}

fn into_string(sample: &Sample) -> Outcome {
    read(sample, |sum, slice, _| {
        mix_of_text(sum, &String::from(slice))
    })
}

fn to_cow(sample: &Sample) -> Outcome {
    read(sample, |sum, slice, _| mix_of_text(sum, &Cow::from(slice)))
}
