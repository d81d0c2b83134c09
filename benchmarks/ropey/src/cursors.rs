//! Cursors over a rope.

use crate::lookups::byte_of;
use crate::measure::{mix, timed_sum, Outcome};
use crate::numbers::Numbers;
use crate::sample::Sample;
use crate::workloads::Workload;
use ropey::iter::{Bytes, Chars, Chunks, Lines};

/// The number of items read at each index.
const STEPS: usize = 10;

/// The workloads on each text, in order.
pub const WORKLOADS: &[Workload] = &[
    ("iter_bytes", bytes),
    ("iter_bytes_back", bytes_back),
    ("iter_bytes_reversed", bytes_reversed),
    ("iter_chars", chars),
    ("iter_chars_back", chars_back),
    ("iter_chars_reversed", chars_reversed),
    ("iter_lines", lines),
    ("iter_lines_back", lines_back),
    ("iter_lines_reversed", lines_reversed),
    ("iter_chunks_per_byte", chunks),
    ("iter_chunks_back_per_byte", chunks_back),
    ("iter_chunks_reversed_per_byte", chunks_reversed),
    ("bytes_at_and_10", bytes_at),
    ("chars_at_and_10", chars_at),
    ("chunks_at_byte_and_3", chunks_at_byte),
    ("chunks_at_char_and_3", chunks_at_char),
    ("chunks_at_line_break_and_3", chunks_at_line_break),
    ("chars_next_prev", next_prev),
    ("chars_zigzag", zigzag),
    ("clone_chars", clone_chars),
    ("clone_lines", clone_lines),
];

/// Adds up the bytes after a cursor.
pub fn sum_of_bytes(bytes: Bytes<'_>) -> u64 {
    let mut sum: u64 = 0;
    for byte in bytes {
        sum = sum.wrapping_add(u64::from(byte));
    }
    sum
}

/// Adds up the scalar values of the characters after a cursor.
pub fn sum_of_chars(chars: Chars<'_>) -> u64 {
    let mut sum: u64 = 0;
    for c in chars {
        sum = sum.wrapping_add(u64::from(c));
    }
    sum
}

/// Adds up the lengths of the chunks after a cursor.
pub fn len_of_chunks(chunks: Chunks<'_>) -> u64 {
    let mut sum: u64 = 0;
    for chunk in chunks {
        sum = sum.wrapping_add(chunk.len() as u64);
    }
    sum
}

/// Mixes the lengths of the lines after a cursor into a checksum.
pub fn mix_of_lines(before: u64, lines: Lines<'_>) -> u64 {
    let mut sum = before;
    for line in lines {
        sum = mix(sum, line.len_chars());
    }
    sum
}

pub fn bytes(sample: &Sample) -> Outcome {
    let rope = &sample.rope;
    timed_sum(rope.len_bytes(), || sum_of_bytes(rope.bytes()))
}

fn bytes_back(sample: &Sample) -> Outcome {
    let rope = &sample.rope;
    timed_sum(rope.len_bytes(), || {
        let mut bytes = rope.bytes_at(rope.len_bytes());
        let mut sum: u64 = 0;
        while let Some(byte) = bytes.prev() {
            sum = sum.wrapping_add(u64::from(byte));
        }
        sum
    })
}

fn bytes_reversed(sample: &Sample) -> Outcome {
    let rope = &sample.rope;
    let end = rope.len_bytes();
    timed_sum(end, || sum_of_bytes(rope.bytes_at(end).reversed()))
}

pub fn chars(sample: &Sample) -> Outcome {
    let rope = &sample.rope;
    timed_sum(rope.len_chars(), || sum_of_chars(rope.chars()))
}

fn chars_back(sample: &Sample) -> Outcome {
    let rope = &sample.rope;
    timed_sum(rope.len_chars(), || {
        let mut chars = rope.chars_at(rope.len_chars());
        let mut sum: u64 = 0;
        while let Some(c) = chars.prev() {
            sum = sum.wrapping_add(u64::from(c));
        }
        sum
    })
}

fn chars_reversed(sample: &Sample) -> Outcome {
    let rope = &sample.rope;
    let end = rope.len_chars();
    timed_sum(end, || sum_of_chars(rope.chars_at(end).reversed()))
}

pub fn lines(sample: &Sample) -> Outcome {
    let rope = &sample.rope;
    timed_sum(rope.len_lines(), || mix_of_lines(0, rope.lines()))
}

pub fn lines_back(sample: &Sample) -> Outcome {
    let rope = &sample.rope;
    timed_sum(rope.len_lines(), || {
        let mut lines = rope.lines_at(rope.len_lines());
        let mut sum = 0;
        while let Some(line) = lines.prev() {
            sum = mix(sum, line.len_chars());
        }
        sum
    })
}

fn lines_reversed(sample: &Sample) -> Outcome {
    let rope = &sample.rope;
    let end = rope.len_lines();
    timed_sum(end, || mix_of_lines(0, rope.lines_at(end).reversed()))
}

pub fn chunks(sample: &Sample) -> Outcome {
    let rope = &sample.rope;
    timed_sum(rope.len_bytes(), || len_of_chunks(rope.chunks()))
}

fn chunks_back(sample: &Sample) -> Outcome {
    let rope = &sample.rope;
    timed_sum(rope.len_bytes(), || {
        let (mut chunks, _, _, _) = rope.chunks_at_byte(rope.len_bytes());
        let mut sum: u64 = 0;
        while let Some(chunk) = chunks.prev() {
            sum = sum.wrapping_add(chunk.len() as u64);
        }
        sum
    })
}

fn chunks_reversed(sample: &Sample) -> Outcome {
    let rope = &sample.rope;
    timed_sum(rope.len_bytes(), || {
        let (chunks, _, _, _) = rope.chunks_at_byte(rope.len_bytes());
        len_of_chunks(chunks.reversed())
    })
}

fn bytes_at(sample: &Sample) -> Outcome {
    let count = sample.operations(100_000);
    timed_sum(count, || {
        let mut numbers = Numbers::new();
        let most = sample.rope.len_bytes().saturating_sub(STEPS + 1);
        let mut sum: u64 = 0;
        for _ in 0..count {
            let mut bytes = sample.rope.bytes_at(numbers.up_to(most));
            for _ in 0..STEPS {
                if let Some(byte) = bytes.next() {
                    sum = sum.wrapping_add(u64::from(byte));
                }
            }
        }
        sum
    })
}

fn chars_at(sample: &Sample) -> Outcome {
    let count = sample.operations(100_000);
    timed_sum(count, || {
        let mut numbers = Numbers::new();
        let most = sample.rope.len_chars().saturating_sub(STEPS + 1);
        let mut sum: u64 = 0;
        for _ in 0..count {
            let mut chars = sample.rope.chars_at(numbers.up_to(most));
            for _ in 0..STEPS {
                if let Some(c) = chars.next() {
                    sum = sum.wrapping_add(u64::from(c));
                }
            }
        }
        sum
    })
}

/// Mixes into a checksum whether the next two chunks are not empty.
fn mix_of_two(before: u64, chunks: &mut Chunks<'_>) -> u64 {
    let mut sum = before;
    for _ in 0..2 {
        if let Some(chunk) = chunks.next() {
            sum = mix(sum, usize::from(!chunk.is_empty()));
        }
    }
    sum
}

/// Mixes the bytes at random indices, and two chunks after each.
fn chunks_at_byte(sample: &Sample) -> Outcome {
    let count = sample.operations(100_000);
    timed_sum(count, || {
        let mut numbers = Numbers::new();
        let most = sample.rope.len_bytes().saturating_sub(5_001);
        let mut sum = 0;
        for _ in 0..count {
            let index = numbers.up_to(most);
            let (mut chunks, before, _, _) = sample.rope.chunks_at_byte(index);
            if let Some(chunk) = chunks.next() {
                sum = mix(sum, byte_of(chunk, index.wrapping_sub(before)));
            }
            sum = mix_of_two(sum, &mut chunks);
        }
        sum
    })
}

/// Mixes whether chunks begin at or before their index, and two chunks after each.
fn chunks_at_char(sample: &Sample) -> Outcome {
    let count = sample.operations(100_000);
    timed_sum(count, || {
        let mut numbers = Numbers::new();
        let most = sample.rope.len_chars().saturating_sub(5_001);
        let mut sum = 0;
        for _ in 0..count {
            let index = numbers.up_to(most);
            let (mut chunks, _, before, _) = sample.rope.chunks_at_char(index);
            chunks.next();
            sum = mix_of_two(mix(sum, usize::from(before <= index)), &mut chunks);
        }
        sum
    })
}

/// Mixes whether chunks begin at or before their index, and two chunks after each.
fn chunks_at_line_break(sample: &Sample) -> Outcome {
    let count = sample.operations(100_000);
    timed_sum(count, || {
        let mut numbers = Numbers::new();
        let most = sample.rope.len_lines().saturating_sub(501);
        let mut sum = 0;
        for _ in 0..count {
            let index = numbers.up_to(most);
            let (mut chunks, _, _, before) = sample.rope.chunks_at_line_break(index);
            chunks.next();
            sum = mix_of_two(mix(sum, usize::from(before <= index)), &mut chunks);
        }
        sum
    })
}

fn next_prev(sample: &Sample) -> Outcome {
    let count = sample.operations(1_000_000);
    timed_sum(count, || {
        let mut chars = sample.rope.chars_at(sample.rope.len_chars() / 2);
        let mut sum: u64 = 0;
        for _ in 0..count {
            if let Some(c) = chars.next() {
                sum = sum.wrapping_add(u64::from(c));
            }
            if let Some(c) = chars.prev() {
                sum = mix(sum, c as usize);
            }
        }
        sum
    })
}

fn zigzag(sample: &Sample) -> Outcome {
    let count = sample.operations(1_000_000);
    timed_sum(count, || {
        let mut chars = sample.rope.chars_at(sample.rope.len_chars() / 2);
        let mut sum: u64 = 0;
        for _ in 0..count {
            if let Some(c) = chars.next() {
                sum = sum.wrapping_add(u64::from(c));
            }
            if let Some(c) = chars.next() {
                sum = sum.wrapping_add(u64::from(c));
            }
            if let Some(c) = chars.prev() {
                sum = mix(sum, c as usize);
            }
        }
        sum
    })
}

fn clone_chars(sample: &Sample) -> Outcome {
    let count = sample.operations(1_000_000);
    timed_sum(count, || {
        let mut chars = sample.rope.chars_at(sample.rope.len_chars() / 2);
        let mut sum: u64 = 0;
        for _ in 0..count {
            chars.next();
            if let Some(c) = chars.clone().next() {
                sum = sum.wrapping_add(u64::from(c));
            }
        }
        sum
    })
}

fn clone_lines(sample: &Sample) -> Outcome {
    let count = sample.operations(50_000);
    timed_sum(count, || {
        let mut lines = sample.rope.lines_at(sample.rope.len_lines() / 2);
        let mut sum = 0;
        for _ in 0..count {
            lines.next();
            if let Some(line) = lines.clone().next() {
                sum = mix(sum, line.len_chars());
            }
        }
        sum
    })
}

/// Adds up the first items of cursors at random indices from 0 to `most`, 0 if there is none.
fn first_steps(count: usize, most: usize, first: impl Fn(usize) -> Option<usize>) -> Outcome {
    timed_sum(count, || {
        let mut numbers = Numbers::new();
        let mut sum: u64 = 0;
        for _ in 0..count {
            sum = sum.wrapping_add(first(numbers.up_to(most)).unwrap_or(0) as u64);
        }
        sum
    })
}

pub fn first_bytes(sample: &Sample) -> Outcome {
    let rope = &sample.rope;
    first_steps(sample.operations(100_000), rope.len_bytes(), |i| {
        rope.bytes_at(i).next().map(usize::from)
    })
}

pub fn first_chars(sample: &Sample) -> Outcome {
    let rope = &sample.rope;
    first_steps(sample.operations(100_000), rope.len_chars(), |i| {
        rope.chars_at(i).next().map(|c| c as usize)
    })
}

pub fn first_chunks(sample: &Sample) -> Outcome {
    let rope = &sample.rope;
    first_steps(sample.operations(100_000), rope.len_bytes() - 1, |i| {
        let (mut chunks, before, _, _) = rope.chunks_at_byte(i);
        chunks
            .next()
            .map(|chunk| byte_of(chunk, i.wrapping_sub(before)))
    })
}

/// Returns the number of lines to visit: about those of 20,000,000 bytes, at least 100.
fn lines_to_visit(sample: &Sample) -> usize {
    let lines = sample.rope.len_lines() * sample.operations(20_000_000) / sample.text.len();
    lines.min(sample.operations(20_000)).max(100)
}

pub fn first_lines(sample: &Sample) -> Outcome {
    let rope = &sample.rope;
    first_steps(lines_to_visit(sample), rope.len_lines() - 1, |i| {
        rope.lines_at(i).next().map(|line| line.len_chars())
    })
}

pub fn first_lines_back(sample: &Sample) -> Outcome {
    let rope = &sample.rope;
    first_steps(lines_to_visit(sample), rope.len_lines(), |i| {
        rope.lines_at(i).prev().map(|line| line.len_chars())
    })
}
