//! Screens: fifty lines from a random one on.

use crate::cursors::{len_of_chunks, sum_of_chars};
use crate::measure::{timed_sum, Outcome};
use crate::numbers::Numbers;
use crate::sample::Sample;
use crate::workloads::Workload;
use ropey::iter::Lines;
use ropey::RopeSlice;

/// The workloads on each text, in order.
pub const WORKLOADS: &[Workload] = &[
    ("redraw_50_lines", bytes),
    ("redraw_50_lines_back", bytes_back),
    ("redraw_50_lines_lens", lengths),
    ("redraw_50_lines_chars", chars),
    ("redraw_50_lines_as_str", as_str),
];

/// The number of lines of a screen.
const LINES: usize = 50;

/// Draws many screens.
fn draw(sample: &Sample, screen: impl Fn(&mut Lines<'_>) -> u64) -> Outcome {
    let count = sample.operations(10_000);
    timed_sum(count, || {
        let mut numbers = Numbers::new();
        let last = sample.rope.len_lines() - 1;
        let mut sum: u64 = 0;
        for _ in 0..count {
            let mut lines = sample.rope.lines_at(numbers.up_to(last));
            sum = sum.wrapping_add(screen(&mut lines));
        }
        sum
    })
}

/// Adds up the results for the lines of a screen.
fn forward(lines: &mut Lines<'_>, read: impl Fn(RopeSlice<'_>) -> u64) -> u64 {
    let mut sum: u64 = 0;
    for _ in 0..LINES {
        if let Some(line) = lines.next() {
            sum = sum.wrapping_add(read(line));
        }
    }
    sum
}

fn backward(lines: &mut Lines<'_>, read: impl Fn(RopeSlice<'_>) -> u64) -> u64 {
    let mut sum: u64 = 0;
    for _ in 0..LINES {
        if let Some(line) = lines.prev() {
            sum = sum.wrapping_add(read(line));
        }
    }
    sum
}

/// Adds up the bytes of a text.
fn bytes_of_text(text: &str) -> u64 {
    let mut sum: u64 = 0;
    for byte in text.bytes() {
        sum = sum.wrapping_add(u64::from(byte));
    }
    sum
}

/// Adds up the bytes of a line, chunk by chunk.
fn bytes_of_line(line: RopeSlice<'_>) -> u64 {
    let mut sum: u64 = 0;
    for chunk in line.chunks() {
        sum = sum.wrapping_add(bytes_of_text(chunk));
    }
    sum
}

fn bytes(sample: &Sample) -> Outcome {
    draw(sample, |lines| forward(lines, bytes_of_line))
}

fn bytes_back(sample: &Sample) -> Outcome {
    draw(sample, |lines| backward(lines, bytes_of_line))
}

fn lengths(sample: &Sample) -> Outcome {
    draw(sample, |lines| {
        forward(lines, |line| len_of_chunks(line.chunks()))
    })
}

fn chars(sample: &Sample) -> Outcome {
    draw(sample, |lines| {
        forward(lines, |line| sum_of_chars(line.chars()))
    })
}

/// Adds up the bytes of each line by its `as_str`, or else chunk by chunk.
fn as_str(sample: &Sample) -> Outcome {
    draw(sample, |lines| {
        forward(lines, |line| match line.as_str() {
            Some(text) => bytes_of_text(text),
            None => bytes_of_line(line),
        })
    })
}
