//! Ropes made of texts and of slices.

use crate::measure::{lens, mix, timed, timed_sum, Outcome};
use crate::numbers::Numbers;
use crate::sample::Sample;
use crate::texts::{lines_of, pieces_of};
use crate::workloads::Workload;
use ropey::{Rope, RopeBuilder};

/// The workloads on each text, in order.
pub const WORKLOADS: &[Workload] = &[
    ("from_str", from_str),
    ("builder_by_lines", builder_by_lines),
    ("from_iter_by_lines", from_iter),
    ("from_str_small", from_lines),
    ("from_str_2KB", from_pieces),
    ("from_slice_1000", from_short_slices),
    ("from_slice_100KB", from_long_slices),
];

pub fn from_str(sample: &Sample) -> Outcome {
    timed(1, || Rope::from_str(&sample.text), lens)
}

fn builder_by_lines(sample: &Sample) -> Outcome {
    let lines = lines_of(&sample.text, usize::MAX);
    timed(
        lines.len(),
        || {
            let mut builder = RopeBuilder::new();
            for line in &lines {
                builder.append(line);
            }
            builder.finish()
        },
        lens,
    )
}

fn from_iter(sample: &Sample) -> Outcome {
    let lines = lines_of(&sample.text, usize::MAX);
    timed(lines.len(), || Rope::from_iter(lines), lens)
}

fn from_lines(sample: &Sample) -> Outcome {
    let lines = lines_of(&sample.text, sample.operations(100_000));
    timed_sum(lines.len(), || sum_of_lens(lines.iter().copied()))
}

fn from_pieces(sample: &Sample) -> Outcome {
    let pieces = pieces_of(&sample.text, 2_048);
    timed_sum(pieces.len(), || {
        sum_of_lens(pieces.iter().map(String::as_str))
    })
}

/// Adds up the lengths of ropes of these texts, each dropped before the next is made.
fn sum_of_lens<'a>(texts: impl Iterator<Item = &'a str>) -> u64 {
    let mut sum: u64 = 0;
    for text in texts {
        let rope = Rope::from_str(text);
        sum = sum.wrapping_add(rope.len_chars() as u64);
    }
    sum
}

fn from_short_slices(sample: &Sample) -> Outcome {
    from_slices(sample, 1_000, sample.operations(100_000))
}

fn from_long_slices(sample: &Sample) -> Outcome {
    let chars = sample.chars_of_bytes(sample.operations(100_000));
    from_slices(sample, chars, sample.operations(1_000))
}

fn from_slices(sample: &Sample, chars: usize, count: usize) -> Outcome {
    timed_sum(count, || {
        let mut numbers = Numbers::new();
        let most = sample.rope.len_chars().saturating_sub(chars);
        let mut sum = 0;
        for _ in 0..count {
            let start = numbers.up_to(most);
            if let Some(slice) = sample.rope.get_slice(start..start + chars) {
                sum = mix(sum, Rope::from(slice).len_bytes());
            }
        }
        sum
    })
}
