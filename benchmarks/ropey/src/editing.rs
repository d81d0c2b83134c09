//! Edits of a rope that shares no nodes.

use crate::edits::{
    append_all, insert_chars_at_random, insert_chars_in_a_row, insert_text_at_random,
    remove_at_random, remove_long_at_random, replace_at_random, split_at_random, split_near_middle,
    type_text,
};
use crate::measure::{lens, timed, whole, Outcome};
use crate::sample::Sample;
use crate::scaling::Portion;
use crate::texts::{first_lines, lines_of};
use crate::workloads::Workload;
use ropey::Rope;

/// The approximate length of a long insert or removal.
const LONG: usize = 10_000;

/// A text of two lines.
const TWO_LINES: &str = "hello\nworld ";

/// The workloads on each text, in order.
pub const WORKLOADS: &[Workload] = &[
    ("insert_char_random", insert_char_random),
    ("insert_char_coherent", insert_char_coherent),
    ("insert_str_random", insert_str_random),
    ("insert_10KB", insert_long),
    ("remove_random", remove_random),
    ("remove_insert_random", remove_insert_random),
    ("remove_10KB", remove_long),
    ("split_and_append", split_and_append),
    ("split_anywhere", split_anywhere),
    ("append_small", append_small),
    ("append_small_from_empty", append_small_from_empty),
    ("type_from_empty", type_from_empty),
    ("shrink_to_fit_100MB", shrink_to_fit_long),
];

/// Times `count` edits of a rope.
fn edited(mut rope: Rope, count: usize, edits: impl FnOnce(&mut Rope)) -> Outcome {
    timed(
        count,
        || {
            edits(&mut rope);
            rope
        },
        whole,
    )
}

pub fn insert_char_random(sample: &Sample) -> Outcome {
    let count = sample.operations(100_000);
    edited(sample.fresh(), count, |rope| {
        insert_chars_at_random(rope, count)
    })
}

fn insert_char_coherent(sample: &Sample) -> Outcome {
    let count = sample.operations(100_000);
    edited(sample.fresh(), count, |rope| {
        insert_chars_in_a_row(rope, count)
    })
}

fn insert_str_random(sample: &Sample) -> Outcome {
    let count = sample.operations(100_000);
    edited(sample.fresh(), count, |rope| {
        insert_text_at_random(rope, TWO_LINES, count)
    })
}

fn insert_long(sample: &Sample) -> Outcome {
    let count = sample.operations(1_000);
    let piece = first_lines(&sample.text, LONG);
    edited(sample.fresh(), count, |rope| {
        insert_text_at_random(rope, &piece, count)
    })
}

pub fn remove_random(sample: &Sample) -> Outcome {
    let count = sample.operations(100_000);
    edited(sample.fresh(), count, |rope| remove_at_random(rope, count))
}

fn remove_insert_random(sample: &Sample) -> Outcome {
    let count = sample.operations(100_000);
    edited(sample.fresh(), count, |rope| replace_at_random(rope, count))
}

fn remove_long(sample: &Sample) -> Outcome {
    let count = sample.operations(500);
    let chars = sample.chars_of_bytes(LONG);
    edited(sample.fresh(), count, |rope| {
        remove_long_at_random(rope, chars, count)
    })
}

fn split_and_append(sample: &Sample) -> Outcome {
    let count = sample.operations(1_000);
    edited(sample.fresh(), count, |rope| split_near_middle(rope, count))
}

fn split_anywhere(sample: &Sample) -> Outcome {
    let count = sample.operations(1_000);
    edited(sample.fresh(), count, |rope| split_at_random(rope, count))
}

/// A rope of each of the first lines.
fn ropes_of_lines(sample: &Sample, count: usize) -> Vec<Rope> {
    let lines = lines_of(&sample.text, count);
    lines.into_iter().map(Rope::from_str).collect()
}

fn append_small(sample: &Sample) -> Outcome {
    let count = sample.operations(1_000);
    let others = ropes_of_lines(sample, count);
    edited(sample.fresh(), count, |rope| append_all(rope, others))
}

fn append_small_from_empty(sample: &Sample) -> Outcome {
    let count = sample.operations(1_000);
    let others = ropes_of_lines(sample, count);
    edited(Rope::new(), count, |rope| append_all(rope, others))
}

fn type_from_empty(sample: &Sample) -> Outcome {
    let count = sample.operations(100_000);
    edited(Rope::new(), count, |rope| {
        type_text(rope, &sample.text, count)
    })
}

pub fn grow_from_empty(sample: &Sample) -> Outcome {
    let count = sample.operations(200_000);
    edited(Rope::new(), count, |rope| {
        insert_text_at_random(rope, TWO_LINES, count)
    })
}

pub fn shrink_to_fit(sample: &Sample) -> Outcome {
    edited(sample.fresh(), 1, Rope::shrink_to_fit)
}

/// Re-chunks a rope that shares all its nodes: the sample's rope, ten times.
fn shrink_to_fit_long(sample: &Sample) -> Outcome {
    let mut rope = sample.rope.clone();
    for _ in 1..10 {
        rope.append(sample.rope.clone());
    }
    timed(
        1,
        || {
            rope.shrink_to_fit();
            rope
        },
        lens,
    )
}

/// Inserts a portion of a text at random indices.
pub fn insert_portion(sample: &Sample, portion: Portion) -> Outcome {
    let len = sample.text.len();
    let count = portion.count_in(len, sample.operations(10_000)).max(3);
    let piece = portion.piece(len);
    edited(sample.fresh(), count, |rope| {
        insert_text_at_random(rope, &piece, count)
    })
}

/// Removes a portion of the text at random indices.
pub fn remove_portion(sample: &Sample, portion: Portion) -> Outcome {
    let len = sample.text.len();
    let count = (portion.count_in(len, sample.operations(10_000)) / 2).max(1);
    edited(sample.fresh(), count, |rope| {
        remove_long_at_random(rope, portion.bytes_of(len), count)
    })
}
