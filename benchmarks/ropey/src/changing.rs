//! Changes as values: made, applied, inverted, composed, and mapped over indices. A user of the
//! Rust crate would write them as a list of edits, in order, each a range of the text before and a
//! new text.

use crate::measure::{mix, timed, whole, Outcome};
use crate::numbers::Numbers;
use crate::sample::Sample;
use crate::workloads::Workload;
use ropey::Rope;

/// The workloads on each text, in order.
pub const WORKLOADS: &[Workload] = &[
    ("changes_type", type_in_a_row),
    ("changes_carets", carets),
    ("changes_words", words),
    ("changes_invert", invert),
    ("changes_compose", compose),
    ("changes_indices", move_indices),
];

/// The number of replacements of a change in full size.
const REPLACEMENTS: usize = 1_000;

/// The number of changes that are applied to a rope.
const ROUNDS: usize = 10;

/// The characters that a replacement deletes.
const WORD: usize = 5;

/// A range of characters of the text before, and the text that replaces it.
struct Edit {
    start: usize,
    end: usize,
    text: String,
}

impl Edit {
    fn chars(&self) -> usize {
        self.text.chars().count()
    }
}

/// Returns replacements of `deleted` characters at `count` random indices, in order.
fn edits_of(
    len: usize,
    count: usize,
    deleted: usize,
    text: &str,
    numbers: &mut Numbers,
) -> Vec<Edit> {
    let span = len.checked_div(count).unwrap_or(0);
    (0..count)
        .map(|k| {
            let start = k * span + numbers.up_to(span.saturating_sub(deleted + 1));
            Edit {
                start,
                end: start + deleted,
                text: text.to_string(),
            }
        })
        .collect()
}

/// Applies edits from the last to the first, so that each range is in the text before.
fn apply(rope: &mut Rope, edits: &[Edit]) {
    for edit in edits.iter().rev() {
        if edit.start < edit.end {
            rope.remove(edit.start..edit.end);
        }
        rope.insert(edit.start, &edit.text);
    }
}

/// Returns a checksum of edits.
fn sum_of_edits(edits: &[Edit]) -> u64 {
    edits.iter().fold(0, |sum, edit| {
        mix(mix(mix(sum, edit.start), edit.end), edit.text.len())
    })
}

fn type_in_a_row(sample: &Sample) -> Outcome {
    let mut rope = sample.fresh();
    let count = sample.operations(100_000);
    let middle = rope.len_chars() / 2;
    timed(
        count,
        || {
            for k in 0..count {
                let edit = Edit {
                    start: middle + k,
                    end: middle + k,
                    text: "x".to_string(),
                };
                apply(&mut rope, &[edit]);
            }
            rope
        },
        whole,
    )
}

fn edit_in_rounds(sample: &Sample, deleted: usize, text: &str) -> Outcome {
    let mut rope = sample.fresh();
    let count = sample.operations(REPLACEMENTS);
    timed(
        count * ROUNDS,
        || {
            let mut numbers = Numbers::new();
            for _ in 0..ROUNDS {
                let edits = edits_of(rope.len_chars(), count, deleted, text, &mut numbers);
                apply(&mut rope, &edits);
            }
            rope
        },
        whole,
    )
}

fn carets(sample: &Sample) -> Outcome {
    edit_in_rounds(sample, 0, "x")
}

fn words(sample: &Sample) -> Outcome {
    edit_in_rounds(sample, WORD, "words")
}

/// Returns the edits of many words that the workloads below use.
fn many_words(sample: &Sample, len: usize, numbers: &mut Numbers) -> Vec<Edit> {
    let count = sample.operations(REPLACEMENTS);
    edits_of(len, count, WORD, "other", numbers)
}

/// Returns the edits that undo these, with slices of the text before.
fn inverse_of(rope: &Rope, edits: &[Edit]) -> Vec<Edit> {
    let mut grown = 0isize;
    edits
        .iter()
        .map(|edit| {
            let start = edit.start.wrapping_add_signed(grown);
            let chars = edit.chars();
            grown += chars as isize - (edit.end - edit.start) as isize;
            Edit {
                start,
                end: start + chars,
                text: rope.slice(edit.start..edit.end).to_string(),
            }
        })
        .collect()
}

fn invert(sample: &Sample) -> Outcome {
    let edits = many_words(sample, sample.rope.len_chars(), &mut Numbers::new());
    timed(
        edits.len(),
        || inverse_of(&sample.rope, &edits),
        |inverse| sum_of_edits(inverse),
    )
}

/// The rest of an edit, which isn't composed yet.
struct Rest<'a> {
    kept: usize,
    text: &'a str,
    deleted: usize,
}

/// Returns the edits, each with the number of characters kept before it.
fn rest_of(edits: &[Edit]) -> Vec<Rest<'_>> {
    let mut end = 0;
    edits
        .iter()
        .map(|edit| {
            let kept = edit.start - end;
            end = edit.end;
            Rest {
                kept,
                text: &edit.text,
                deleted: edit.end - edit.start,
            }
        })
        .collect()
}

/// Composed edits, and the number of characters of the text before that they cover.
#[derive(Default)]
struct Composed {
    edits: Vec<Edit>,
    passed: usize,
}

impl Composed {
    /// Returns the last edit if it ends at the current character, else a new one.
    fn open(&mut self) -> &mut Edit {
        let here = self.passed;
        if self.edits.last().map_or(true, |last| last.end != here) {
            self.edits.push(Edit {
                start: here,
                end: here,
                text: String::new(),
            });
        }
        self.edits.last_mut().expect("one was pushed")
    }

    fn insert(&mut self, text: &str) {
        if !text.is_empty() {
            self.open().text.push_str(text);
        }
    }

    fn delete(&mut self, count: usize) {
        if count > 0 {
            self.open().end += count;
            self.passed += count;
        }
    }
}

/// Returns the composition of two lists of edits, the second one of the text after the first.
fn composition_of(first: &[Edit], second: &[Edit]) -> Vec<Edit> {
    let mut made = Composed::default();
    let mut earlier = rest_of(first).into_iter();
    let mut now = earlier.next();
    for later in rest_of(second) {
        pass(&mut made, &mut now, &mut earlier, later.kept, false);
        made.insert(later.text);
        pass(&mut made, &mut now, &mut earlier, later.deleted, true);
    }
    while let Some(edit) = now {
        made.passed += edit.kept;
        made.insert(edit.text);
        made.delete(edit.deleted);
        now = earlier.next();
    }
    made.edits
}

/// Keeps or deletes `count` characters of the text between the two.
fn pass<'a>(
    made: &mut Composed,
    now: &mut Option<Rest<'a>>,
    earlier: &mut impl Iterator<Item = Rest<'a>>,
    mut count: usize,
    deletes: bool,
) {
    while count > 0 {
        let Some(edit) = now else {
            if deletes {
                made.delete(count);
            } else {
                made.passed += count;
            }
            return;
        };
        let kept = edit.kept.min(count);
        if deletes {
            made.delete(kept);
        } else {
            made.passed += kept;
        }
        edit.kept -= kept;
        count -= kept;
        if edit.kept > 0 || count == 0 && kept > 0 {
            continue;
        }
        let split = edit
            .text
            .char_indices()
            .nth(count)
            .map_or(edit.text.len(), |(at, _)| at);
        let (front, back) = edit.text.split_at(split);
        count -= front.chars().count();
        if !deletes {
            made.insert(front);
        }
        edit.text = back;
        if back.is_empty() {
            made.delete(edit.deleted);
            *now = earlier.next();
        }
    }
}

fn compose(sample: &Sample) -> Outcome {
    let mut numbers = Numbers::new();
    let first = many_words(sample, sample.rope.len_chars(), &mut numbers);
    let second = many_words(sample, sample.rope.len_chars(), &mut numbers);
    timed(
        first.len(),
        || composition_of(&first, &second),
        |both| sum_of_edits(both),
    )
}

/// Returns ten times as many indices as there are edits, in order.
fn sorted_indices(sample: &Sample, len: usize) -> Vec<usize> {
    let count = sample.operations(10 * REPLACEMENTS);
    let span = len.checked_div(count).unwrap_or(0);
    let mut numbers = Numbers::new();
    (0..count)
        .map(|k| (k * span + numbers.up_to(span)).min(len))
        .collect()
}

/// Maps sorted indices in one pass over the edits. An index in a replaced range, or at its start,
/// maps to the end of the new text.
fn moved(edits: &[Edit], indices: &mut [usize]) {
    let mut next = 0;
    let mut grown = 0isize;
    for index in indices {
        while next < edits.len() && edits[next].end <= *index {
            let edit = &edits[next];
            grown += edit.chars() as isize - (edit.end - edit.start) as isize;
            next += 1;
        }
        *index = match edits.get(next) {
            Some(edit) if edit.start <= *index => {
                edit.start.wrapping_add_signed(grown) + edit.chars()
            }
            _ => index.wrapping_add_signed(grown),
        };
    }
}

fn move_indices(sample: &Sample) -> Outcome {
    let len = sample.rope.len_chars();
    let edits = many_words(sample, len, &mut Numbers::new());
    let mut indices = sorted_indices(sample, len);
    timed(
        indices.len(),
        || {
            moved(&edits, &mut indices);
            indices
        },
        |indices| indices.iter().fold(0, |sum, &index| mix(sum, index)),
    )
}
