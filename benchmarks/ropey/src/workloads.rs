//! The workloads by name.

use crate::measure::Outcome;
use crate::numbers::Fnv;
use crate::sample::{Sample, State};
use crate::{
    changing, comparing, counting, cursors, editing, keeping, lookups, making, reading, screens,
    slicing,
};

/// A name, and the function that runs the workload.
pub type Workload = (&'static str, fn(&Sample) -> Outcome);

/// The checksum of the text itself. Nothing is timed.
const TEXT: &[Workload] = &[("text", text)];

/// The workloads on an edited rope of each text, in order.
const OF_EDITED: &[Workload] = &[
    ("insert_char_random", editing::insert_char_random),
    ("remove_random", editing::remove_random),
    ("shrink_to_fit", editing::shrink_to_fit),
    ("char_to_byte", lookups::char_to_byte),
    ("char_to_line", lookups::char_to_line),
    ("char_to_utf16_cu", lookups::char_to_utf16_cu),
    ("line_to_char", lookups::line_to_char),
    ("byte", lookups::byte),
    ("char", lookups::char),
    ("iter_bytes", cursors::bytes),
    ("iter_chars", cursors::chars),
    ("iter_lines", cursors::lines),
    ("iter_chunks_per_byte", cursors::chunks),
    ("into_string", reading::into_string),
];

/// The workloads without a text.
pub const OF_NONE: &[Workload] = &[("grow_from_empty", editing::grow_from_empty)];

/// The workloads on texts of several lengths, in order.
pub const OF_LENGTHS: &[Workload] = &[
    ("from_str", making::from_str),
    ("byte", lookups::byte),
    ("char_to_line", lookups::char_to_line),
    ("insert_char_random", editing::insert_char_random),
];

/// The workloads on lines of several lengths, in order.
pub const OF_LINE_LENGTHS: &[Workload] = &[
    ("iter_lines", cursors::lines),
    ("iter_lines_back", cursors::lines_back),
    ("lines_at", cursors::first_lines),
    ("lines_at_back", cursors::first_lines_back),
    ("line", lookups::line),
    ("chunk_at_line_break", lookups::chunk_at_line_break),
    ("char_to_line", lookups::char_to_line),
    ("line_to_char", lookups::line_to_char),
    ("bytes_at", cursors::first_bytes),
    ("chars_at", cursors::first_chars),
    ("chunks_at_byte", cursors::first_chunks),
];

/// Returns the workloads on each text, in order.
pub fn of_texts(state: State) -> Vec<Workload> {
    match state {
        State::New => [
            TEXT,
            making::WORKLOADS,
            reading::WORKLOADS,
            editing::WORKLOADS,
            keeping::WORKLOADS,
            changing::WORKLOADS,
            lookups::WORKLOADS,
            slicing::WORKLOADS,
            cursors::WORKLOADS,
            screens::WORKLOADS,
            comparing::WORKLOADS,
            counting::WORKLOADS,
        ]
        .concat(),
        State::Edited => OF_EDITED.to_vec(),
    }
}

fn text(sample: &Sample) -> Outcome {
    Outcome {
        operations: sample.text.len(),
        nanos: 0,
        checksum: Fnv::of(sample.text.as_bytes()),
    }
}
