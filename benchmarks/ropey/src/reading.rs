//! Ropes read from readers, and written to writers and strings.

use crate::measure::{lens, timed, timed_sum, Outcome};
use crate::numbers::Fnv;
use crate::sample::Sample;
use crate::texts::pieces_of;
use crate::workloads::Workload;
use ropey::Rope;

/// The workloads on each text, in order.
pub const WORKLOADS: &[Workload] = &[
    ("from_reader_10MB", from_reader),
    ("from_reader_100MB", from_reader_long),
    ("from_reader_2KB", from_reader_pieces),
    ("write_to_vec", write_to),
    ("to_string", to_string),
    ("into_string", into_string),
];

fn rope_of_reader(text: &str) -> Rope {
    Rope::from_reader(text.as_bytes()).expect("the text is UTF-8, and reads of it don't fail")
}

fn from_reader(sample: &Sample) -> Outcome {
    timed(1, || rope_of_reader(&sample.text), lens)
}

fn from_reader_long(sample: &Sample) -> Outcome {
    let text = sample.text.repeat(10);
    timed(1, || rope_of_reader(&text), lens)
}

fn from_reader_pieces(sample: &Sample) -> Outcome {
    let pieces = pieces_of(&sample.text, 2_048);
    timed_sum(pieces.len(), || {
        let mut sum: u64 = 0;
        for piece in &pieces {
            sum = sum.wrapping_add(rope_of_reader(piece).len_chars() as u64);
        }
        sum
    })
}

fn write_to(sample: &Sample) -> Outcome {
    let mut bytes = Vec::with_capacity(sample.rope.len_bytes());
    timed(
        1,
        || {
            sample
                .rope
                .write_to(&mut bytes)
                .expect("writes to a vector don't fail");
            bytes
        },
        |bytes| Fnv::of(bytes),
    )
}

fn to_string(sample: &Sample) -> Outcome {
    timed(
        1,
        || sample.rope.to_string(),
        |text| Fnv::of(text.as_bytes()),
    )
}

pub fn into_string(sample: &Sample) -> Outcome {
    timed(
        1,
        || String::from(&sample.rope),
        |text| Fnv::of(text.as_bytes()),
    )
}
