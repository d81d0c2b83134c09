//! Texts by the length of their lines, and edits by their length.

use crate::editing::{insert_portion, remove_portion};
use crate::measure::Outcome;
use crate::sample::Sample;
use crate::texts::letters;

/// The length of the texts.
pub const BYTES: usize = 3_000_000;

/// The prefix of the names of these workloads.
pub const START: &str = "scale_";

/// The length of lines of the text that is edited.
pub const EIGHTY: usize = 80;

/// The lengths of lines in characters without the line break, each with the suffix of the
/// workloads' names. The last is longer than any text.
pub const LINE_LENGTHS: [(usize, &str); 7] = [
    (1, "/1"),
    (10, "/10"),
    (EIGHTY, "/80"),
    (1_000, "/1000"),
    (10_000, "/10000"),
    (100_000, "/100000"),
    (usize::MAX, "/whole"),
];

/// The length of an edit.
#[derive(Clone, Copy)]
pub enum Portion {
    /// A number of bytes.
    Bytes(usize),
    /// The length of the text, divided by a number.
    Part(usize),
}

/// All portions, each with the suffix of the workloads' names.
pub const PORTIONS: [(Portion, &str); 7] = [
    (Portion::Bytes(1), "/1B"),
    (Portion::Bytes(10), "/10B"),
    (Portion::Bytes(100), "/100B"),
    (Portion::Bytes(1_000), "/1KB"),
    (Portion::Bytes(10_000), "/10KB"),
    (Portion::Part(100), "/1%"),
    (Portion::Part(2), "/half"),
];

/// An edit of a portion.
pub type PortionEdit = fn(&Sample, Portion) -> Outcome;

/// The workloads of each portion, in order.
pub const OF_PORTIONS: [(&str, PortionEdit); 2] =
    [("insert", insert_portion), ("remove", remove_portion)];

impl Portion {
    /// Returns the bytes of this portion of a text of `len` bytes.
    pub fn bytes_of(self, len: usize) -> usize {
        match self {
            Portion::Bytes(bytes) => bytes,
            Portion::Part(divisor) => len / divisor,
        }
    }

    /// Returns the number of portions in a text of `len` bytes, at most `most`.
    pub fn count_in(self, len: usize, most: usize) -> usize {
        let count = len.checked_div(self.bytes_of(len));
        count.unwrap_or(0).min(most)
    }

    /// Returns a text of this portion's length, to be inserted into a text of `len` bytes.
    pub fn piece(self, len: usize) -> String {
        letters(EIGHTY, self.bytes_of(len))
    }
}
