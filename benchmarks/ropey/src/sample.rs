//! The text and the rope of a workload.

use crate::edits::insert_chars_at_random;
use ropey::Rope;

/// The size of texts and workloads.
#[derive(Clone, Copy)]
pub enum Size {
    /// The timed size.
    Full,
    /// A hundredth of it, for comparing checksums.
    Small,
}

impl Size {
    /// Returns `full`, or a hundredth of it.
    pub fn of(self, full: usize) -> usize {
        match self {
            Size::Full => full,
            Size::Small => full / 100,
        }
    }

    /// Returns the least number of bytes of a text.
    pub fn bytes(self) -> usize {
        self.of(10_000_000)
    }
}

/// The state of a rope.
#[derive(Clone, Copy, PartialEq, Eq)]
pub enum State {
    /// As made of its text.
    New,
    /// Fragmented by inserts of characters at random indices.
    Edited,
}

/// A text, and a rope of it.
pub struct Sample {
    /// The text, before any edits.
    pub text: String,
    /// A rope of the text.
    pub rope: Rope,
    size: Size,
    state: State,
}

impl Sample {
    /// Returns a text with its rope.
    pub fn new(text: String, size: Size, state: State) -> Sample {
        Sample {
            rope: rope_of(&text, size, state),
            text,
            size,
            state,
        }
    }

    /// Returns `full`, or a hundredth of it.
    pub fn operations(&self, full: usize) -> usize {
        self.size.of(full)
    }

    /// Returns an equal rope that shares nothing with the sample's.
    pub fn fresh(&self) -> Rope {
        rope_of(&self.text, self.size, self.state)
    }

    /// Returns about the number of characters of `bytes` bytes of the text.
    pub fn chars_of_bytes(&self, bytes: usize) -> usize {
        (bytes * self.rope.len_chars())
            .checked_div(self.rope.len_bytes())
            .unwrap_or(0)
    }
}

/// Returns a rope of the text in a state.
fn rope_of(text: &str, size: Size, state: State) -> Rope {
    let mut rope = Rope::from_str(text);
    if state == State::Edited {
        insert_chars_at_random(&mut rope, size.of(200_000));
    }
    rope
}
