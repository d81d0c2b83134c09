//! Ropes of 1 MB to 1 GB.

use crate::edits::insert_chars_at_random;
use crate::keeping::edit_and_keep;
use crate::measure::{lens, mix, timed, Outcome};
use crate::texts::Text;
use ropey::{Rope, RopeBuilder};

/// The length of the prose that longer texts repeat.
const PROSE: usize = 10_000_000;

/// The length of a text, in MB.
#[derive(Clone, Copy)]
pub enum Length {
    One,
    Ten,
    Hundred,
    Thousand,
}

/// All lengths, in order.
pub const LENGTHS: [Length; 4] = [Length::One, Length::Ten, Length::Hundred, Length::Thousand];

impl Length {
    /// Returns the suffix of the names of workloads on such a text.
    pub fn ending(self) -> &'static str {
        match self {
            Length::One => "/1MB",
            Length::Ten => "/10MB",
            Length::Hundred => "/100MB",
            Length::Thousand => "/1GB",
        }
    }

    /// Returns prose of this length.
    pub fn text(self) -> String {
        match self {
            Length::One => Text::Prose.make(PROSE / 10),
            Length::Ten => Text::Prose.make(PROSE),
            Length::Hundred => Text::Prose.make(PROSE).repeat(10),
            Length::Thousand => Text::Prose.make(PROSE).repeat(100),
        }
    }
}

/// The edits of a rope of 100 MB, for measuring the memory of the process.
#[derive(Clone, Copy, PartialEq, Eq)]
pub enum Memory {
    /// No edits.
    Made,
    /// A million inserts of a character at random indices.
    Inserted,
    /// Ten thousand clones that are kept, with an insert after each.
    Cloned,
}

/// All kinds of edits, in order.
pub const MEMORIES: [Memory; 3] = [Memory::Made, Memory::Inserted, Memory::Cloned];

impl Memory {
    /// Returns the name of the workload.
    pub fn name(self) -> &'static str {
        match self {
            Memory::Made => "mem_made",
            Memory::Inserted => "mem_inserted",
            Memory::Cloned => "mem_cloned",
        }
    }

    /// Returns the number of edits.
    fn edits(self) -> usize {
        match self {
            Memory::Made => 0,
            Memory::Inserted => 1_000_000,
            Memory::Cloned => 10_000,
        }
    }

    /// Edits the rope, and returns the clones that are kept.
    fn edit(self, rope: &mut Rope) -> Vec<Rope> {
        if self == Memory::Cloned {
            return edit_and_keep(rope, self.edits());
        }
        insert_chars_at_random(rope, self.edits());
        Vec::new()
    }
}

/// Makes the rope and edits it.
pub fn fill(memory: Memory) -> Outcome {
    timed(
        memory.edits().max(1),
        || {
            let mut rope = long_rope();
            let kept = memory.edit(&mut rope);
            (rope, kept)
        },
        |(rope, kept)| mix(lens(rope), kept.len()),
    )
}

/// Returns a rope of 100 MB. It is built from parts, so that the whole text is never in memory
/// beside it.
fn long_rope() -> Rope {
    let prose = Text::Prose.make(PROSE);
    let mut builder = RopeBuilder::new();
    for _ in 0..10 {
        builder.append(&prose);
    }
    builder.finish()
}
