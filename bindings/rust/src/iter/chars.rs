//! Characters, chunk by chunk.
use std::str;

use crate::iter::{counted_cursor, Chunks, InChunk};

/// A cursor over the characters of a text.
///
/// ```
/// use ropey::Rope;
///
/// let rope = Rope::from_str("naïve");
/// let mut chars = rope.chars_at(3);
/// assert_eq!(chars.prev(), Some('ï'));
/// assert_eq!(chars.len(), 3);
/// assert!(chars.eq("ïve".chars()));
/// ```
#[derive(Clone)]
pub struct Chars<'a> {
    // `chunks` is after `chunk`. `side` has the characters of `chunk` after the cursor, or, after a
    // step backward, those before it: a step in the same direction takes one without testing a
    // boundary.
    chunks: Chunks<'a>,
    chunk: &'a str,
    side: str::Chars<'a>,
    is_ahead: bool,
    // `side` and the number of passed characters as they were at the last change of chunk or
    // direction. The steps since are counted on demand, so that a step changes only `side`.
    whole: &'a str,
    passed: usize,
    total: usize,
    is_reversed: bool,
}

counted_cursor!(Chars, "chars_at(3)", char, Chars::passed);

impl<'a> Chars<'a> {
    /// Returns a cursor at a byte of a chunk, `passed` characters after the start.
    #[inline]
    pub(crate) fn at((chunks, chunk, idx): InChunk<'a>, passed: usize, total: usize) -> Chars<'a> {
        let whole = &chunk[idx..];
        Chars { chunks, chunk, side: whole.chars(), is_ahead: true, whole, passed, total, is_reversed: false }
    }

    fn passed(&self) -> usize {
        let left = self.side.as_str().len();
        if self.is_ahead {
            self.passed + self.whole[..self.whole.len() - left].chars().count()
        } else {
            self.passed - self.whole[left..].chars().count()
        }
    }

    /// Sets the side, after counting the steps on the old one.
    fn set_side(&mut self, whole: &'a str, is_ahead: bool) {
        (self.passed, self.is_ahead) = (self.passed(), is_ahead);
        (self.whole, self.side) = (whole, whole.chars());
    }

    #[inline(always)]
    fn forward(&mut self) -> Option<char> {
        if !self.is_ahead {
            self.set_side(&self.chunk[self.side.as_str().len()..], true);
        }
        let next = self.side.next();
        if next.is_some() {
            return next;
        }
        self.chunk = self.chunks.forward()?;
        self.set_side(self.chunk, true);
        self.side.next()
    }

    #[inline(always)]
    fn backward(&mut self) -> Option<char> {
        if self.is_ahead {
            self.set_side(&self.chunk[..self.chunk.len() - self.side.as_str().len()], false);
        }
        let last = self.side.next_back();
        if last.is_some() {
            return last;
        }
        self.chunk = self.chunks.back()?;
        self.set_side(self.chunk, false);
        self.side.next_back()
    }
}
