//! Chunks, fetched several at a time.
use crate::ffi::{Before, Counts, Pieces, Root, FEW_PIECES};
use crate::iter::cursor;
use crate::slice::{cut, known};
use crate::MAX_BYTES;

/// A cursor over the chunks of a text: pieces of at most 984 bytes, none of them empty, that join
/// to the text.
///
/// ```
/// use ropey::Rope;
///
/// let rope = Rope::from_str(&"All the text. ".repeat(200));
/// let joined: String = rope.chunks().collect();
/// assert_eq!(rope, joined);
/// ```
pub struct Chunks<'a> {
    // The rope, or `None` for a plain text; some chunks around the cursor, `passed` of them before
    // it.
    root: Option<&'a Root>,
    pieces: Pieces<'a>,
    passed: usize,
    // The range, its first character, and the cursor's position, in bytes of the rope.
    start: usize,
    first_char: usize,
    end: usize,
    at: usize,
    // Whether the last fetch went back.
    is_back: bool,
    is_reversed: bool,
}

/// The largest number of chunks fetched at once.
const MOST: usize = 256;

cursor!(Chunks, "chunks_at_byte(3).0", &'a str, {});

/// A cursor after a chunk, the chunk, and a byte index in it.
pub(crate) type InChunk<'a> = (Chunks<'a>, &'a str, usize);

impl Clone for Chunks<'_> {
    /// Returns a cursor at the same position. Copies at most a few of the fetched chunks, since
    /// many clones are soon dropped.
    #[inline]
    fn clone(&self) -> Self {
        let pieces = self.pieces.few();
        Chunks { passed: self.passed.min(pieces.len()), pieces, ..*self }
    }
}

impl<'a> Chunks<'a> {
    /// Returns a cursor over `len` bytes of a rope from `start` on, or without a rope over `text`.
    #[inline(always)]
    pub(crate) fn over(root: Option<&'a Root>, start: Counts, len: usize, text: &'a str) -> Chunks<'a> {
        let (pieces, first_char, start) = (Pieces::of(text), start.chars, start.bytes);
        let (end, at) = (start + len, start);
        Chunks { root, pieces, passed: 0, start, first_char, end, at, is_back: false, is_reversed: false }
    }

    #[inline]
    pub(crate) fn at_end(mut self) -> Chunks<'a> {
        (self.passed, self.at) = (self.pieces.len(), self.end);
        self
    }

    /// Returns a cursor after the chunk that contains the byte `at` of the range, or after the last
    /// one for the length; with that chunk, cut to the range, and the index of the byte in it.
    #[inline]
    pub(crate) fn in_chunk(mut self, root: &'a Root, start: Counts, counts: Counts, at: usize) -> InChunk<'a> {
        if at == 0 {
            let text = known(self.forward());
            return (self, text, 0);
        }
        let (text, before, ..) = known(root.chunk_at_byte(start.bytes + at.min(counts.bytes - 1)));
        let (text, first) = cut(text, before, start, counts);
        self.at = first + text.len();
        (self, text, start.bytes + at - first)
    }

    #[inline(always)]
    pub(crate) fn forward(&mut self) -> Option<&'a str> {
        let text = match self.pieces.get(self.passed) {
            Some(text) => text,
            None if self.at == self.end => return None,
            None => self.fetch_next()?,
        };
        self.passed += 1;
        self.at += text.len();
        Some(text)
    }

    #[inline(always)]
    pub(crate) fn backward(&mut self) -> Option<&'a str> {
        let text = match self.passed {
            0 if self.at == self.start => return None,
            0 => self.fetch_previous()?,
            passed => self.pieces.get(passed - 1)?,
        };
        self.passed -= 1;
        self.at -= text.len();
        Some(text)
    }

    /// Iterates forward, and prefetches each chunk while the one before it is read.
    #[inline]
    pub(crate) fn read(mut self) -> impl Iterator<Item = &'a str> {
        std::iter::from_fn(move || {
            let text = self.forward();
            self.pieces.prefetch(self.passed);
            text
        })
    }

    /// Moves from after a chunk to after the previous one, and returns that. Stays if there is
    /// none.
    #[inline]
    pub(crate) fn back(&mut self) -> Option<&'a str> {
        self.backward();
        let before = self.backward();
        self.forward();
        before
    }

    /// Fetches the next chunks, and returns the first of them.
    #[inline(never)]
    fn fetch_next(&mut self) -> Option<&'a str> {
        let (root, at) = (self.root?, self.at);
        // At the start by character, as the range was found: those totals are in the cache.
        let first_char = (at == self.start).then_some(self.first_char);
        self.find(|pieces| match first_char {
            Some(first_char) => pieces.fetch_at_char(root, first_char),
            None => pieces.fetch_at_byte(root, at),
        });
        self.pieces.get(0)
    }

    /// Fetches the previous chunks, and returns the last of them. If the cursor is inside a chunk,
    /// at the end of the range, that is the part before the cursor.
    #[inline(never)]
    fn fetch_previous(&mut self) -> Option<&'a str> {
        let (root, left) = (self.root?, self.at - self.start);
        let next = self.set_room(left, true);
        let end = self.pieces.fetch_before(root, self.at, left);
        if end < self.at {
            self.pieces.room = 1;
            self.pieces.fetch_at_byte(root, end);
            let skipped = self.start.saturating_sub(end);
            self.pieces.cut(skipped, self.at - end - skipped);
        }
        self.pieces.room = next;
        self.passed = self.pieces.len();
        self.pieces.get(self.passed - 1)
    }

    /// Sets the number of chunks to fetch, at least two and about as many as full chunks would need
    /// for `left` bytes. Returns the limit for the next fetch in the same direction: it starts low,
    /// also after a turn, since many cursors are soon dropped or turned again, and doubles each
    /// time.
    fn set_room(&mut self, left: usize, is_back: bool) -> usize {
        let room = if is_back == self.is_back { self.pieces.room } else { FEW_PIECES };
        self.is_back = is_back;
        self.pieces.room = room.min((left + MAX_BYTES / 2) / MAX_BYTES + 1).max(2);
        MOST.min(2 * room)
    }

    /// Fetches chunks by a lookup, cuts them to the range, and moves before the first of them.
    /// Returns the counts before that chunk in the rope.
    #[inline]
    pub(crate) fn find(&mut self, fetch: impl FnOnce(&mut Pieces<'a>) -> Before) -> Before {
        let next = self.set_room(self.end - self.at, false);
        let before = fetch(&mut self.pieces);
        self.pieces.room = next;
        self.at = before.0.max(self.start);
        self.passed = 0;
        self.pieces.cut(self.at - before.0, self.end - self.at);
        before
    }
}
