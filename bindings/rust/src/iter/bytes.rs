//! Bytes, chunk by chunk.
use crate::iter::{counted_cursor, Chunks, InChunk};

/// A cursor over the bytes of a text.
///
/// ```
/// use ropey::Rope;
///
/// let rope = Rope::from_str("abc");
/// let mut bytes = rope.bytes();
/// assert_eq!(bytes.len(), 3);
/// assert_eq!(bytes.next(), Some(b'a'));
/// assert!(bytes.eq(*b"bc"));
/// ```
#[derive(Clone)]
pub struct Bytes<'a> {
    // `chunks` is after `chunk`, and `before` bytes are before `chunk`. A step inside it changes
    // only `idx`.
    chunks: Chunks<'a>,
    chunk: &'a [u8],
    before: usize,
    idx: usize,
    total: usize,
    is_reversed: bool,
}

counted_cursor!(Bytes, "bytes_at(3)", u8, |bytes: &Bytes<'_>| bytes.before + bytes.idx);

impl<'a> Bytes<'a> {
    /// Returns a cursor at a byte of a chunk, `passed` bytes after the start.
    #[inline]
    pub(crate) fn at((chunks, text, idx): InChunk<'a>, passed: usize, total: usize) -> Bytes<'a> {
        Bytes { chunks, chunk: text.as_bytes(), before: passed - idx, idx, total, is_reversed: false }
    }

    #[inline(always)]
    fn forward(&mut self) -> Option<u8> {
        if self.idx == self.chunk.len() {
            self.chunk = self.chunks.forward()?.as_bytes();
            (self.before, self.idx) = (self.before + self.idx, 0);
        }
        let byte = self.chunk.get(self.idx);
        self.idx += 1;
        byte.copied()
    }

    #[inline(always)]
    fn backward(&mut self) -> Option<u8> {
        if self.idx == 0 {
            self.chunk = self.chunks.back()?.as_bytes();
            (self.before, self.idx) = (self.before - self.chunk.len(), self.chunk.len());
        }
        self.idx -= 1;
        self.chunk.get(self.idx).copied()
    }
}
