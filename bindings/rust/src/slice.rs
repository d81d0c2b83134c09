//! Slices: ranges of a rope, or plain texts.
use std::ops::RangeBounds;

use crate::calls::{conversions, example, panicking_calls};
use crate::ffi::{Before, ChunkAt, Counts, Lent, Pieces, Plain, Root};
use crate::iter::{Bytes, Chars, Chunks, InChunk, Lines};
use crate::range::Bounds;
use crate::str_utils::first_line;
use crate::{Error, LineBreaks, Result, MAX_BYTES};

/// A part of a rope's text, or of a plain `&str`. The text isn't copied.
///
/// A slice is a text of its own: its indices count from its start. It has all lookups that a rope
/// has. A CR LF that is cut at an end of the slice leaves a lone CR or LF, which counts as such.
///
/// ```
/// use ropey::{Rope, RopeSlice};
///
/// let rope = Rope::from_str("one\ntwo\nthree\n");
/// let slice = rope.slice(4..10);
/// assert_eq!(slice, "two\nth");
/// assert_eq!(slice.len_lines(), 2);
/// assert_eq!(slice.char_to_line(4), 1);
/// assert_eq!(slice.slice(4..), RopeSlice::from("th"));
/// ```
#[derive(Clone, Copy)]
pub struct RopeSlice<'a> {
    pub(crate) counts: Counts,
    pub(crate) part: Part<'a>,
}

#[derive(Clone, Copy)]
pub(crate) enum Part<'a> {
    /// A range of a rope, with the counts of the text before it.
    Range { root: &'a Root, start: Counts },
    /// A plain text.
    Text(Plain<'a>),
}

/// A cursor over chunks, and the byte, character and line break index of its position.
pub(crate) type ChunksAt<'a> = (Chunks<'a>, usize, usize, usize);

/// Returns the result of a lookup whose index was compared with the length.
pub(crate) fn known<T>(result: Option<T>) -> T {
    result.expect("the index is in bounds")
}

/// Returns the part of a chunk's text that lies in a range, and that part's byte index in the rope.
pub(crate) fn cut(text: &str, bytes: usize, start: Counts, counts: Counts) -> (&str, usize) {
    let skipped = start.bytes.saturating_sub(bytes);
    (&text[skipped..text.len().min(start.bytes + counts.bytes - bytes)], bytes + skipped)
}

impl Root {
    /// Returns a line, including its line break, or `None` if the index is past the last one.
    pub(crate) fn line(&self, line_idx: usize) -> Option<RopeSlice<'_>> {
        Some(RopeSlice::of_lent(self, self.line_slice(line_idx)?, || RopeSlice::before_line(self, line_idx)))
    }
}

/// Constructors and parts.
impl<'a> RopeSlice<'a> {
    pub(crate) fn empty(breaks: LineBreaks) -> RopeSlice<'static> {
        RopeSlice::of_text(Plain { text: "", breaks }, Counts::NONE)
    }

    /// Returns a range of a rope.
    #[inline]
    pub(crate) fn of_range(root: &'a Root, start: Counts, counts: Counts) -> RopeSlice<'a> {
        match counts.bytes {
            0 => RopeSlice::empty(root.breaks()),
            _ => RopeSlice { counts, part: Part::Range { root, start } },
        }
    }

    /// Returns a slice of a text with known counts.
    #[inline]
    pub(crate) fn of_text(plain: Plain<'a>, counts: Counts) -> RopeSlice<'a> {
        RopeSlice { counts, part: Part::Text(plain) }
    }

    /// Returns a slice of a text, after counting it.
    #[inline]
    pub(crate) fn counted(plain: Plain<'a>) -> RopeSlice<'a> {
        RopeSlice::of_text(plain, plain.counts())
    }

    /// Returns the text that a lookup found, if it lies in one chunk, else a range of the rope.
    #[inline]
    pub(crate) fn of_lent(root: &'a Root, lent: Lent<'a>, before: impl FnOnce() -> Counts) -> RopeSlice<'a> {
        match lent {
            (Some(text), counts) => RopeSlice::of_text(Plain { text, breaks: root.breaks() }, counts),
            (None, counts) => RopeSlice::of_range(root, before(), counts),
        }
    }

    /// Returns the characters of a rope from `start` up to `end`, which are in bounds.
    #[inline]
    pub(crate) fn of_chars(root: &'a Root, start: usize, end: usize) -> RopeSlice<'a> {
        // They may lie in one chunk.
        if end - start <= MAX_BYTES {
            let (lent, before) = root.char_slice(start, end);
            return RopeSlice::of_lent(root, lent, || before);
        }
        let (counts, before) = root.counts_in_chars(start, end);
        RopeSlice::of_range(root, before, counts)
    }

    /// Returns the bytes of a rope from `start` up to `end`, which are in bounds, or `None` if a
    /// bound is inside a character.
    pub(crate) fn of_bytes(root: &'a Root, start: usize, end: usize) -> Option<RopeSlice<'a>> {
        if root.len_chars() == root.len_bytes() {
            return Some(RopeSlice::of_chars(root, start, end));
        }
        let (lent, before) = root.byte_slice(start, end)?;
        Some(RopeSlice::of_lent(root, lent, || before))
    }

    /// Returns the counts before a line of a rope.
    pub(crate) fn before_line(root: &'a Root, line_idx: usize) -> Counts {
        let start = known(root.line_to_char(line_idx));
        root.counts_in_chars(start, start).1
    }

    /// Returns the counts before the slice in its rope.
    pub(crate) fn start(&self) -> Counts {
        let Part::Range { start, .. } = self.part else { return Counts::NONE };
        start
    }

    /// Returns whether the slice is all of a rope.
    pub(crate) fn is_whole(&self) -> bool {
        matches!(self.part, Part::Range { root, .. } if root.len_bytes() == self.counts.bytes)
    }

    /// Returns whether the slice is a range that may lie in one chunk.
    fn may_be_one_chunk(&self) -> bool {
        self.counts.bytes <= MAX_BYTES && matches!(self.part, Part::Range { .. })
    }

    /// Returns the rope and its line index of a line of the slice, or `None` if the slice may cut
    /// the line: if the slice isn't whole, its first line, its last, and the one before that, whose
    /// CR LF may lose its LF.
    #[inline]
    pub(crate) fn line_of_rope(&self, line_idx: usize, is_whole: bool) -> Option<(&'a Root, usize)> {
        match self.part {
            Part::Range { root, start } if is_whole || (line_idx > 0 && line_idx + 1 < self.counts.line_breaks) => {
                Some((root, start.line_breaks + line_idx))
            }
            _ => None,
        }
    }
}

macro_rules! convert {
    ($self:ident, $index:ident, $len:expr, $error:ident, $from:ident, $to:ident, $call:ident) => {{
        let (len, all) = ($len, $self.counts.$to);
        Ok(match $self.part {
            _ if $index > len => return Err(Error::$error($index, len)),
            _ if $index == len => all,
            _ if $index == 0 => 0,
            // The line after a CR starts past the range if the range cuts off the LF.
            Part::Range { root, start } => all.min(known(root.$call(start.$from + $index)) - start.$to),
            Part::Text(plain) => plain.$call($index),
        })
    }};
}

/// Lengths, in constant time.
impl<'a> RopeSlice<'a> {
    /// Returns the length in bytes.
    #[doc = example!("RopeSlice::from", "len_bytes(), 9")]
    #[inline]
    pub fn len_bytes(&self) -> usize {
        self.counts.bytes
    }

    /// Returns the length in characters.
    #[doc = example!("RopeSlice::from", "len_chars(), 8")]
    #[inline]
    pub fn len_chars(&self) -> usize {
        self.counts.chars
    }

    /// Returns the number of lines: the number of line breaks, plus one.
    #[doc = example!("RopeSlice::from", "len_lines(), 3")]
    #[inline]
    pub fn len_lines(&self) -> usize {
        self.counts.line_breaks + 1
    }

    /// Returns the length in UTF-16 code units.
    #[doc = example!("RopeSlice::from", "len_utf16_cu(), 8")]
    #[inline]
    pub fn len_utf16_cu(&self) -> usize {
        self.counts.utf16
    }

    /// Returns the set of line breaks: that of the rope.
    ///
    /// ```
    /// use ropey::{LineBreaks, Rope};
    ///
    /// let rope = Rope::from_str_with("one\ntwo", LineBreaks::Lf);
    /// assert_eq!(rope.slice(2..).line_breaks(), LineBreaks::Lf);
    /// ```
    #[inline]
    pub fn line_breaks(&self) -> LineBreaks {
        match self.part {
            Part::Range { root, .. } => root.breaks(),
            Part::Text(plain) => plain.breaks,
        }
    }

    /// Returns the text if it is contiguous, as in a slice of one chunk.
    #[doc = example!("RopeSlice::from", "as_str(), Some(\"né\\r\\ntwo\\n\")")]
    #[inline]
    pub fn as_str(&self) -> Option<&'a str> {
        match self.part {
            Part::Range { .. } => None,
            Part::Text(plain) => Some(plain.text),
        }
    }
}

/// Lookups. They allocate nothing.
impl<'a> RopeSlice<'a> {
    panicking_calls!('a, "RopeSlice::from");
    conversions!(convert, "RopeSlice::from");

    /// Returns a byte, or `None` if the index is past the last one.
    #[doc = example!("RopeSlice::from", "get_byte(9), None")]
    #[inline]
    pub fn get_byte(&self, byte_idx: usize) -> Option<u8> {
        match self.part {
            _ if byte_idx >= self.counts.bytes => None,
            Part::Range { root, start } => root.byte(start.bytes + byte_idx),
            Part::Text(plain) => Some(plain.text.as_bytes()[byte_idx]),
        }
    }

    /// Returns a character, or `None` if the index is past the last one.
    #[doc = example!("RopeSlice::from", "get_char(1), Some('é')")]
    #[inline]
    pub fn get_char(&self, char_idx: usize) -> Option<char> {
        match self.part {
            _ if char_idx >= self.counts.chars => None,
            Part::Range { root, start } => root.char(start.chars + char_idx),
            Part::Text(plain) => plain.text[plain.char_to_byte(char_idx)..].chars().next(),
        }
    }

    /// Returns a line, including its line break, or `None` if the index is past the last one.
    #[doc = example!("RopeSlice::from", "get_line(3).is_none(), true")]
    pub fn get_line(&self, line_idx: usize) -> Option<RopeSlice<'a>> {
        if line_idx > self.counts.line_breaks {
            return None;
        }
        if let Some((root, line)) = self.line_of_rope(line_idx, self.is_whole()) {
            return root.line(line);
        }
        if let Part::Text(plain) = self.part {
            let (line, counts) = first_line(plain.with(&plain.text[plain.line_to_byte(line_idx)..]));
            return Some(RopeSlice::of_text(plain.with(line), counts));
        }
        let (from, to) = (self.try_line_to_char(line_idx).ok()?, self.try_line_to_char(line_idx + 1).ok()?);
        self.get_slice(from..to)
    }

    /// Returns what [`chunk_at_byte`](Self::chunk_at_byte) does, or an error if the index is past
    /// the end.
    #[doc = example!("RopeSlice::from", "try_chunk_at_byte(10).is_err(), true")]
    pub fn try_chunk_at_byte(&self, byte_idx: usize) -> Result<ChunkAt<'a>> {
        let len = self.len_bytes();
        self.get_chunk_at_byte(byte_idx).ok_or(Error::ByteIndexOutOfBounds(byte_idx, len))
    }

    /// Returns what [`chunk_at_byte`](Self::chunk_at_byte) does, or `None` if the index is past the
    /// end.
    pub(crate) fn get_chunk_at_byte(&self, byte_idx: usize) -> Option<ChunkAt<'a>> {
        let last = self.counts.bytes.wrapping_sub(1);
        self.chunk_by(byte_idx, self.counts.bytes, |root, start| root.chunk_at_byte(start.bytes + byte_idx.min(last)))
    }

    /// Returns what [`chunk_at_char`](Self::chunk_at_char) does, or `None` if the index is past the
    /// end.
    #[doc = example!("RopeSlice::from", "get_chunk_at_char(4).is_some(), true")]
    pub fn get_chunk_at_char(&self, char_idx: usize) -> Option<ChunkAt<'a>> {
        let last = self.counts.chars.wrapping_sub(1);
        self.chunk_by(char_idx, self.counts.chars, |root, start| root.chunk_at_char(start.chars + char_idx.min(last)))
    }

    /// Returns what [`chunk_at_line_break`](Self::chunk_at_line_break) does, or `None` if the index
    /// is past the number of lines.
    #[doc = example!("RopeSlice::from", "get_chunk_at_line_break(4).is_none(), true")]
    pub fn get_chunk_at_line_break(&self, line_break_idx: usize) -> Option<ChunkAt<'a>> {
        let lines = self.len_lines();
        self.chunk_by(line_break_idx, lines, |root, start| match line_break_idx {
            0 => root.chunk_at_byte(start.bytes),
            _ if line_break_idx == lines => root.chunk_at_byte(start.bytes + self.counts.bytes - 1),
            _ => root.chunk_at_line_break(start.line_breaks + line_break_idx),
        })
    }

    /// Returns the chunk that a lookup finds, cut to the slice and with counts from its start, or
    /// `None` if the index is past the length.
    #[inline]
    fn chunk_by(
        &self,
        index: usize,
        len: usize,
        find: impl FnOnce(&'a Root, Counts) -> Option<ChunkAt<'a>>,
    ) -> Option<ChunkAt<'a>> {
        Some(match self.part {
            _ if index > len => return None,
            Part::Range { root, start } => {
                let (text, bytes, chars, line_breaks) = known(find(root, start));
                let (text, first) = cut(text, bytes, start, self.counts);
                let chars = chars.saturating_sub(start.chars);
                (text, first - start.bytes, chars, line_breaks.saturating_sub(start.line_breaks))
            }
            Part::Text(plain) => (plain.text, 0, 0, 0),
        })
    }

    pub(crate) fn slice_chars(&self, bounds: Bounds) -> Result<RopeSlice<'a>> {
        let len = self.counts.chars;
        let (from, to) = bounds.of_chars(len)?;
        if to - from == len && !self.may_be_one_chunk() {
            return Ok(*self);
        }
        Ok(match self.part {
            Part::Range { root, start } => RopeSlice::of_chars(root, start.chars + from, start.chars + to),
            Part::Text(plain) => {
                let rest = plain.with(&plain.text[plain.char_to_byte(from)..]);
                RopeSlice::counted(plain.with(&rest.text[..rest.char_to_byte(to - from)]))
            }
        })
    }

    pub(crate) fn slice_bytes(&self, bounds: Bounds) -> Result<RopeSlice<'a>> {
        let len = self.counts.bytes;
        let (from, to) = bounds.of_bytes(len)?;
        if to - from == len && !self.may_be_one_chunk() {
            return Ok(*self);
        }
        let slice = match self.part {
            Part::Range { root, start } => RopeSlice::of_bytes(root, start.bytes + from, start.bytes + to),
            Part::Text(plain) => plain.text.get(from..to).map(|text| RopeSlice::counted(plain.with(text))),
        };
        slice.ok_or(bounds.inside_character())
    }
}

/// Line breaks.
impl<'a> RopeSlice<'a> {
    /// Returns the slice without the line break that ends it, or the whole slice if there is none.
    ///
    /// ```
    /// use ropey::Rope;
    ///
    /// let rope = Rope::from_str("one\r\ntwo");
    /// assert_eq!(rope.line(0).without_break(), "one");
    /// assert_eq!(rope.line(1).without_break(), "two");
    /// ```
    pub fn without_break(&self) -> RopeSlice<'a> {
        self.slice(..self.len_chars() - self.last_break_len())
    }

    /// Returns the line break that ends the slice, or an empty slice if there is none.
    ///
    /// ```
    /// use ropey::Rope;
    ///
    /// let rope = Rope::from_str("one\r\ntwo");
    /// assert_eq!(rope.line(0).line_break(), "\r\n");
    /// assert_eq!(rope.line(1).line_break(), "");
    /// ```
    pub fn line_break(&self) -> RopeSlice<'a> {
        self.slice(self.len_chars() - self.last_break_len()..)
    }

    /// Returns the number of characters of the line break that ends the slice: 2 for CR LF, unless
    /// LF alone breaks lines.
    fn last_break_len(&self) -> usize {
        let (len, breaks) = (self.len_chars(), self.line_breaks());
        let is_ended = len > 0 && breaks.is_break(self.char(len - 1));
        let is_crlf = is_ended && len > 1 && breaks.is_break('\r') && self.slice(len - 2..) == "\r\n";
        usize::from(is_ended) + usize::from(is_crlf)
    }
}

/// Cursors, or `None` if the index is past the end.
impl<'a> RopeSlice<'a> {
    /// Returns a cursor over the bytes, positioned before a byte, or `None` if the index is past
    /// the end.
    #[doc = example!("RopeSlice::from", "get_bytes_at(9).unwrap().next(), None")]
    #[inline]
    pub fn get_bytes_at(&self, byte_idx: usize) -> Option<Bytes<'a>> {
        (byte_idx <= self.counts.bytes).then(|| Bytes::at(self.in_chunk(byte_idx), byte_idx, self.counts.bytes))
    }

    /// Returns a cursor over the characters, positioned before a character, or `None` if the index
    /// is past the end.
    #[doc = example!("RopeSlice::from", "get_chars_at(9).is_none(), true")]
    #[inline]
    pub fn get_chars_at(&self, char_idx: usize) -> Option<Chars<'a>> {
        let byte_idx = self.try_char_to_byte(char_idx).ok()?;
        Some(Chars::at(self.in_chunk(byte_idx), char_idx, self.counts.chars))
    }

    #[inline]
    fn in_chunk(&self, byte_idx: usize) -> InChunk<'a> {
        match self.part {
            Part::Range { root, start } => self.chunks().in_chunk(root, start, self.counts, byte_idx),
            Part::Text(plain) => (self.chunks().at_end(), plain.text, byte_idx),
        }
    }

    /// Returns a cursor over the lines, positioned before a line, or at the end for the number of
    /// lines, or `None` if the index is past that.
    #[doc = example!("RopeSlice::from", "get_lines_at(3).unwrap().next().is_none(), true")]
    #[inline]
    pub fn get_lines_at(&self, line_idx: usize) -> Option<Lines<'a>> {
        let is_inside = line_idx <= self.len_lines();
        is_inside.then(|| Lines::of(*self, line_idx))
    }

    /// Returns what [`chunks_at_byte`](Self::chunks_at_byte) does, or `None` if the index is past
    /// the end.
    #[doc = example!("RopeSlice::from", "get_chunks_at_byte(10).is_none(), true")]
    #[inline]
    pub fn get_chunks_at_byte(&self, byte_idx: usize) -> Option<ChunksAt<'a>> {
        self.chunks_by(byte_idx, self.len_bytes(), |root, start, list| list.fetch_at_byte(root, start.bytes + byte_idx))
    }

    /// Returns what [`chunks_at_char`](Self::chunks_at_char) does, or `None` if the index is past
    /// the end.
    #[doc = example!("RopeSlice::from", "get_chunks_at_char(0).unwrap().1, 0")]
    #[inline]
    pub fn get_chunks_at_char(&self, char_idx: usize) -> Option<ChunksAt<'a>> {
        self.chunks_by(char_idx, self.len_chars(), |root, start, list| list.fetch_at_char(root, start.chars + char_idx))
    }

    /// Returns what [`chunks_at_line_break`](Self::chunks_at_line_break) does, or `None` if the
    /// index is past the number of lines.
    #[doc = example!("RopeSlice::from", "get_chunks_at_line_break(4).is_none(), true")]
    #[inline]
    pub fn get_chunks_at_line_break(&self, line_break_idx: usize) -> Option<ChunksAt<'a>> {
        self.chunks_by(line_break_idx, self.len_lines(), |root, start, list| match line_break_idx {
            0 => list.fetch_at_byte(root, start.bytes),
            _ => list.fetch_at_line_break(root, start.line_breaks + line_break_idx),
        })
    }

    /// Returns a cursor before the chunk that a lookup finds, or at the end for the length, or
    /// `None` if the index is past that.
    #[inline]
    fn chunks_by(
        &self,
        index: usize,
        len: usize,
        find: impl FnOnce(&'a Root, Counts, &mut Pieces<'a>) -> Before,
    ) -> Option<ChunksAt<'a>> {
        let (mut chunks, all) = (self.chunks(), self.counts);
        Some(match self.part {
            _ if index > len => return None,
            _ if index == len => (chunks.at_end(), all.bytes, all.chars, all.line_breaks),
            Part::Range { root, start } => {
                let (bytes, chars, breaks) = chunks.find(|pieces| find(root, start, pieces));
                let (bytes, chars) = (bytes.saturating_sub(start.bytes), chars.saturating_sub(start.chars));
                (chunks, bytes, chars, breaks.saturating_sub(start.line_breaks))
            }
            Part::Text(_) => (chunks, 0, 0, 0),
        })
    }

    /// Returns a cursor over the chunks.
    #[doc = example!("RopeSlice::from", "chunks().count(), 1")]
    #[inline(always)]
    pub fn chunks(&self) -> Chunks<'a> {
        match self.part {
            Part::Range { root, start } => Chunks::over(Some(root), start, self.counts.bytes, ""),
            Part::Text(plain) => Chunks::over(None, Counts::NONE, plain.text.len(), plain.text),
        }
    }
}

impl<'a> RopeSlice<'a> {
    /// Returns a slice of a plain text with a set of line breaks. The text is counted once.
    ///
    /// ```
    /// use ropey::{LineBreaks, RopeSlice};
    ///
    /// assert_eq!(RopeSlice::from_str_with("one\rtwo", LineBreaks::Lf).len_lines(), 1);
    /// ```
    #[inline]
    pub fn from_str_with(text: &'a str, breaks: LineBreaks) -> RopeSlice<'a> {
        RopeSlice::counted(Plain { text, breaks })
    }
}

impl<'a> From<&'a str> for RopeSlice<'a> {
    /// Returns a slice of a plain text. The text is counted once.
    #[inline]
    fn from(text: &'a str) -> RopeSlice<'a> {
        RopeSlice::from_str_with(text, LineBreaks::CHOSEN)
    }
}
