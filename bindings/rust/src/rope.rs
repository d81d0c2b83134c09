//! Ropes.
use std::io;
use std::ops::RangeBounds;

use crate::builder;
use crate::calls::{conversions, example, panicking_calls, refuse};
use crate::ffi::changes::Changes;
use crate::ffi::{ChunkAt, Counts, Root};
use crate::instance::Instance;
use crate::iter::{Bytes, Chars, Chunks, Lines};
use crate::range::Bounds;
use crate::slice::{ChunksAt, RopeSlice};
use crate::{Error, LineBreaks, Result, MAX_BYTES};

/// A text buffer with fast edits anywhere in long texts.
///
/// Indices count from 0, in bytes, characters (Unicode scalar values), UTF-16 code units or lines.
/// A line ends after a line break; CR LF is one. A text has one more line than line breaks, and its
/// last line may be empty.
///
/// A clone shares its text with the original and takes constant time. Edits of one don't affect the
/// other.
///
/// ```
/// use ropey::Rope;
///
/// let mut rope = Rope::from_str("one\ntwo\nthree\n");
/// let before = rope.clone();
/// let start = rope.line_to_char(1);
/// rope.remove(start..start + 3);
/// rope.insert(start, "flowers");
/// assert_eq!(rope, "one\nflowers\nthree\n");
/// assert_eq!(before, "one\ntwo\nthree\n");
/// ```
#[derive(Clone)]
pub struct Rope {
    pub(crate) root: Root,
    instance: Instance,
}

macro_rules! convert {
    ($self:ident, $index:ident, $len:expr, $error:ident, $from:ident, $to:ident, $call:ident) => {
        $self.root.$call($index).ok_or_else(|| Error::$error($index, $len))
    };
}

/// Calls that delegate to the root or to a slice of the whole rope.
macro_rules! delegated {
    ($($(#[$doc:meta])* $name:ident($($index:ident)?) -> $result:ty [$($call:tt)+], $shown:literal;)*) => {
        $(
            $(#[$doc])*
            #[doc = example!("Rope::from_str", $shown)]
            #[inline]
            pub fn $name(&self, $($index: usize)?) -> $result {
                self.$($call)+($($index)?)
            }
        )*
    };
}

/// Making, reading and writing.
impl Rope {
    /// Returns an empty rope.
    ///
    /// ```
    /// assert_eq!(ropey::Rope::new().len_lines(), 1);
    /// ```
    pub fn new() -> Rope {
        Rope::new_with(LineBreaks::CHOSEN)
    }

    /// Returns an empty rope with a set of line breaks.
    ///
    /// ```
    /// use ropey::{LineBreaks, Rope};
    ///
    /// let mut rope = Rope::new_with(LineBreaks::Lf);
    /// rope.insert(0, "one\rtwo\n");
    /// assert_eq!(rope.len_lines(), 2);
    /// ```
    pub fn new_with(breaks: LineBreaks) -> Rope {
        Rope::from_str_with("", breaks)
    }

    /// Returns a rope of a copy of the text.
    ///
    /// ```
    /// assert_eq!(ropey::Rope::from_str("one\ntwo").len_lines(), 2);
    /// ```
    #[allow(clippy::should_implement_trait)]
    pub fn from_str(text: &str) -> Rope {
        Rope::from_str_with(text, LineBreaks::CHOSEN)
    }

    /// Returns a rope of a copy of the text, with a set of line breaks.
    ///
    /// ```
    /// use ropey::{LineBreaks, Rope};
    ///
    /// let rope = Rope::from_str_with("one\u{2028}two\n", LineBreaks::CrLf);
    /// assert_eq!(rope.line(0), "one\u{2028}two\n");
    /// ```
    pub fn from_str_with(text: &str, breaks: LineBreaks) -> Rope {
        Rope::of(Root::of_text(text, breaks))
    }

    pub(crate) fn of(root: Root) -> Rope {
        Rope { root, instance: Instance::default() }
    }

    /// Reads a rope to the end of the reader. The bytes must be UTF-8.
    ///
    /// # Errors
    ///
    /// The reader's first error, even `Interrupted`, and `InvalidData` if the bytes are not UTF-8.
    ///
    /// ```
    /// let rope = ropey::Rope::from_reader(&b"one\ntwo"[..])?;
    /// assert_eq!(rope, "one\ntwo");
    /// # std::io::Result::Ok(())
    /// ```
    pub fn from_reader<T: io::Read>(reader: T) -> io::Result<Rope> {
        Rope::from_reader_with(reader, LineBreaks::CHOSEN)
    }

    /// Reads a rope with a set of line breaks to the end of the reader. The bytes must be UTF-8.
    ///
    /// # Errors
    ///
    /// The reader's first error, even `Interrupted`, and `InvalidData` if the bytes are not UTF-8.
    ///
    /// ```
    /// use ropey::{LineBreaks, Rope};
    ///
    /// let rope = Rope::from_reader_with(&b"one\rtwo"[..], LineBreaks::CrLf)?;
    /// assert_eq!(rope.len_lines(), 2);
    /// # std::io::Result::Ok(())
    /// ```
    pub fn from_reader_with<T: io::Read>(mut reader: T, breaks: LineBreaks) -> io::Result<Rope> {
        builder::read(&mut reader, breaks)
    }

    /// Writes the text, chunk by chunk.
    ///
    /// # Errors
    ///
    /// The writer's first error. A prefix of the text is written then.
    ///
    /// ```
    /// let mut written = Vec::new();
    /// ropey::Rope::from_str("one\ntwo").write_to(&mut written)?;
    /// assert_eq!(written, b"one\ntwo");
    /// # std::io::Result::Ok(())
    /// ```
    pub fn write_to<T: io::Write>(&self, mut writer: T) -> io::Result<()> {
        self.chunks().read().try_for_each(|chunk| writer.write_all(chunk.as_bytes()))
    }
}

/// Lengths and memory.
impl Rope {
    delegated! {
        /// Returns the length in bytes, in constant time.
        len_bytes() -> usize [root.len_bytes], "len_bytes(), 9";
        /// Returns the length in characters, in constant time.
        len_chars() -> usize [root.len_chars], "len_chars(), 8";
        /// Returns the number of lines, in constant time: the number of line breaks, plus one.
        len_lines() -> usize [root.len_lines], "len_lines(), 3";
        /// Returns the length in UTF-16 code units, in constant time.
        len_utf16_cu() -> usize [root.len_utf16], "len_utf16_cu(), 8";
        /// Returns a cursor over the chunks.
        chunks() -> Chunks<'_> [whole().chunks], "chunks().count(), 1";
        /// Returns the set of line breaks.
        line_breaks() -> LineBreaks [root.breaks], "line_breaks(), ropey::LineBreaks::default()";
    }

    /// Returns the capacity of the rope's chunks in bytes of text, including shared chunks.
    ///
    /// ```
    /// assert!(ropey::Rope::from_str("one").capacity() >= 3);
    /// ```
    pub fn capacity(&self) -> usize {
        self.chunks().count() * MAX_BYTES
    }

    /// Rebuilds the rope with as few chunks as possible. The rope then shares none of them with its
    /// clones.
    ///
    /// ```
    /// let mut rope = ropey::Rope::from_str(&"one ".repeat(1000));
    /// rope.remove(500..3500);
    /// rope.shrink_to_fit();
    /// assert!(rope.capacity() <= 2 * 984);
    /// ```
    pub fn shrink_to_fit(&mut self) {
        self.instance.forget();
        self.root.shrink_to_fit();
    }

    /// Returns whether one rope is a clone of the other, or both are clones of a third, and neither
    /// was edited since. Then their texts are equal. Takes constant time.
    ///
    /// ```
    /// use ropey::Rope;
    ///
    /// let rope = Rope::from_str("one");
    /// assert!(rope.is_instance(&rope.clone()));
    /// assert!(!rope.is_instance(&Rope::from_str("one")));
    /// ```
    pub fn is_instance(&self, other: &Rope) -> bool {
        std::ptr::eq(self, other) || self.instance.is(&other.instance)
    }
}

/// Edits. Out of memory, they end the program as an edit of a `Vec` does.
impl Rope {
    /// Inserts a text before a character, or at the end for the length.
    ///
    /// # Panics
    ///
    /// If the index is past the end.
    ///
    /// ```
    /// let mut rope = ropey::Rope::from_str("one three");
    /// rope.insert(4, "two ");
    /// assert_eq!(rope, "one two three");
    /// ```
    #[track_caller]
    pub fn insert(&mut self, char_idx: usize, text: &str) {
        self.try_insert(char_idx, text).unwrap_or_else(|error| refuse(error))
    }

    /// Inserts a character before another, or at the end for the length.
    ///
    /// # Panics
    ///
    /// If the index is past the end.
    ///
    /// ```
    /// let mut rope = ropey::Rope::from_str("nave");
    /// rope.insert_char(2, 'ï');
    /// assert_eq!(rope, "naïve");
    /// ```
    #[track_caller]
    pub fn insert_char(&mut self, char_idx: usize, ch: char) {
        self.try_insert_char(char_idx, ch).unwrap_or_else(|error| refuse(error))
    }

    /// Removes a range of characters.
    ///
    /// # Panics
    ///
    /// If the range starts past its end, or ends past the text.
    ///
    /// ```
    /// let mut rope = ropey::Rope::from_str("one two");
    /// rope.remove(3..);
    /// assert_eq!(rope, "one");
    /// ```
    #[track_caller]
    pub fn remove<R: RangeBounds<usize>>(&mut self, char_range: R) {
        self.try_remove(char_range).unwrap_or_else(|error| refuse(error))
    }

    /// Splits the rope at an index: keeps the characters before it, and returns a rope of the
    /// others.
    ///
    /// # Panics
    ///
    /// If the index is past the end.
    ///
    /// ```
    /// let mut rope = ropey::Rope::from_str("one two");
    /// assert_eq!(rope.split_off(4), "two");
    /// assert_eq!(rope, "one ");
    /// ```
    #[track_caller]
    pub fn split_off(&mut self, char_idx: usize) -> Rope {
        self.try_split_off(char_idx).unwrap_or_else(|error| refuse(error))
    }

    /// Appends the text of another rope.
    ///
    /// # Panics
    ///
    /// If the ropes have different sets of line breaks.
    ///
    /// ```
    /// use ropey::Rope;
    ///
    /// let mut rope = Rope::from_str("one ");
    /// rope.append(Rope::from_str("two"));
    /// assert_eq!(rope, "one two");
    /// ```
    #[track_caller]
    pub fn append(&mut self, other: Rope) {
        assert!(self.line_breaks() == other.line_breaks(), "Ropes have different sets of line breaks");
        if self.len_bytes() == 0 {
            *self = other;
        } else if other.len_bytes() > 0 {
            self.instance.forget();
            self.root.append(other.root);
        }
    }

    /// Inserts a text before a character, or at the end for the length. Returns an error, leaving the
    /// rope unchanged, if the index is past the end.
    ///
    /// ```
    /// let mut rope = ropey::Rope::from_str("one");
    /// assert!(rope.try_insert(4, "!").is_err());
    /// assert!(rope.try_insert(3, "!").is_ok());
    /// assert_eq!(rope, "one!");
    /// ```
    pub fn try_insert(&mut self, char_idx: usize, text: &str) -> Result<()> {
        if !self.root.insert(char_idx, text) {
            return Err(Error::CharIndexOutOfBounds(char_idx, self.len_chars()));
        }
        if !text.is_empty() {
            self.instance.forget();
        }
        Ok(())
    }

    /// Inserts a character before another, or at the end for the length. Returns an error, leaving the
    /// rope unchanged, if the index is past the end.
    ///
    /// ```
    /// let mut rope = ropey::Rope::from_str("one");
    /// assert!(rope.try_insert_char(4, '!').is_err());
    /// assert_eq!(rope, "one");
    /// ```
    pub fn try_insert_char(&mut self, char_idx: usize, ch: char) -> Result<()> {
        if !self.root.insert_char(char_idx, ch) {
            return Err(Error::CharIndexOutOfBounds(char_idx, self.len_chars()));
        }
        self.instance.forget();
        Ok(())
    }

    /// Removes a range of characters. Returns an error, leaving the rope unchanged, if the range is out
    /// of bounds.
    ///
    /// ```
    /// let mut rope = ropey::Rope::from_str("one");
    /// assert!(rope.try_remove(1..4).is_err());
    /// assert_eq!(rope, "one");
    /// ```
    pub fn try_remove<R: RangeBounds<usize>>(&mut self, char_range: R) -> Result<()> {
        let (start, end) = Bounds::of(&char_range).of_chars(self.len_chars())?;
        self.instance.forget();
        self.root.remove(start, end);
        Ok(())
    }

    /// Applies changes, or returns the status of the call that failed, leaving the rope unchanged.
    pub(crate) fn apply(&mut self, changes: &Changes) -> std::result::Result<(), u32> {
        changes.apply(&mut self.root)?;
        if changes.count() > 0 {
            self.instance.forget();
        }
        Ok(())
    }

    /// Splits the rope at an index: keeps the characters before it, and returns a rope of the others.
    /// Returns an error, leaving the rope unchanged, if the index is past the end.
    ///
    /// ```
    /// let mut rope = ropey::Rope::from_str("one");
    /// assert!(rope.try_split_off(4).is_err());
    /// assert_eq!(rope.try_split_off(1).unwrap(), "ne");
    /// ```
    pub fn try_split_off(&mut self, char_idx: usize) -> Result<Rope> {
        let len = self.len_chars();
        match self.root.split_off(char_idx) {
            None => Err(Error::CharIndexOutOfBounds(char_idx, len)),
            Some(tail) => {
                if char_idx < len {
                    self.instance.forget();
                }
                Ok(Rope::of(tail))
            }
        }
    }
}

/// Lookups. They allocate nothing.
impl Rope {
    panicking_calls!('_, "Rope::from_str");
    conversions!(convert, "Rope::from_str");

    delegated! {
        /// Returns a byte, or `None` if the index is past the last one.
        get_byte(byte_idx) -> Option<u8> [root.byte], "get_byte(9), None";
        /// Returns a character, or `None` if the index is past the last one.
        get_char(char_idx) -> Option<char> [root.char], "get_char(1), Some('é')";
        /// Returns a line, including its line break, or `None` if the index is past the last one.
        get_line(line_idx) -> Option<RopeSlice<'_>> [root.line], "get_line(3).is_none(), true";
        /// Returns what [`chunk_at_byte`](Self::chunk_at_byte) does, or `None` if the index is past
        /// the end.
        get_chunk_at_byte(byte_idx) -> Option<ChunkAt<'_>> [root.chunk_at_byte], "get_chunk_at_byte(10).is_none(), true";
        /// Returns what [`chunk_at_char`](Self::chunk_at_char) does, or `None` if the index is past
        /// the end.
        get_chunk_at_char(char_idx) -> Option<ChunkAt<'_>> [root.chunk_at_char], "get_chunk_at_char(4).is_some(), true";
        /// Returns what [`chunk_at_line_break`](Self::chunk_at_line_break) does, or `None` if the
        /// index is past the number of lines.
        get_chunk_at_line_break(line_break_idx) -> Option<ChunkAt<'_>> [root.chunk_at_line_break], "get_chunk_at_line_break(4).is_none(), true";
        /// Returns a cursor over the bytes, positioned before a byte, or `None` if the index is
        /// past the end.
        get_bytes_at(byte_idx) -> Option<Bytes<'_>> [whole().get_bytes_at], "get_bytes_at(9).unwrap().next(), None";
        /// Returns a cursor over the characters, positioned before a character, or `None` if the
        /// index is past the end.
        get_chars_at(char_idx) -> Option<Chars<'_>> [whole().get_chars_at], "get_chars_at(9).is_none(), true";
        /// Returns a cursor over the lines, positioned before a line, or `None` if the index is
        /// past the number of lines.
        get_lines_at(line_idx) -> Option<Lines<'_>> [whole().get_lines_at], "get_lines_at(3).unwrap().next().is_none(), true";
        /// Returns what [`chunks_at_byte`](Self::chunks_at_byte) does, or `None` if the index is
        /// past the end.
        get_chunks_at_byte(byte_idx) -> Option<ChunksAt<'_>> [whole().get_chunks_at_byte], "get_chunks_at_byte(10).is_none(), true";
        /// Returns what [`chunks_at_char`](Self::chunks_at_char) does, or `None` if the index is
        /// past the end.
        get_chunks_at_char(char_idx) -> Option<ChunksAt<'_>> [whole().get_chunks_at_char], "get_chunks_at_char(0).unwrap().1, 0";
        /// Returns what [`chunks_at_line_break`](Self::chunks_at_line_break) does, or `None` if the
        /// index is past the number of lines.
        get_chunks_at_line_break(line_break_idx) -> Option<ChunksAt<'_>> [whole().get_chunks_at_line_break], "get_chunks_at_line_break(4).is_none(), true";
    }

    /// Returns the whole rope as a range, even if it has only one chunk.
    #[inline]
    fn whole(&self) -> RopeSlice<'_> {
        RopeSlice::of_range(&self.root, Counts::NONE, self.root.counts())
    }

    fn slice_chars(&self, bounds: Bounds) -> Result<RopeSlice<'_>> {
        let (from, to) = bounds.of_chars(self.len_chars())?;
        Ok(RopeSlice::of_chars(&self.root, from, to))
    }

    fn slice_bytes(&self, bounds: Bounds) -> Result<RopeSlice<'_>> {
        let (from, to) = bounds.of_bytes(self.len_bytes())?;
        RopeSlice::of_bytes(&self.root, from, to).ok_or(bounds.inside_character())
    }
}
