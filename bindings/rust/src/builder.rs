//! Ropes built from consecutive parts of a text.
use std::io::{self, ErrorKind};

use crate::ffi::Root;
use crate::rope::Rope;
use crate::{LineBreaks, BLOCK};

/// The size of the first read.
const READ: usize = 1 << 12;

/// A builder of ropes that appends texts.
///
/// ```
/// use ropey::RopeBuilder;
///
/// let mut builder = RopeBuilder::new();
/// builder.append("one\ntw");
/// builder.append("o\nthree\n");
/// let rope = builder.finish();
/// assert_eq!(rope.line(1), "two\n");
/// ```
#[derive(Clone, Debug, Default)]
pub struct RopeBuilder {
    rope: Rope,
    // The text that isn't in the rope yet.
    text: String,
}

impl RopeBuilder {
    /// Returns a builder of an empty rope.
    ///
    /// ```
    /// assert_eq!(ropey::RopeBuilder::new().finish(), "");
    /// ```
    pub fn new() -> RopeBuilder {
        RopeBuilder::default()
    }

    /// Returns a builder of a rope with a set of line breaks.
    ///
    /// ```
    /// use ropey::{LineBreaks, RopeBuilder};
    ///
    /// let mut builder = RopeBuilder::new_with(LineBreaks::Lf);
    /// builder.append("one\rtwo");
    /// assert_eq!(builder.finish().len_lines(), 1);
    /// ```
    pub fn new_with(breaks: LineBreaks) -> RopeBuilder {
        RopeBuilder { rope: Rope::new_with(breaks), text: String::new() }
    }

    /// Appends a text.
    ///
    /// ```
    /// let mut builder = ropey::RopeBuilder::new();
    /// builder.append("one ");
    /// builder.append("two");
    /// assert_eq!(builder.finish(), "one two");
    /// ```
    #[inline]
    pub fn append(&mut self, chunk: &str) {
        self.text.push_str(chunk);
        if self.text.len() >= BLOCK {
            self.flush();
        }
    }

    /// Returns the rope of all appended texts.
    ///
    /// ```
    /// let mut builder = ropey::RopeBuilder::new();
    /// builder.append("one\n");
    /// assert_eq!(builder.finish().len_lines(), 2);
    /// ```
    pub fn finish(mut self) -> Rope {
        self.flush();
        self.rope
    }

    fn flush(&mut self) {
        self.rope.append(Rope::of(Root::of_text(&self.text, self.rope.line_breaks())));
        self.text.clear();
    }
}

/// Reads a rope to the end of a reader. The bytes must be UTF-8.
pub(crate) fn read(reader: &mut impl io::Read, breaks: LineBreaks) -> io::Result<Rope> {
    let invalid = || io::Error::new(ErrorKind::InvalidData, "the bytes that were read are not UTF-8");
    let (mut rope, mut bytes, mut filled) = (Rope::new_with(breaks), vec![0; READ], 0);
    loop {
        let count = reader.read(&mut bytes[filled..])?;
        filled += count;
        let whole = match count {
            0 => filled,
            // The last character may be incomplete, and waits for the next bytes.
            _ if filled >= BLOCK => {
                let last = bytes[..filled].iter().rposition(|byte| !matches!(byte, 0x80..=0xbf));
                last.filter(|&last| last > 0).ok_or_else(invalid)?
            }
            _ => 0,
        };
        if whole > 0 {
            rope.append(Rope::of(Root::of_bytes(&bytes[..whole], breaks).ok_or_else(invalid)?));
            bytes.copy_within(whole..filled, 0);
            filled -= whole;
        }
        if count == 0 {
            return Ok(rope);
        }
        if filled == bytes.len() {
            bytes.resize(BLOCK.min(4 * filled), 0);
        }
    }
}
