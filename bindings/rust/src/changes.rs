//! Changes of a text as values: applied atomically, inverted, composed, and rebased.
//!
//! A [`ChangeSet`] is an ordered list of replacements of disjoint ranges of a text. An editor makes
//! one for all its carets, applies it to a rope, keeps the inverse for undo, and moves its
//! bookmarks through it.
//!
//! ```
//! use ropey::changes::{ChangeSet, Edit, Side};
//! use ropey::Rope;
//!
//! # fn main() -> Result<(), ropey::changes::ChangeError> {
//! let mut rope = Rope::from_str("one two");
//! let edits = [Edit { start: 0, end: 3, text: "1" }, Edit { start: 4, end: 4, text: "and " }];
//! let changes = ChangeSet::of_edits(rope.len_chars(), &edits)?;
//! let undo = changes.invert(&rope)?;
//! changes.apply(&mut rope)?;
//! assert_eq!(rope, "1 and two");
//! assert_eq!(changes.map(4, Side::After), 6);
//! undo.apply(&mut rope)?;
//! assert_eq!(rope, "one two");
//! # Ok(())
//! # }
//! ```
use std::fmt;

use crate::ffi::changes::{Changes, LENGTHS_DIFFER, OUT_OF_ORDER, RANGE_INVALID, RANGE_OUT_OF_BOUNDS};
use crate::Rope;

/// The side of inserted text on which an index stays.
#[derive(Clone, Copy, Debug, PartialEq, Eq, Hash)]
pub enum Side {
    /// Before the inserted text.
    Before,
    /// After the inserted text.
    After,
}

/// A range of characters, and the text that replaces it.
#[derive(Clone, Copy, Debug, PartialEq, Eq, Hash)]
pub struct Edit<'a> {
    /// The index of the first character that is replaced.
    pub start: usize,
    /// The index after the last character that is replaced.
    pub end: usize,
    /// The text that replaces them.
    pub text: &'a str,
}

/// A replacement of a change set, with its ranges in characters.
#[derive(Clone, Copy, Debug, PartialEq, Eq, Hash)]
pub struct EditRange<'a> {
    /// The start of the range that it replaces, in the text before.
    pub start: usize,
    /// The end of the range that it replaces, in the text before.
    pub end: usize,
    /// The start of its text, in the text after.
    pub new_start: usize,
    /// The end of its text, in the text after.
    pub new_end: usize,
    /// The text that it inserts.
    pub text: &'a str,
}

/// An error of a call of a change set.
#[derive(Clone, Copy, Debug, PartialEq, Eq, Hash)]
#[non_exhaustive]
pub enum ChangeError {
    /// A range whose start is past its end: its start and end.
    RangeInvalid(usize, usize),
    /// A range that ends past the text before the changes: its end, and the length of that text in
    /// characters.
    RangeOutOfBounds(usize, usize),
    /// A range that starts before the end of the last replacement: its start, and that end.
    OutOfOrder(usize, usize),
    /// A text with the wrong length: the length that the changes are for, and the text's, in
    /// characters.
    LengthDiffers(usize, usize),
    /// The text would have more than `isize::MAX` characters or bytes.
    TooLong,
}

impl std::error::Error for ChangeError {}

impl fmt::Display for ChangeError {
    fn fmt(&self, f: &mut fmt::Formatter<'_>) -> fmt::Result {
        match *self {
            ChangeError::RangeInvalid(start, end) => {
                write!(f, "Invalid char range {start}..{end}: start must be <= end")
            }
            ChangeError::RangeOutOfBounds(end, len) => {
                write!(f, "Char range out of bounds: range end {end}, text char length {len}")
            }
            ChangeError::OutOfOrder(start, last_end) => {
                write!(f, "Char range out of order: range start {start}, last replacement end {last_end}")
            }
            ChangeError::LengthDiffers(expected, len) => {
                write!(f, "Text length differs: char length {len}, the change is for {expected}")
            }
            ChangeError::TooLong => write!(f, "Text would be longer than isize::MAX"),
        }
    }
}

/// Returns the errors of a call on a text of `len` characters whose changes are for `expected`.
fn for_lengths(expected: usize, len: usize) -> impl Fn(u32) -> ChangeError {
    move |status| match status {
        LENGTHS_DIFFER => ChangeError::LengthDiffers(expected, len),
        _ => ChangeError::TooLong,
    }
}

/// Changes of a text of a given length: ordered replacements of disjoint ranges.
///
/// Changes allocate their replacements and the inserted texts. Out of memory, a call aborts as
/// `Vec` does.
pub struct ChangeSet {
    changes: Changes,
}

impl ChangeSet {
    /// Creates changes of a text of `len` characters that replace nothing.
    ///
    /// # Errors
    ///
    /// `TooLong` if `len` is above `isize::MAX`.
    ///
    /// ```
    /// use ropey::changes::ChangeSet;
    ///
    /// let changes = ChangeSet::new(7)?;
    /// assert_eq!(changes.len_after(), 7);
    /// # Ok::<(), ropey::changes::ChangeError>(())
    /// ```
    pub fn new(len: usize) -> Result<ChangeSet, ChangeError> {
        Changes::new(len).map(ChangeSet::of).map_err(|_| ChangeError::TooLong)
    }

    fn of(changes: Changes) -> ChangeSet {
        ChangeSet { changes }
    }

    /// Creates changes of a text of `len` characters, and calls `replace` for each of the edits in
    /// order.
    ///
    /// # Errors
    ///
    /// `TooLong` if `len` is above `isize::MAX`; then the error of `replace` for the first edit
    /// that it refuses.
    ///
    /// ```
    /// use ropey::changes::{ChangeSet, Edit};
    ///
    /// let changes = ChangeSet::of_edits(7, &[Edit { start: 0, end: 3, text: "1" }])?;
    /// assert_eq!(changes.len_after(), 5);
    /// # Ok::<(), ropey::changes::ChangeError>(())
    /// ```
    pub fn of_edits(len: usize, edits: &[Edit<'_>]) -> Result<ChangeSet, ChangeError> {
        let mut made = ChangeSet::new(len)?;
        edits.iter().try_for_each(|edit| made.replace(edit.start, edit.end, edit.text))?;
        Ok(made)
    }

    /// Adds a replacement of the characters from `start` up to `end` by `text`. The indices are in
    /// the text before the changes, and the range must come after the previous one. If it begins at
    /// the end of that one, the two become one replacement.
    ///
    /// # Errors
    ///
    /// First `RangeInvalid`, then `RangeOutOfBounds`, then `OutOfOrder`; then `TooLong` if the text
    /// after the changes would have more than `isize::MAX` characters. A call that fails leaves the
    /// changes unchanged.
    ///
    /// ```
    /// use ropey::changes::ChangeSet;
    ///
    /// let mut changes = ChangeSet::new(7)?;
    /// changes.replace(0, 3, "1")?;
    /// assert!(changes.replace(2, 4, "2").is_err());
    /// assert_eq!(changes.len_after(), 5);
    /// # Ok::<(), ropey::changes::ChangeError>(())
    /// ```
    pub fn replace(&mut self, start: usize, end: usize, text: &str) -> Result<(), ChangeError> {
        self.changes.replace(start, end, text).map_err(|status| match status {
            RANGE_INVALID => ChangeError::RangeInvalid(start, end),
            RANGE_OUT_OF_BOUNDS => ChangeError::RangeOutOfBounds(end, self.len_before()),
            OUT_OF_ORDER => ChangeError::OutOfOrder(start, self.edits().last().map_or(0, |last| last.end)),
            _ => ChangeError::TooLong,
        })
    }

    /// Returns the number of characters of the text before the changes.
    ///
    /// ```
    /// use ropey::changes::ChangeSet;
    ///
    /// let mut changes = ChangeSet::new(7)?;
    /// changes.replace(0, 3, "1")?;
    /// assert_eq!(changes.len_before(), 7);
    /// # Ok::<(), ropey::changes::ChangeError>(())
    /// ```
    pub fn len_before(&self) -> usize {
        self.changes.len_before()
    }

    /// Returns the number of characters of the text after the changes.
    ///
    /// ```
    /// use ropey::changes::ChangeSet;
    ///
    /// let mut changes = ChangeSet::new(7)?;
    /// changes.replace(0, 3, "1")?;
    /// assert_eq!(changes.len_after(), 5);
    /// # Ok::<(), ropey::changes::ChangeError>(())
    /// ```
    pub fn len_after(&self) -> usize {
        self.changes.len_after()
    }

    /// Returns whether the changes replace nothing.
    ///
    /// ```
    /// use ropey::changes::ChangeSet;
    ///
    /// assert!(ChangeSet::new(7)?.is_empty());
    /// # Ok::<(), ropey::changes::ChangeError>(())
    /// ```
    pub fn is_empty(&self) -> bool {
        self.changes.count() == 0
    }

    /// Returns the replacements in order.
    ///
    /// ```
    /// use ropey::changes::ChangeSet;
    ///
    /// let mut changes = ChangeSet::new(7)?;
    /// changes.replace(0, 3, "1")?;
    /// let edits = changes.edits();
    /// assert_eq!((edits[0].start, edits[0].end, edits[0].text), (0, 3, "1"));
    /// # Ok::<(), ropey::changes::ChangeError>(())
    /// ```
    pub fn edits(&self) -> Vec<EditRange<'_>> {
        self.changes.edits()
    }

    /// Applies the changes to the text of a rope. Costs two edits of the rope per replacement.
    ///
    /// # Errors
    ///
    /// `LengthDiffers` if the rope's length isn't `len_before()`; then `TooLong` if its text and
    /// the inserted texts have more than `isize::MAX` bytes together. A call that fails leaves the
    /// rope unchanged.
    ///
    /// ```
    /// use ropey::changes::ChangeSet;
    ///
    /// let mut changes = ChangeSet::new(7)?;
    /// changes.replace(0, 3, "1")?;
    /// let mut rope = ropey::Rope::from_str("one two");
    /// changes.apply(&mut rope)?;
    /// assert_eq!(rope, "1 two");
    /// # Ok::<(), ropey::changes::ChangeError>(())
    /// ```
    pub fn apply(&self, rope: &mut Rope) -> Result<(), ChangeError> {
        let error = for_lengths(self.len_before(), rope.len_chars());
        rope.apply(&self.changes).map_err(error)
    }

    /// Returns the changes that undo these, where `before` is the text before these.
    ///
    /// # Errors
    ///
    /// `LengthDiffers` if the rope's length isn't `len_before()`.
    ///
    /// ```
    /// use ropey::changes::ChangeSet;
    ///
    /// let mut changes = ChangeSet::new(7)?;
    /// changes.replace(0, 3, "1")?;
    /// let mut rope = ropey::Rope::from_str("one two");
    /// let undo = changes.invert(&rope)?;
    /// changes.apply(&mut rope)?;
    /// undo.apply(&mut rope)?;
    /// assert_eq!(rope, "one two");
    /// # Ok::<(), ropey::changes::ChangeError>(())
    /// ```
    pub fn invert(&self, before: &Rope) -> Result<ChangeSet, ChangeError> {
        let error = for_lengths(self.len_before(), before.len_chars());
        self.changes.invert(&before.root).map(ChangeSet::of).map_err(error)
    }

    /// Returns changes equivalent to these followed by `later`.
    ///
    /// # Errors
    ///
    /// `LengthDiffers` if `later` isn't for a text of `len_after()` characters.
    ///
    /// ```
    /// use ropey::changes::ChangeSet;
    ///
    /// let mut changes = ChangeSet::new(7)?;
    /// changes.replace(0, 3, "1")?;
    /// let mut later = ChangeSet::new(5)?;
    /// later.replace(2, 5, "2")?;
    /// let mut rope = ropey::Rope::from_str("one two");
    /// changes.compose(&later)?.apply(&mut rope)?;
    /// assert_eq!(rope, "1 2");
    /// # Ok::<(), ropey::changes::ChangeError>(())
    /// ```
    pub fn compose(&self, later: &ChangeSet) -> Result<ChangeSet, ChangeError> {
        let error = for_lengths(later.len_before(), self.len_after());
        self.changes.compose(&later.changes).map(ChangeSet::of).map_err(error)
    }

    /// Returns these changes rebased over `over`, as changes of the text after `over`. Both must be
    /// changes of the same text. If both insert at one index, `Side::Before` puts the text of these
    /// first, and `Side::After` that of `over`. If `a` is rebased over `b` with one side, and `b`
    /// over `a` with the other, both orders lead to the same text.
    ///
    /// # Errors
    ///
    /// `LengthDiffers` if the two are for different lengths; then `TooLong` if the text after the
    /// result would have more than `isize::MAX` characters.
    ///
    /// ```
    /// use ropey::changes::{ChangeSet, Side};
    ///
    /// let mut changes = ChangeSet::new(7)?;
    /// changes.replace(0, 3, "1")?;
    /// let mut other = ChangeSet::new(7)?;
    /// other.replace(4, 7, "2")?;
    /// let mut rope = ropey::Rope::from_str("one two");
    /// changes.apply(&mut rope)?;
    /// other.rebase(&changes, Side::After)?.apply(&mut rope)?;
    /// assert_eq!(rope, "1 2");
    /// # Ok::<(), ropey::changes::ChangeError>(())
    /// ```
    pub fn rebase(&self, over: &ChangeSet, side: Side) -> Result<ChangeSet, ChangeError> {
        let error = for_lengths(self.len_before(), over.len_before());
        self.changes.rebase(&over.changes, side as u32).map(ChangeSet::of).map_err(error)
    }

    /// Maps a character index of the text before the changes, or its length, to the text after
    /// them. If text is inserted at the index, the result is on the given side of that text. An
    /// index inside a replaced range, past its start, maps to the end of the new text.
    ///
    /// # Panics
    ///
    /// If the index is past `len_before()`.
    ///
    /// ```
    /// use ropey::changes::{ChangeSet, Side};
    ///
    /// let mut changes = ChangeSet::new(7)?;
    /// changes.replace(0, 3, "1")?;
    /// assert_eq!(changes.map(4, Side::Before), 2);
    /// # Ok::<(), ropey::changes::ChangeError>(())
    /// ```
    #[track_caller]
    pub fn map(&self, char_idx: usize, side: Side) -> usize {
        match self.changes.map(char_idx, side as u32) {
            Ok(moved) => moved,
            Err(_) => panic!("Char index out of bounds: char index {char_idx}, text char length {}", self.len_before()),
        }
    }

    /// Maps each of the indices as [`map`](Self::map) does, in one pass over the replacements if
    /// they ascend.
    ///
    /// # Panics
    ///
    /// If one of the indices is past `len_before()`.
    ///
    /// ```
    /// use ropey::changes::{ChangeSet, Side};
    ///
    /// let mut changes = ChangeSet::new(7)?;
    /// changes.replace(0, 3, "1")?;
    /// let mut carets = [0, 4, 7];
    /// changes.map_sorted(&mut carets, Side::Before);
    /// assert_eq!(carets, [0, 2, 5]);
    /// # Ok::<(), ropey::changes::ChangeError>(())
    /// ```
    #[track_caller]
    pub fn map_sorted(&self, char_indices: &mut [usize], side: Side) {
        let moved = self.changes.map_sorted(char_indices, side as u32);
        assert!(moved.is_ok(), "Char index out of bounds: text char length {}", self.len_before());
    }
}

impl fmt::Debug for ChangeSet {
    fn fmt(&self, f: &mut fmt::Formatter<'_>) -> fmt::Result {
        f.debug_struct("ChangeSet").field("len_before", &self.len_before()).field("edits", &self.edits()).finish()
    }
}
