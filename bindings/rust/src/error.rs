//! Errors of ropes and slices.
use std::fmt;

/// The result of a call that may fail.
pub type Result<T> = std::result::Result<T, Error>;

/// An error of a call, with its index or range, and the length if that is out of bounds.
///
/// `Debug` prints the same as `Display`.
///
/// ```
/// use ropey::{Error, Rope};
///
/// let rope = Rope::from_str("one\ntwo\n");
/// let error = rope.try_char_to_byte(20).unwrap_err();
/// assert!(matches!(error, Error::CharIndexOutOfBounds(20, 8)));
/// assert_eq!(
///     error.to_string(),
///     "Char index out of bounds: char index 20, Rope/RopeSlice char length 8",
/// );
/// ```
#[derive(Clone, Copy)]
#[non_exhaustive]
pub enum Error {
    /// A byte index past the end: the index, and the length in bytes.
    ByteIndexOutOfBounds(usize, usize),
    /// A character index past the end: the index, and the length in characters.
    CharIndexOutOfBounds(usize, usize),
    /// A line index past the last line: the index, and the number of lines.
    LineIndexOutOfBounds(usize, usize),
    /// A UTF-16 code unit index past the end: the index, and the length in code units.
    Utf16IndexOutOfBounds(usize, usize),
    /// A byte index inside a character. No call returns it.
    ByteIndexNotCharBoundary(usize),
    /// A range of bytes with a bound inside a character: its given bounds.
    ByteRangeNotCharBoundary(Option<usize>, Option<usize>),
    /// A range of bytes whose start is past its end.
    ByteRangeInvalid(usize, usize),
    /// A range of characters whose start is past its end.
    CharRangeInvalid(usize, usize),
    /// A range of bytes past the end: its given bounds, and the length in bytes.
    ByteRangeOutOfBounds(Option<usize>, Option<usize>, usize),
    /// A range of characters past the end: its given bounds, and the length in characters.
    CharRangeOutOfBounds(Option<usize>, Option<usize>, usize),
}

impl std::error::Error for Error {}

/// Formats the given bounds of a range as Rust does.
fn range(start: Option<usize>, end: Option<usize>) -> String {
    let bound = |index: Option<usize>| index.map_or(String::new(), |index| index.to_string());
    format!("{}..{}", bound(start), bound(end))
}

impl fmt::Display for Error {
    fn fmt(&self, f: &mut fmt::Formatter<'_>) -> fmt::Result {
        const OF: &str = "Rope/RopeSlice";
        let mut index = |what, unit, measure, index, len| {
            write!(f, "{what} index out of bounds: {unit} index {index}, {OF} {measure} {len}")
        };
        match *self {
            Error::ByteIndexOutOfBounds(i, len) => index("Byte", "byte", "byte length", i, len),
            Error::CharIndexOutOfBounds(i, len) => index("Char", "char", "char length", i, len),
            Error::LineIndexOutOfBounds(i, len) => index("Line", "line", "line count", i, len),
            Error::Utf16IndexOutOfBounds(i, len) => index("Utf16 code-unit", "utf16", "utf16 length", i, len),
            Error::ByteIndexNotCharBoundary(i) => write!(f, "Byte index is not a valid char boundary: byte index {i}"),
            Error::ByteRangeNotCharBoundary(start, end) => {
                write!(f, "Byte range does not align with char boundaries: range {}", range(start, end))
            }
            Error::ByteRangeInvalid(start, end) => write!(f, "Invalid byte range {start}..{end}: start must be <= end"),
            Error::CharRangeInvalid(start, end) => write!(f, "Invalid char range {start}..{end}: start must be <= end"),
            Error::ByteRangeOutOfBounds(start, end, len) => {
                write!(f, "Byte range out of bounds: byte range {}, {OF} byte length {len}", range(start, end))
            }
            Error::CharRangeOutOfBounds(start, end, len) => {
                write!(f, "Char range out of bounds: char range {}, {OF} char length {len}", range(start, end))
            }
        }
    }
}

impl fmt::Debug for Error {
    fn fmt(&self, f: &mut fmt::Formatter<'_>) -> fmt::Result {
        fmt::Display::fmt(self, f)
    }
}
