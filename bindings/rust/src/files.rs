//! Files in UTF-8, UTF-16 and Latin-1, read into ropes and written from them.
//!
//! ```
//! use ropey::files::Encoding;
//! use ropey::Rope;
//!
//! # fn main() -> Result<(), ropey::files::FileError> {
//! let (mut rope, encoding) = Rope::from_bytes_as(b"\xFF\xFEa\0\n\0", None)?;
//! assert_eq!((rope.line(0).as_str(), encoding), (Some("a\n"), Encoding::Utf16LeBom));
//! rope.insert(1, "b");
//! assert_eq!(rope.to_bytes_as(encoding)?, b"\xFF\xFEa\0b\0\n\0");
//! # Ok(())
//! # }
//! ```
use std::fmt;

use crate::ffi::files::BY_MARK;
use crate::ffi::Root;
use crate::{LineBreaks, Rope};

/// An encoding of files. `Bom` is for files that begin with a byte order mark, which isn't part of
/// the text.
#[derive(Clone, Copy, Debug, PartialEq, Eq, Hash)]
pub enum Encoding {
    /// UTF-8.
    Utf8,
    /// UTF-8 after the mark `EF BB BF`.
    Utf8Bom,
    /// UTF-16, the low byte of each code unit first.
    Utf16Le,
    /// UTF-16 after the mark `FF FE`, the low byte of each code unit first.
    Utf16LeBom,
    /// UTF-16, the high byte of each code unit first.
    Utf16Be,
    /// UTF-16 after the mark `FE FF`, the high byte of each code unit first.
    Utf16BeBom,
    /// A byte for each character, from U+0000 to U+00FF (ISO/IEC 8859-1).
    Latin1,
}

/// The encodings in the order of their numbers in the library.
const ENCODINGS: [Encoding; 7] = {
    use Encoding::{Latin1, Utf16Be, Utf16BeBom, Utf16Le, Utf16LeBom, Utf8, Utf8Bom};
    [Utf8, Utf8Bom, Utf16Le, Utf16LeBom, Utf16Be, Utf16BeBom, Latin1]
};

/// The result of reading or writing a file.
pub type FileResult<T> = Result<T, FileError>;

/// An error of reading or writing a file. Offsets are in bytes from the start of the file,
/// including its mark.
///
/// ```
/// use ropey::files::{Encoding, FileError};
/// use ropey::Rope;
///
/// let error = Rope::from_bytes_as(b"ab\xFF", None).unwrap_err();
/// assert_eq!(error, FileError::InvalidUtf8(2));
/// assert_eq!(error.to_string(), "Invalid UTF-8: byte offset 2");
/// ```
#[derive(Clone, Copy, Debug, PartialEq, Eq)]
#[non_exhaustive]
pub enum FileError {
    /// The file doesn't begin with the mark of its encoding.
    NoMark,
    /// No UTF-8 character starts at this offset.
    InvalidUtf8(usize),
    /// The UTF-16 code unit at this offset is an unpaired surrogate.
    UnpairedSurrogate(usize),
    /// The file ends in the middle of the UTF-16 code unit at this offset.
    HalfCodeUnit(usize),
    /// The encoding has no bytes for the character at this index, the first such character.
    Unencodable(usize),
}

impl fmt::Display for FileError {
    fn fmt(&self, f: &mut fmt::Formatter<'_>) -> fmt::Result {
        match self {
            FileError::NoMark => write!(f, "No byte order mark"),
            FileError::InvalidUtf8(at) => write!(f, "Invalid UTF-8: byte offset {at}"),
            FileError::UnpairedSurrogate(at) => write!(f, "Unpaired surrogate: byte offset {at}"),
            FileError::HalfCodeUnit(at) => write!(f, "Half a code unit: byte offset {at}"),
            FileError::Unencodable(index) => write!(f, "Character not in the encoding: char index {index}"),
        }
    }
}

impl std::error::Error for FileError {}

/// Files.
impl Rope {
    /// Decodes the bytes of a file, and returns its rope and its encoding: the given one or, by
    /// default, the one whose mark the bytes begin with, or UTF-8 if there is no mark.
    ///
    /// # Errors
    ///
    /// Every `FileError` except `Unencodable`.
    ///
    /// ```
    /// use ropey::files::{Encoding, FileError};
    /// use ropey::Rope;
    ///
    /// assert_eq!(Rope::from_bytes_as(b"n\xE9", Some(Encoding::Latin1)).unwrap().0, "né");
    /// assert_eq!(Rope::from_bytes_as(b"one", Some(Encoding::Utf8Bom)).unwrap_err(), FileError::NoMark);
    /// ```
    pub fn from_bytes_as(bytes: &[u8], given: Option<Encoding>) -> FileResult<(Rope, Encoding)> {
        Rope::from_bytes_as_with(bytes, given, LineBreaks::CHOSEN)
    }

    /// Decodes the bytes of a file as [`from_bytes_as`](Self::from_bytes_as) does, into a rope with
    /// a set of line breaks.
    ///
    /// # Errors
    ///
    /// Every `FileError` except `Unencodable`.
    ///
    /// ```
    /// use ropey::{LineBreaks, Rope};
    ///
    /// let (rope, _) = Rope::from_bytes_as_with(b"one\rtwo", None, LineBreaks::Lf)?;
    /// assert_eq!(rope.len_lines(), 1);
    /// # Ok::<(), ropey::files::FileError>(())
    /// ```
    pub fn from_bytes_as_with(
        bytes: &[u8],
        given: Option<Encoding>,
        breaks: LineBreaks,
    ) -> FileResult<(Rope, Encoding)> {
        let number = given.map_or(BY_MARK, |encoding| encoding as u32);
        let (root, found) = Root::of_file(bytes, number, breaks)?;
        Ok((Rope::of(root), ENCODINGS[found as usize]))
    }

    /// Encodes the text as the bytes of a file, which begins with the encoding's mark.
    ///
    /// # Errors
    ///
    /// `Unencodable` if the encoding is Latin-1 and the text has a character above U+00FF.
    ///
    /// ```
    /// use ropey::files::{Encoding, FileError};
    /// use ropey::Rope;
    ///
    /// let rope = Rope::from_str("n€");
    /// assert_eq!(rope.to_bytes_as(Encoding::Utf16BeBom).unwrap(), b"\xFE\xFF\0n\x20\xAC");
    /// assert_eq!(rope.to_bytes_as(Encoding::Latin1), Err(FileError::Unencodable(1)));
    /// ```
    pub fn to_bytes_as(&self, encoding: Encoding) -> FileResult<Vec<u8>> {
        self.root.file(encoding as u32).map_err(FileError::Unencodable)
    }
}
