//! Positions by line and column, in the encodings of the Language Server Protocol.
//!
//! ```
//! use ropey::positions::{Encoding, Position};
//! use ropey::{LineBreaks, Rope};
//!
//! let rope = Rope::from_str_with("one\n😀two\n", LineBreaks::CrLf);
//! let position = rope.char_to_position_in(5, Encoding::Utf16);
//! assert_eq!(position, Position { line: 1, column: 2 });
//! assert_eq!(rope.clamped_position_to_char(position, Encoding::Utf16), 5);
//! ```
use crate::calls::refuse;
use crate::{Error, Result, Rope};

/// The unit of a position's column: `PositionEncodingKind` of the Language Server Protocol.
#[derive(Clone, Copy, Debug, PartialEq, Eq, Hash)]
pub enum Encoding {
    /// The bytes of UTF-8, `utf-8` in the protocol.
    Utf8,
    /// The code units of UTF-16, `utf-16` in the protocol, which is its default.
    Utf16,
    /// Characters, `utf-32` in the protocol.
    Utf32,
}

/// A line, and a column from the line's start, both counted from 0.
#[derive(Clone, Copy, Debug, PartialEq, Eq, PartialOrd, Ord, Hash)]
pub struct Position {
    /// The line.
    pub line: usize,
    /// The column, in the units of an encoding.
    pub column: usize,
}

/// Positions. The calls allocate nothing.
impl Rope {
    /// Returns the position of a character, or of the end of the text, with its column in an
    /// encoding.
    ///
    /// # Panics
    ///
    /// If the index is past the end.
    ///
    /// ```
    /// use ropey::positions::{Encoding, Position};
    /// use ropey::Rope;
    ///
    /// let rope = Rope::from_str("one\nnée");
    /// assert_eq!(rope.char_to_position_in(6, Encoding::Utf8), Position { line: 1, column: 3 });
    /// ```
    #[track_caller]
    pub fn char_to_position_in(&self, char_idx: usize, encoding: Encoding) -> Position {
        self.try_char_to_position_in(char_idx, encoding).unwrap_or_else(|error| refuse(error))
    }

    /// Returns the position of a character, or of the end of the text, with its column in an
    /// encoding.
    ///
    /// # Errors
    ///
    /// `CharIndexOutOfBounds` if the index is past the end.
    ///
    /// ```
    /// use ropey::positions::Encoding;
    /// use ropey::Rope;
    ///
    /// let rope = Rope::from_str("one\nnée");
    /// assert!(rope.try_char_to_position_in(7, Encoding::Utf16).is_ok());
    /// assert!(rope.try_char_to_position_in(8, Encoding::Utf16).is_err());
    /// ```
    pub fn try_char_to_position_in(&self, char_idx: usize, encoding: Encoding) -> Result<Position> {
        let position = self.root.char_to_position(char_idx, encoding);
        let (line, column) = position.ok_or_else(|| Error::CharIndexOutOfBounds(char_idx, self.len_chars()))?;
        Ok(Position { line, column })
    }

    /// Returns the index of the character at any position, with the clamping of the Language Server
    /// Protocol: a column past the end of its line is the end of the line before its break, and a
    /// line past the last one is the end of the text. A column inside a character is that
    /// character.
    ///
    /// ```
    /// use ropey::positions::{Encoding, Position};
    /// use ropey::Rope;
    ///
    /// let rope = Rope::from_str("one\r\ntwo");
    /// let past_the_line = Position { line: 0, column: 90 };
    /// assert_eq!(rope.clamped_position_to_char(past_the_line, Encoding::Utf16), 3);
    /// let past_the_text = Position { line: 7, column: 0 };
    /// assert_eq!(rope.clamped_position_to_char(past_the_text, Encoding::Utf16), 8);
    /// ```
    pub fn clamped_position_to_char(&self, position: Position, encoding: Encoding) -> usize {
        self.root.clamped_position_to_char(position.line, position.column, encoding)
    }
}
