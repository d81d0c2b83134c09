//! Conversions between the indices of a plain text.
//!
//! Lines end by the set of line breaks that the crate's features choose. An index past the end
//! counts as the end, and a byte inside a character as that character. A call reads the text up to
//! the index, or all of it, and allocates nothing.
//!
//! ```
//! use ropey::str_utils::{byte_to_char_idx, char_to_line_idx, line_to_byte_idx};
//!
//! let text = "één\r\ntwee\n";
//! assert_eq!(byte_to_char_idx(text, 4), 2);
//! assert_eq!(char_to_line_idx(text, 5), 1);
//! assert_eq!(line_to_byte_idx(text, 1), 7);
//! ```
use crate::ffi::{Counts, Plain};
use crate::LineBreaks;

macro_rules! conversions {
    ($($(#[$doc:meta])* $name:ident by $call:ident, $index:literal => $shown:literal;)*) => {
        $(
            $(#[$doc])*
            ///
            /// ```
            #[doc = concat!("assert_eq!(ropey::str_utils::", stringify!($name), "(\"é\\nb\", ", $index, "), ", $shown, ");")]
            /// ```
            #[inline]
            pub fn $name(text: &str, index: usize) -> usize {
                Plain { text, breaks: LineBreaks::CHOSEN }.$call(index)
            }
        )*
    };
}

conversions! {
    /// Returns the index of the character that contains a byte.
    byte_to_char_idx by byte_to_char, 1 => 0;
    /// Returns the index of the line that contains a byte.
    byte_to_line_idx by byte_to_line, 3 => 1;
    /// Returns the byte index at which a character starts.
    char_to_byte_idx by char_to_byte, 1 => 2;
    /// Returns the index of the line that contains a character.
    char_to_line_idx by char_to_line, 2 => 1;
    /// Returns the byte index at which a line starts.
    line_to_byte_idx by line_to_byte, 1 => 3;
    /// Returns the character index at which a line starts.
    line_to_char_idx by line_to_char, 1 => 2;
}

// A line is searched in a growing window, since a call of the library reads its whole argument.
const WINDOW: usize = 128;

/// Returns at least the first `len` bytes of a text, extended to whole characters.
fn front(text: &str, len: usize) -> &str {
    let end = (len..text.len()).find(|&i| text.is_char_boundary(i));
    &text[..end.unwrap_or(text.len())]
}

/// Returns at least the last `len` bytes of a text, extended to whole characters and a whole CR LF.
fn back(text: &str, len: usize) -> &str {
    let mut start = text.len().saturating_sub(len);
    while !text.is_char_boundary(start) || text[start..].starts_with('\n') && text[..start].ends_with('\r') {
        start -= 1;
    }
    &text[start..]
}

/// Returns the first line of a text, including its line break, and its counts.
pub(crate) fn first_line(plain: Plain<'_>) -> (&str, Counts) {
    let (text, mut len) = (plain.text, WINDOW);
    loop {
        let window = front(text, len);
        let end = plain.with(window).line_to_byte(1);
        // A break at the window's end may be the CR of a CR LF.
        if end < window.len() || window.len() == text.len() {
            let line = &text[..end];
            return (line, plain.with(line).counts());
        }
        len *= 4;
    }
}

/// Returns the first byte of the last line of a text, and whether a line break ends that line: a
/// line break at the end of the text belongs to it.
pub(crate) fn last_line(plain: Plain<'_>) -> (usize, bool) {
    let (text, mut len) = (plain.text, WINDOW);
    loop {
        let window = plain.with(back(text, len));
        let breaks = window.counts().line_breaks;
        let is_ended = breaks > 0 && window.line_to_byte(breaks) == window.text.len();
        let before = breaks - usize::from(is_ended);
        if before > 0 || window.text.len() == text.len() {
            let start = text.len() - window.text.len() + window.line_to_byte(before);
            return (start, is_ended);
        }
        len *= 4;
    }
}
