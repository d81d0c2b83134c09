//! Sets of line breaks.

/// A set of line breaks: the characters that end a line.
///
/// A rope has one set for its whole life, and its slices and split-off parts have the same.
///
/// ```
/// use ropey::{LineBreaks, Rope};
///
/// let text = "one\rtwo\u{2028}three\r\nfour";
/// assert_eq!(Rope::from_str_with(text, LineBreaks::Lf).len_lines(), 2);
/// assert_eq!(Rope::from_str_with(text, LineBreaks::CrLf).len_lines(), 3);
/// assert_eq!(Rope::from_str_with(text, LineBreaks::Unicode).len_lines(), 4);
/// ```
#[derive(Clone, Copy, Debug, PartialEq, Eq, Hash)]
pub enum LineBreaks {
    /// LF alone.
    Lf,
    /// LF, CR, and CR LF as one break, as in the Language Server Protocol.
    CrLf,
    /// LF, VT, FF, CR, NEL, LS, PS, and CR LF as one break.
    Unicode,
}

impl LineBreaks {
    /// The set that the crate's features choose.
    pub(crate) const CHOSEN: LineBreaks = match (cfg!(feature = "cr_lines"), cfg!(feature = "unicode_lines")) {
        (false, false) => LineBreaks::Lf,
        (true, false) => LineBreaks::CrLf,
        (_, true) => LineBreaks::Unicode,
    };

    /// Returns whether a line ends after the character when no LF follows.
    ///
    /// ```
    /// use ropey::LineBreaks;
    ///
    /// assert!(LineBreaks::CrLf.is_break('\r'));
    /// assert!(!LineBreaks::Lf.is_break('\r'));
    /// ```
    pub fn is_break(self, c: char) -> bool {
        match c {
            '\n' => true,
            '\r' => self != LineBreaks::Lf,
            '\u{b}' | '\u{c}' | '\u{85}' | '\u{2028}' | '\u{2029}' => self == LineBreaks::Unicode,
            _ => false,
        }
    }
}

impl Default for LineBreaks {
    /// Returns the set that the crate's features choose, by default Unicode's.
    fn default() -> LineBreaks {
        LineBreaks::CHOSEN
    }
}
