//! Calls of ropes and slices that panic if the index is out of bounds, each over a variant that
//! returns an error or `None`.
use crate::Error;

#[cold]
#[inline(never)]
#[track_caller]
pub(crate) fn refuse(error: Error) -> ! {
    panic!("{error}")
}

/// An example: a call on a short text, and its result.
macro_rules! example {
    ($made:literal, $shown:expr) => {
        concat!("\n```\nlet text = ropey::", $made, "(\"né\\r\\ntwo\\n\");\nassert_eq!(text.", $shown, ");\n```")
    };
}

/// Calls over a `try_` variant, which returns an error, or a `get_` variant, which returns `None`.
macro_rules! over {
    ($made:literal; $($(#[$doc:meta])* $name:ident($index:ident) by $variant:ident $(else $error:ident of $len:ident)? -> $result:ty,
        $shown:expr;)*) => {
        $(
            $(#[$doc])*
            ///
            /// # Panics
            ///
            /// If the index is out of bounds.
            #[doc = crate::calls::example!($made, $shown)]
            #[inline]
            #[track_caller]
            pub fn $name(&self, $index: usize) -> $result {
                self.$variant($index)
                    $(.ok_or_else(|| Error::$error($index, self.$len())))?
                    .unwrap_or_else(|error| crate::calls::refuse(error))
            }
        )*
    };
}

/// The conversions and their `try_` variants. A row has the two names, the index with the length
/// that bounds it, the units, the error, the call of a root or a plain text, and an example. The
/// macro `$convert` expands to the body of a `try_` variant.
macro_rules! conversions {
    ($convert:ident, $made:literal) => {
        crate::calls::conversions! {
            $convert, $made;
            /// Returns the index of the character that contains a byte; for the length in bytes,
            /// the length in characters.
            byte_to_char try_byte_to_char(byte_idx of len_bytes: bytes -> chars) else ByteIndexOutOfBounds by byte_to_char, 2 1;
            /// Returns the index of the line that contains a byte; for the length in bytes, the
            /// last line.
            byte_to_line try_byte_to_line(byte_idx of len_bytes: bytes -> line_breaks) else ByteIndexOutOfBounds by byte_to_line, 5 1;
            /// Returns the byte index at which a character starts; for the length in characters,
            /// the length in bytes.
            char_to_byte try_char_to_byte(char_idx of len_chars: chars -> bytes) else CharIndexOutOfBounds by char_to_byte, 2 3;
            /// Returns the index of the line that contains a character; for the length in
            /// characters, the last line.
            char_to_line try_char_to_line(char_idx of len_chars: chars -> line_breaks) else CharIndexOutOfBounds by char_to_line, 4 1;
            /// Returns the UTF-16 code unit index at which a character starts; for the length in
            /// characters, the length in code units.
            char_to_utf16_cu try_char_to_utf16_cu(char_idx of len_chars: chars -> utf16) else CharIndexOutOfBounds by char_to_utf16, 8 8;
            /// Returns the index of the character that contains a UTF-16 code unit; for the length
            /// in code units, the length in characters.
            utf16_cu_to_char try_utf16_cu_to_char(utf16_cu_idx of len_utf16_cu: utf16 -> chars) else Utf16IndexOutOfBounds by utf16_to_char, 2 2;
            /// Returns the byte index at which a line starts; for the number of lines, the length
            /// in bytes.
            line_to_byte try_line_to_byte(line_idx of len_lines: line_breaks -> bytes) else LineIndexOutOfBounds by line_to_byte, 1 5;
            /// Returns the character index at which a line starts; for the number of lines, the
            /// length in characters.
            line_to_char try_line_to_char(line_idx of len_lines: line_breaks -> chars) else LineIndexOutOfBounds by line_to_char, 1 4;
        }
    };
    ($convert:ident, $made:literal; $($(#[$doc:meta])* $name:ident $try_name:ident($index:ident of $len:ident: $from:ident -> $to:ident)
        else $error:ident by $call:ident, $shown:literal $converted:literal;)*) => {
        crate::calls::over! {
            $made;
            $($(#[$doc])* $name($index) by $try_name -> usize, concat!(stringify!($name), "(", $shown, "), ", $converted);)*
        }
        $(
            #[doc = concat!("Returns what [`", stringify!($name), "`](Self::", stringify!($name), ") does, or an error if the index is past the end.")]
            #[doc = crate::calls::example!($made, concat!(stringify!($try_name), "(", $shown, ").ok(), Some(", $converted, ")"))]
            #[inline]
            pub fn $try_name(&self, $index: usize) -> Result<usize> {
                $convert!(self, $index, self.$len(), $error, $from, $to, $call)
            }
        )*
    };
}

/// All panicking calls except conversions, and the cursors from the start. The lifetime is that of
/// the borrowed text.
macro_rules! panicking_calls {
    ($text:lifetime, $made:literal) => {
        crate::calls::over! {
            $made;
            /// Returns a byte.
            byte(byte_idx) by get_byte else ByteIndexOutOfBounds of len_bytes -> u8,
                "byte(0), b'n'";
            /// Returns a character.
            char(char_idx) by get_char else CharIndexOutOfBounds of len_chars -> char,
                "char(1), 'é'";
            /// Returns a line, including its line break.
            line(line_idx) by get_line else LineIndexOutOfBounds of len_lines -> RopeSlice<$text>,
                "line(1), \"two\\n\"";
            /// Returns the chunk that contains a byte, and the indices of the chunk's first byte,
            /// character and line break in the text. For the length, returns the last chunk.
            chunk_at_byte(byte_idx) by get_chunk_at_byte else ByteIndexOutOfBounds of len_bytes -> (&$text str, usize, usize, usize),
                "chunk_at_byte(5).1, 0";
            /// Returns the chunk that contains a character, and the indices of the chunk's first
            /// byte, character and line break in the text. For the length, returns the last chunk.
            chunk_at_char(char_idx) by get_chunk_at_char else CharIndexOutOfBounds of len_chars -> (&$text str, usize, usize, usize),
                "chunk_at_char(4).0.len(), 9";
            /// Returns the chunk that contains the line break before a line, and the indices of the
            /// chunk's first byte, character and line break in the text. For the first line,
            /// returns the first chunk, for the number of lines the last one.
            chunk_at_line_break(line_break_idx) by get_chunk_at_line_break else LineIndexOutOfBounds of len_lines -> (&$text str, usize, usize, usize),
                "chunk_at_line_break(1).3, 0";
            /// Returns a cursor over the bytes, positioned before a byte, or at the end for the
            /// length.
            bytes_at(byte_idx) by get_bytes_at else ByteIndexOutOfBounds of len_bytes -> Bytes<$text>,
                "bytes_at(5).next(), Some(b't')";
            /// Returns a cursor over the characters, positioned before a character, or at the end
            /// for the length.
            chars_at(char_idx) by get_chars_at else CharIndexOutOfBounds of len_chars -> Chars<$text>,
                "chars_at(4).next(), Some('t')";
            /// Returns a cursor over the lines, positioned before a line, or at the end for the
            /// number of lines.
            lines_at(line_idx) by get_lines_at else LineIndexOutOfBounds of len_lines -> Lines<$text>,
                "lines_at(1).next().unwrap(), \"two\\n\"";
            /// Returns a cursor over the chunks, positioned before the chunk that contains a byte,
            /// or at the end for the length; and the byte, character and line break index of that
            /// position.
            chunks_at_byte(byte_idx) by get_chunks_at_byte else ByteIndexOutOfBounds of len_bytes -> (Chunks<$text>, usize, usize, usize),
                "chunks_at_byte(5).0.count(), 1";
            /// Returns a cursor over the chunks, positioned before the chunk that contains a
            /// character, or at the end for the length; and the byte, character and line break
            /// index of that position.
            chunks_at_char(char_idx) by get_chunks_at_char else CharIndexOutOfBounds of len_chars -> (Chunks<$text>, usize, usize, usize),
                "chunks_at_char(8).0.count(), 0";
            /// Returns a cursor over the chunks, positioned before the chunk that contains the line
            /// break before a line, or at the end for the number of lines; and the byte, character
            /// and line break index of that position.
            chunks_at_line_break(line_break_idx) by get_chunks_at_line_break else LineIndexOutOfBounds of len_lines -> (Chunks<$text>, usize, usize, usize),
                "chunks_at_line_break(3).1, 9";
        }

        /// Returns a cursor over the bytes.
        #[doc = crate::calls::example!($made, "bytes().count(), 9")]
        #[inline]
        pub fn bytes(&self) -> Bytes<$text> {
            self.bytes_at(0)
        }

        /// Returns a cursor over the characters.
        #[doc = crate::calls::example!($made, "chars().nth(1), Some('é')")]
        #[inline]
        pub fn chars(&self) -> Chars<$text> {
            self.chars_at(0)
        }

        /// Returns a cursor over the lines, each with its line break.
        #[doc = crate::calls::example!($made, "lines().count(), 3")]
        #[inline]
        pub fn lines(&self) -> Lines<$text> {
            self.lines_at(0)
        }

        /// Returns a slice of a range of characters, or `None` if the range is out of bounds.
        #[doc = crate::calls::example!($made, "get_slice(0..9).is_none(), true")]
        #[inline]
        pub fn get_slice<R: RangeBounds<usize>>(&self, char_range: R) -> Option<RopeSlice<$text>> {
            self.slice_chars(Bounds::of(&char_range)).ok()
        }

        /// Returns a slice of a range of bytes, or `None` if the range is out of bounds or has a
        /// bound inside a character.
        #[doc = crate::calls::example!($made, "get_byte_slice(0..2).is_none(), true")]
        #[inline]
        pub fn get_byte_slice<R: RangeBounds<usize>>(&self, byte_range: R) -> Option<RopeSlice<$text>> {
            self.slice_bytes(Bounds::of(&byte_range)).ok()
        }

        /// Returns a slice of a range of characters. No text is copied.
        ///
        /// # Panics
        ///
        /// If the range starts past its end, or ends past the text.
        #[doc = crate::calls::example!($made, "slice(4..7), \"two\"")]
        #[inline]
        #[track_caller]
        pub fn slice<R: RangeBounds<usize>>(&self, char_range: R) -> RopeSlice<$text> {
            self.slice_chars(Bounds::of(&char_range)).unwrap_or_else(|error| crate::calls::refuse(error))
        }

        /// Returns a slice of a range of bytes. No text is copied.
        ///
        /// # Panics
        ///
        /// If the range starts past its end, ends past the text, or has a bound inside a character.
        #[doc = crate::calls::example!($made, "byte_slice(5..8), \"two\"")]
        #[inline]
        #[track_caller]
        pub fn byte_slice<R: RangeBounds<usize>>(&self, byte_range: R) -> RopeSlice<$text> {
            self.slice_bytes(Bounds::of(&byte_range)).unwrap_or_else(|error| crate::calls::refuse(error))
        }
    };
}

pub(crate) use {conversions, example, over, panicking_calls};
