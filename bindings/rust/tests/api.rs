//! The names and signatures of ropey 1.6.1's public calls, so that programs that use them compile
//! unchanged.
use std::borrow::Cow;
use std::cmp::Ordering;
use std::fmt::{Debug, Display};
use std::hash::Hash;
use std::ops::Range;

use ropey::iter::{Bytes, Chars, Chunks, Lines};
use ropey::{Error, Result, Rope, RopeBuilder, RopeSlice};

type ChunkAt<'a> = (&'a str, usize, usize, usize);
type ChunksAt<'a> = (Chunks<'a>, usize, usize, usize);

/// Checks that each call has the type.
macro_rules! are {
    ($type:ty; $($call:expr),* $(,)?) => {
        $(let _: $type = $call;)*
    };
}

#[test]
fn calls_of_ropes() {
    are!(fn() -> Rope; Rope::new, Rope::default);
    are!(fn(&str) -> Rope; Rope::from_str);
    are!(fn(&'static [u8]) -> std::io::Result<Rope>; Rope::from_reader::<&'static [u8]>);
    are!(fn(&Rope, Vec<u8>) -> std::io::Result<()>; Rope::write_to::<Vec<u8>>);
    are!(fn(&Rope) -> usize; Rope::len_bytes, Rope::len_chars, Rope::len_lines, Rope::len_utf16_cu, Rope::capacity);
    are!(fn(&mut Rope); Rope::shrink_to_fit);
    are!(fn(&mut Rope, usize, &str); Rope::insert);
    are!(fn(&mut Rope, usize, char); Rope::insert_char);
    are!(fn(&mut Rope, Range<usize>); Rope::remove::<Range<usize>>);
    are!(fn(&mut Rope, usize) -> Rope; Rope::split_off);
    are!(fn(&mut Rope, Rope); Rope::append);
    are!(fn(&mut Rope, usize, &str) -> Result<()>; Rope::try_insert);
    are!(fn(&mut Rope, usize, char) -> Result<()>; Rope::try_insert_char);
    are!(fn(&mut Rope, Range<usize>) -> Result<()>; Rope::try_remove::<Range<usize>>);
    are!(fn(&mut Rope, usize) -> Result<Rope>; Rope::try_split_off);
    are!(fn(&Rope, &Rope) -> bool; Rope::is_instance);
    are!(fn(&Rope) -> Rope; Rope::clone);
}

/// Checks the lookups of ropes or slices, with the lifetime of the borrowed text.
macro_rules! lookups {
    ($text:ty, $lent:lifetime, $this:ty) => {
        are!(fn($this, usize) -> usize; <$text>::byte_to_char, <$text>::byte_to_line, <$text>::char_to_byte,
            <$text>::char_to_line, <$text>::char_to_utf16_cu, <$text>::utf16_cu_to_char, <$text>::line_to_byte,
            <$text>::line_to_char);
        are!(fn($this, usize) -> Result<usize>; <$text>::try_byte_to_char, <$text>::try_byte_to_line,
            <$text>::try_char_to_byte, <$text>::try_char_to_line, <$text>::try_char_to_utf16_cu,
            <$text>::try_utf16_cu_to_char, <$text>::try_line_to_byte, <$text>::try_line_to_char);
        are!(fn($this, usize) -> u8; <$text>::byte);
        are!(fn($this, usize) -> Option<u8>; <$text>::get_byte);
        are!(fn($this, usize) -> char; <$text>::char);
        are!(fn($this, usize) -> Option<char>; <$text>::get_char);
        are!(fn($this, usize) -> RopeSlice<$lent>; <$text>::line);
        are!(fn($this, usize) -> Option<RopeSlice<$lent>>; <$text>::get_line);
        are!(fn($this, usize) -> ChunkAt<$lent>; <$text>::chunk_at_byte, <$text>::chunk_at_char,
            <$text>::chunk_at_line_break);
        are!(fn($this, usize) -> Option<ChunkAt<$lent>>; <$text>::get_chunk_at_char,
            <$text>::get_chunk_at_line_break);
        are!(fn($this, Range<usize>) -> RopeSlice<$lent>; <$text>::slice::<Range<usize>>,
            <$text>::byte_slice::<Range<usize>>);
        are!(fn($this, Range<usize>) -> Option<RopeSlice<$lent>>; <$text>::get_slice::<Range<usize>>,
            <$text>::get_byte_slice::<Range<usize>>);
        are!(fn($this) -> Bytes<$lent>; <$text>::bytes);
        are!(fn($this, usize) -> Bytes<$lent>; <$text>::bytes_at);
        are!(fn($this, usize) -> Option<Bytes<$lent>>; <$text>::get_bytes_at);
        are!(fn($this) -> Chars<$lent>; <$text>::chars);
        are!(fn($this, usize) -> Chars<$lent>; <$text>::chars_at);
        are!(fn($this, usize) -> Option<Chars<$lent>>; <$text>::get_chars_at);
        are!(fn($this) -> Lines<$lent>; <$text>::lines);
        are!(fn($this, usize) -> Lines<$lent>; <$text>::lines_at);
        are!(fn($this, usize) -> Option<Lines<$lent>>; <$text>::get_lines_at);
        are!(fn($this) -> Chunks<$lent>; <$text>::chunks);
        are!(fn($this, usize) -> ChunksAt<$lent>; <$text>::chunks_at_byte, <$text>::chunks_at_char,
            <$text>::chunks_at_line_break);
        are!(fn($this, usize) -> Option<ChunksAt<$lent>>; <$text>::get_chunks_at_byte, <$text>::get_chunks_at_char,
            <$text>::get_chunks_at_line_break);
    };
}

#[test]
fn lookups_of_ropes_and_slices() {
    fn of_ropes<'a>() {
        lookups!(Rope, 'a, &'a Rope);
        are!(fn(&'a Rope, usize) -> Option<ChunkAt<'a>>; Rope::get_chunk_at_byte);
    }
    // Text borrowed from a slice outlives the slice.
    fn of_slices<'a>() {
        lookups!(RopeSlice<'a>, 'a, &RopeSlice<'a>);
        are!(fn(&RopeSlice<'a>, usize) -> Result<ChunkAt<'a>>; RopeSlice::try_chunk_at_byte);
        are!(fn(&RopeSlice<'a>) -> Option<&'a str>; RopeSlice::as_str);
        are!(fn(&RopeSlice<'a>) -> usize; RopeSlice::len_bytes, RopeSlice::len_chars, RopeSlice::len_lines,
            RopeSlice::len_utf16_cu);
    }
    of_ropes();
    of_slices();
}

macro_rules! are_cursors {
    ($($cursor:ident of $item:ty;)*) => {
        $(
            are!(fn(&mut $cursor<'a>); $cursor::reverse);
            are!(fn($cursor<'a>) -> $cursor<'a>; $cursor::reversed);
            are!(fn(&mut $cursor<'a>) -> Option<$item>; $cursor::prev, $cursor::next);
            is::<$cursor<'a>>();
        )*
    };
}

fn is<T: Debug + Clone>() {}

fn is_sized<T: ExactSizeIterator>() {}

#[test]
fn cursors_and_builders() {
    fn of_text<'a>() {
        are_cursors! {
            Bytes of u8;
            Chars of char;
            Lines of RopeSlice<'a>;
            Chunks of &'a str;
        }
        is_sized::<Bytes<'a>>();
        is_sized::<Chars<'a>>();
        is_sized::<Lines<'a>>();
    }
    of_text();
    are!(fn() -> RopeBuilder; RopeBuilder::new, RopeBuilder::default);
    are!(fn(&mut RopeBuilder, &str); RopeBuilder::append);
    are!(fn(RopeBuilder) -> Rope; RopeBuilder::finish);
    is::<RopeBuilder>();
}

/// Checks the comparisons of ropes and slices, from both sides.
fn compares<'b, T>()
where
    T: PartialEq<str> + PartialEq<&'b str> + PartialEq<String> + PartialEq<Cow<'b, str>>,
    T: PartialEq<Rope> + PartialEq<RopeSlice<'b>>,
    T: Eq + Ord + PartialOrd + Hash + Debug + Display + Clone,
    str: PartialEq<T>,
    &'b str: PartialEq<T>,
    String: PartialEq<T>,
    Cow<'b, str>: PartialEq<T>,
    Rope: PartialEq<T>,
    RopeSlice<'b>: PartialEq<T>,
{
}

#[test]
fn traits() {
    fn of_text<'a>() {
        compares::<'a, Rope>();
        compares::<'a, RopeSlice<'a>>();
        are!(fn(&'a str) -> Rope; Rope::from);
        are!(fn(String) -> Rope; Rope::from);
        are!(fn(Cow<'a, str>) -> Rope; Rope::from);
        are!(fn(RopeSlice<'a>) -> Rope; Rope::from);
        are!(fn(&'a str) -> RopeSlice<'a>; RopeSlice::from);
        are!(fn(Rope) -> String; String::from);
        are!(fn(&'a Rope) -> String; String::from);
        are!(fn(RopeSlice<'a>) -> String; String::from);
        are!(fn(Rope) -> Cow<'a, str>; Cow::from);
        are!(fn(&'a Rope) -> Cow<'a, str>; Cow::from);
        are!(fn(RopeSlice<'a>) -> Cow<'a, str>; Cow::from);
        are!(fn(Vec<&'a str>) -> Rope; Rope::from_iter);
        are!(fn(Vec<String>) -> Rope; Rope::from_iter);
        are!(fn(Vec<Cow<'a, str>>) -> Rope; Rope::from_iter);
        are!(fn(&RopeSlice<'a>, &RopeSlice<'a>) -> Ordering; RopeSlice::cmp);
    }
    of_text();
    fn is_copy<T: Copy>() {}
    is_copy::<RopeSlice<'static>>();
    is_copy::<Error>();
}

#[test]
fn errors() {
    let texts = [
        (Error::ByteIndexOutOfBounds(4, 3), "Byte index out of bounds: byte index 4, Rope/RopeSlice byte length 3"),
        (Error::CharIndexOutOfBounds(4, 3), "Char index out of bounds: char index 4, Rope/RopeSlice char length 3"),
        (Error::LineIndexOutOfBounds(4, 3), "Line index out of bounds: line index 4, Rope/RopeSlice line count 3"),
        (
            Error::Utf16IndexOutOfBounds(4, 3),
            "Utf16 code-unit index out of bounds: utf16 index 4, Rope/RopeSlice utf16 length 3",
        ),
        (Error::ByteIndexNotCharBoundary(4), "Byte index is not a valid char boundary: byte index 4"),
        (Error::ByteRangeNotCharBoundary(Some(1), None), "Byte range does not align with char boundaries: range 1.."),
        (Error::ByteRangeInvalid(2, 1), "Invalid byte range 2..1: start must be <= end"),
        (Error::CharRangeInvalid(2, 1), "Invalid char range 2..1: start must be <= end"),
        (
            Error::ByteRangeOutOfBounds(None, Some(4), 3),
            "Byte range out of bounds: byte range ..4, Rope/RopeSlice byte length 3",
        ),
        (
            Error::CharRangeOutOfBounds(Some(1), Some(4), 3),
            "Char range out of bounds: char range 1..4, Rope/RopeSlice char length 3",
        ),
    ];
    for (error, text) in texts {
        assert_eq!(error.to_string(), text);
        assert_eq!(format!("{error:?}"), text);
        let _: &dyn std::error::Error = &error;
    }
}

#[test]
fn functions_of_plain_texts() {
    use ropey::str_utils::*;
    are!(fn(&str, usize) -> usize; byte_to_char_idx, byte_to_line_idx, char_to_byte_idx, char_to_line_idx,
        line_to_byte_idx, line_to_char_idx);
}
