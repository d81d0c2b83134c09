//! Ropes and slices as texts: conversions, comparisons, hashes, display.
use std::borrow::Cow;
use std::cmp::Ordering;
use std::fmt;
use std::hash::{Hash, Hasher};

use crate::builder::RopeBuilder;
use crate::ffi::{Counts, Plain};
use crate::rope::Rope;
use crate::slice::{Part, RopeSlice};

// Ropes of texts.

macro_rules! rope_of_texts {
    ($(<$($life:lifetime)?> $text:ty;)*) => {
        $(
            impl<$($life)?> From<$text> for Rope {
                fn from(text: $text) -> Rope {
                    Rope::from_str(&text)
                }
            }

            impl<$($life)?> FromIterator<$text> for Rope {
                /// Returns a rope of the concatenated texts.
                fn from_iter<T: IntoIterator<Item = $text>>(texts: T) -> Rope {
                    let mut builder = RopeBuilder::new();
                    texts.into_iter().for_each(|text| builder.append(&text));
                    builder.finish()
                }
            }
        )*
    };
}

rope_of_texts! {
    <'a> &'a str;
    <'a> Cow<'a, str>;
    <> String;
}

/// The largest number of bytes that are copied faster than a tree is split twice.
const COPIED: usize = 1 << 13;

impl<'a> From<RopeSlice<'a>> for Rope {
    /// Returns a rope of the slice's text. If the text is long, it shares chunks with the slice's
    /// rope.
    fn from(slice: RopeSlice<'a>) -> Rope {
        match slice.part {
            Part::Range { root, start } if slice.len_bytes() > COPIED => {
                Rope::of(root.clone_chars(start.chars, start.chars + slice.len_chars()))
            }
            _ => Rope::from_str_with(&Cow::from(slice), slice.line_breaks()),
        }
    }
}

impl Default for Rope {
    fn default() -> Rope {
        Rope::new()
    }
}

// Texts of ropes.

impl<'a> From<RopeSlice<'a>> for String {
    fn from(slice: RopeSlice<'a>) -> String {
        let mut text = String::with_capacity(slice.len_bytes());
        slice.chunks().read().for_each(|chunk| text.push_str(chunk));
        text
    }
}

macro_rules! texts_of {
    ($($(#[$doc:meta])* <$($life:lifetime)?> $from:ty => $to:ty: |$text:ident| $made:expr;)*) => {
        $(
            impl<$($life)?> From<$from> for $to {
                $(#[$doc])*
                fn from($text: $from) -> $to {
                    $made
                }
            }
        )*
    };
}

texts_of! {
    <> Rope => String: |rope| String::from(&rope);
    <'a> &'a Rope => String: |rope| rope.slice(..).into();
    <'a> Rope => Cow<'a, str>: |rope| Cow::Owned(rope.into());
    /// Borrows the text if it lies in one chunk, else copies it.
    <'a> &'a Rope => Cow<'a, str>: |rope| rope.slice(..).into();
    /// Borrows the text if it lies in one chunk, else copies it.
    <'a> RopeSlice<'a> => Cow<'a, str>: |slice| slice.as_str().map_or_else(|| Cow::Owned(slice.into()), Cow::Borrowed);
}

// Comparisons of texts by their bytes.

fn order(left: RopeSlice<'_>, right: RopeSlice<'_>) -> Ordering {
    let (mut left_chunks, mut right_chunks) = (left.chunks().read(), right.chunks().read());
    let (mut left, mut right): (&[u8], &[u8]) = (b"", b"");
    loop {
        if left.is_empty() {
            left = left_chunks.next().unwrap_or_default().as_bytes();
        }
        if right.is_empty() {
            right = right_chunks.next().unwrap_or_default().as_bytes();
        }
        let len = left.len().min(right.len());
        let (left_part, right_part);
        (left_part, left) = left.split_at(len);
        (right_part, right) = right.split_at(len);
        match left_part.cmp(right_part) {
            // At least one text has ended.
            Ordering::Equal if len == 0 => return left.len().cmp(&right.len()),
            Ordering::Equal => {}
            unequal => return unequal,
        }
    }
}

fn is_text(slice: RopeSlice<'_>, text: &str) -> bool {
    let breaks = slice.line_breaks();
    slice.len_bytes() == text.len() && order(slice, RopeSlice::of_text(Plain { text, breaks }, Counts::NONE)).is_eq()
}

impl PartialEq for Rope {
    fn eq(&self, other: &Rope) -> bool {
        self.len_bytes() == other.len_bytes() && self.cmp(other).is_eq()
    }
}

impl Eq for Rope {}

impl Ord for Rope {
    /// Compares the texts by their bytes, which is also the order of their characters.
    fn cmp(&self, other: &Rope) -> Ordering {
        if self.is_instance(other) {
            return Ordering::Equal;
        }
        order(self.slice(..), other.slice(..))
    }
}

impl PartialOrd for Rope {
    fn partial_cmp(&self, other: &Rope) -> Option<Ordering> {
        Some(self.cmp(other))
    }
}

impl<'b> PartialEq<RopeSlice<'b>> for RopeSlice<'_> {
    fn eq(&self, other: &RopeSlice<'b>) -> bool {
        self.len_bytes() == other.len_bytes() && order(*self, *other).is_eq()
    }
}

impl Eq for RopeSlice<'_> {}

impl Ord for RopeSlice<'_> {
    /// Compares the texts by their bytes, which is also the order of their characters.
    fn cmp(&self, other: &Self) -> Ordering {
        order(*self, *other)
    }
}

impl<'b> PartialOrd<RopeSlice<'b>> for RopeSlice<'_> {
    fn partial_cmp(&self, other: &RopeSlice<'b>) -> Option<Ordering> {
        Some(order(*self, *other))
    }
}

/// Equality of a text and another kind of text, from either side.
macro_rules! equal {
    ($(<$($life:lifetime),*> $left:ty, $right:ty: |$a:ident, $b:ident| $equal:expr;)*) => {
        $(
            impl<$($life),*> PartialEq<$right> for $left {
                #[inline]
                fn eq(&self, $b: &$right) -> bool {
                    let $a = self;
                    $equal
                }
            }

            impl<$($life),*> PartialEq<$left> for $right {
                #[inline]
                fn eq(&self, $a: &$left) -> bool {
                    let $b = self;
                    $equal
                }
            }
        )*
    };
}

equal! {
    <> Rope, str: |rope, text| is_text(rope.slice(..), text);
    <'b> Rope, &'b str: |rope, text| *rope == **text;
    <> Rope, String: |rope, text| *rope == **text;
    <'b> Rope, Cow<'b, str>: |rope, text| *rope == **text;
    <'a> RopeSlice<'a>, str: |slice, text| is_text(*slice, text);
    <'a, 'b> RopeSlice<'a>, &'b str: |slice, text| is_text(*slice, text);
    <'a> RopeSlice<'a>, String: |slice, text| is_text(*slice, text);
    <'a, 'b> RopeSlice<'a>, Cow<'b, str>: |slice, text| is_text(*slice, text);
    <'a> RopeSlice<'a>, Rope: |slice, rope| *slice == rope.slice(..);
}

// Hashes.

impl Hash for RopeSlice<'_> {
    /// Hashes the text in blocks of one size, so that equal texts have equal hashes whatever their
    /// chunks are. Only blocks that span two chunks are copied.
    fn hash<H: Hasher>(&self, state: &mut H) {
        const BLOCK: usize = 256;
        let mut block = [0; BLOCK];
        let mut filled = 0;
        for chunk in self.chunks() {
            let mut bytes = chunk.as_bytes();
            while !bytes.is_empty() {
                let (part, rest) = bytes.split_at(bytes.len().min(BLOCK - filled));
                bytes = rest;
                if part.len() == BLOCK {
                    state.write(part);
                    continue;
                }
                block[filled..filled + part.len()].copy_from_slice(part);
                filled = (filled + part.len()) % BLOCK;
                if filled == 0 {
                    state.write(&block);
                }
            }
        }
        if filled > 0 {
            state.write(&block[..filled]);
        }
        // A terminator that is no byte of UTF-8, so that ("ab", "c") and ("a", "bc") differ.
        state.write_u8(0xff);
    }
}

impl Hash for Rope {
    fn hash<H: Hasher>(&self, state: &mut H) {
        self.slice(..).hash(state)
    }
}

// Display.

macro_rules! shown {
    ($($text:ty;)*) => {
        $(
            impl fmt::Display for $text {
                fn fmt(&self, f: &mut fmt::Formatter<'_>) -> fmt::Result {
                    self.chunks().read().try_for_each(|chunk| f.write_str(chunk))
                }
            }

            impl fmt::Debug for $text {
                /// Formats the list of the chunks.
                fn fmt(&self, f: &mut fmt::Formatter<'_>) -> fmt::Result {
                    f.debug_list().entries(self.chunks()).finish()
                }
            }
        )*
    };
}

shown! {
    Rope;
    RopeSlice<'_>;
}
