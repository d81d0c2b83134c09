//! Cursors over a text's bytes, characters, lines and chunks.
//!
//! A cursor is between two items, or at an end of the text. `next` returns the item after it, and
//! `prev` the item before it; each moves over that item, so each undoes the other. At an end they
//! return `None`, and may be called again. `reverse` swaps the two directions.
//!
//! A cursor fetches one line or three chunks at first and after a turn. Each further fetch has four
//! times as many lines, up to 50, or twice as many chunks, up to 256. It takes at most 6 KB of
//! memory. A thread keeps 2.4 KB of it for its next cursor over lines.
//!
//! ```
//! use ropey::Rope;
//!
//! let rope = Rope::from_str("one\ntwo\nthree\n");
//! let mut lines = rope.lines_at(2);
//! assert_eq!(lines.next().unwrap(), "three\n");
//! assert_eq!(lines.prev().unwrap(), "three\n");
//! assert_eq!(lines.prev().unwrap(), "two\n");
//!
//! let backward: String = rope.chars_at(3).reversed().collect();
//! assert_eq!(backward, "eno");
//! ```
mod bytes;
mod chars;
mod chunks;
mod lines;

pub use self::bytes::Bytes;
pub use self::chars::Chars;
pub use self::chunks::Chunks;
pub(crate) use self::chunks::InChunk;
pub use self::lines::Lines;

/// An example of a cursor over a text.
macro_rules! example {
    ($at:literal, $first:literal, $shown:literal) => {
        concat!(
            "\n```\nlet rope = ropey::Rope::from_str(\"a\\nb\");\nlet mut cursor = rope.",
            $at,
            ";\n",
            $first,
            $shown,
            "\n```"
        )
    };
}

/// The calls that all cursors have, over `forward` and `backward`. In the examples a cursor is at
/// the end of its text.
macro_rules! cursor {
    ($name:ident, $at:literal, $item:ty, {$($size_hint:item)?}) => {
        impl<'a> $name<'a> {
            /// Reverses the cursor in place.
            #[doc = crate::iter::example!($at, "cursor.reverse();\n", "assert!(cursor.next().is_some());")]
            #[inline]
            pub fn reverse(&mut self) {
                self.is_reversed = !self.is_reversed;
            }

            /// Returns the cursor, reversed in place.
            #[doc = crate::iter::example!($at, "let mut cursor = cursor.reversed();\n", "assert!(cursor.next().is_some());")]
            #[inline]
            #[must_use]
            pub fn reversed(mut self) -> $name<'a> {
                self.reverse();
                self
            }

            /// Returns the previous item and moves before it, or returns `None` at the start of the
            /// text.
            #[doc = crate::iter::example!($at, "", "assert!(cursor.next().is_none());\nassert!(cursor.prev().is_some());")]
            #[inline(always)]
            pub fn prev(&mut self) -> Option<$item> {
                if self.is_reversed {
                    self.forward()
                } else {
                    self.backward()
                }
            }
        }

        impl std::fmt::Debug for $name<'_> {
            fn fmt(&self, f: &mut std::fmt::Formatter<'_>) -> std::fmt::Result {
                f.debug_struct(stringify!($name)).field("is_reversed", &self.is_reversed).finish_non_exhaustive()
            }
        }

        impl<'a> Iterator for $name<'a> {
            type Item = $item;

            #[inline(always)]
            fn next(&mut self) -> Option<$item> {
                if self.is_reversed {
                    self.backward()
                } else {
                    self.forward()
                }
            }

            $($size_hint)?
        }
    };
}

/// A cursor that knows its number of items, and the number `$passed` of items before it.
macro_rules! counted_cursor {
    ($name:ident, $at:literal, $item:ty, $passed:expr) => {
        crate::iter::cursor!($name, $at, $item, {
            #[inline]
            fn size_hint(&self) -> (usize, Option<usize>) {
                let left = if self.is_reversed { ($passed)(self) } else { self.total - ($passed)(self) };
                (left, Some(left))
            }
        });

        impl ExactSizeIterator for $name<'_> {}
    };
}

use {counted_cursor, cursor, example};
