//! A text buffer for editors, with the API of the crate ropey 1.6.1, over a library whose every
//! function is proved.
//!
//! A [`Rope`] stores a long UTF-8 text in the leaves of a balanced tree. Clones share its nodes,
//! [slices](RopeSlice) copy nothing, and indices are exact in bytes, characters, lines and UTF-16
//! code units, with CR LF as one line break. A program that uses ropey 1.6 changes one line of its
//! Cargo.toml, or patches crates.io, also for its dependencies:
//!
//! ```toml
//! [patch.crates-io]
//! ropey = { path = "bindings/rust" }
//! ```
//!
//! ```
//! use ropey::Rope;
//!
//! # fn main() -> std::io::Result<()> {
//! let mut rope = Rope::from_reader(&b"one\ntwo\nthree\n"[..])?;
//! let start = rope.line_to_char(1);
//! let end = rope.line_to_char(2);
//! rope.remove(start..end);
//! rope.insert(start, "flowers\n");
//! assert_eq!(rope.line(1), "flowers\n");
//!
//! let mut written = Vec::new();
//! rope.write_to(&mut written)?;
//! assert_eq!(written, b"one\nflowers\nthree\n");
//! # Ok(())
//! # }
//! ```
//!
//! # The library
//!
//! The library for C of this repository, `libropey.a` for Linux on x86-64, does all counting,
//! searching, editing and checking of UTF-8. Its functions are proved against plain lists of
//! characters. This crate holds handles, ranges and pieces, and is tested, not proved. The build
//! takes the archive from the folder `ROPEY_LIB_DIR`; or else from the crate's own folder, where a
//! release has it, from the folder where the repository builds it, or by `pkg-config`. It fails if
//! the archive has another version than the crate.
//!
//! # Line breaks
//!
//! A rope has a [set of line breaks](LineBreaks). [`Rope::from_str_with`] and other calls that end
//! in `with` choose it; ropey's calls use the set that ropey's features choose: all of Unicode's
//! line breaks (`unicode_lines`, a default); LF, CR and CR LF (`cr_lines` alone); or LF alone. The
//! features `simd`, another default, and `small_chunks` exist, but have no effect.
//!
//! # Additions to ropey
//!
//! - The module [`changes`] has the edits of a text as a value: applied atomically, undone,
//!   composed, and rebased over those of another editor.
//! - The module [`files`] reads and writes files in UTF-8, UTF-16 and Latin-1, with and without a
//!   byte order mark.
//! - The module [`positions`] has lines and columns in the encodings of the Language Server
//!   Protocol.
//! - [`RopeSlice::without_break`] and [`RopeSlice::line_break`] split a line from the line break
//!   that ends it.
//!
//! # Memory
//!
//! The library allocates ropes and changes by C's `malloc`: a `#[global_allocator]` neither sees
//! nor limits that memory. The global allocator serves the buffers of [`RopeBuilder`],
//! [`Rope::from_reader`] and cursors ([at most 6 KB each](iter)), and the `String`s and lists that
//! calls return. Lookups and slices allocate nothing. Out of memory, a call aborts as `Vec` does.
//!
//! # Threads
//!
//! All types are `Send` and `Sync`, as in ropey. The reference counts of shared nodes aren't
//! atomic, so edits, clones and drops take a lock of the whole process, which is uncontended in
//! most programs:
//!
//! - Only clones, edits and drops read and write reference counts. The lock keeps any two of them
//!   apart, whatever their ropes.
//! - Lookups, slices and cursors touch no count and take no lock. They run concurrently on any
//!   threads, on one rope or on many.
//! - A lookup never reads a node that an edit writes. An edit borrows its rope by `&mut`, so no
//!   lookup of that rope runs; and it copies a node that another rope shares before it changes it.
//! - A node that an edit writes in place may have had other owners before. They released it under
//!   the lock, after their last lookup, and so before the edit.
//!
//! With the feature `single_thread` there is no lock, and ropes are neither `Send` nor `Sync`.
//!
//! # Differences from ropey 1.6.1
//!
//! - Chunks have at most 984 bytes, and other boundaries than ropey's. No CR LF spans two chunks.
//! - A range of bytes that ends between a CR and its LF counts the CR as a line break, as a range
//!   of characters does.
//! - Ropes and slices are ordered by their bytes, whatever their chunks.
//! - At its end, a slice's lookup of a chunk returns the last chunk, never an empty one.
//! - `lines_at(1)` of an empty rope is after its one line; ropey's is before it.
//! - A line that a cursor returns going back counts its line break only if it has one; in a rope of
//!   one chunk ropey's always counts one.
//! - `chunks_at_line_break` of the number of lines is at the end, also in a slice of one chunk.
//! - An inclusive bound of `usize::MAX` is out of bounds; ropey's overflows.
//! - A text past `isize::MAX` bytes panics; out of memory, a call aborts as `Vec` does.
//! - Ropey's hidden functions for its own tests don't exist.
#![deny(unsafe_code)]
#![warn(missing_docs, missing_debug_implementations)]

#[cfg(not(any(doc, all(target_os = "linux", target_arch = "x86_64"))))]
compile_error!("ropey: the library is for Linux on x86-64 alone, and this build is for another platform");

mod builder;
mod calls;
mod error;
mod ffi;
mod instance;
mod line_breaks;
mod range;
mod rope;
mod slice;
mod texts;

pub mod changes;
pub mod files;
pub mod iter;
pub mod positions;
pub mod str_utils;

pub use crate::builder::RopeBuilder;
pub use crate::error::{Error, Result};
pub use crate::line_breaks::LineBreaks;
pub use crate::rope::Rope;
pub use crate::slice::RopeSlice;

/// The largest number of bytes of a chunk.
const MAX_BYTES: usize = 984;

/// The number of bytes that a builder and a reader append at once: those of 24 lists of 20 leaves,
/// so the joined tree is no higher than one of the whole text; and few enough to stay in the near
/// cache while they are checked, counted and copied.
const BLOCK: usize = 24 * 20 * 981;
