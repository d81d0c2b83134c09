//! The library for C: safe wrappers of the calls in its header. All of the crate's `unsafe` is
//! here.
//!
//! The wrappers rely on these facts:
//!
//! - A handle belongs to one `Root`. Only the library writes it, and it is never copied here.
//! - The bytes that a lookup borrows from a rope stay in place until the rope is edited or freed.
//!   Results borrow the `Root`, and edits borrow it mutably, so no result outlives an edit.
//! - The bytes of a chunk or piece are UTF-8, and a returned character is a Unicode scalar value.
//! - A `&str` is UTF-8, and its length is at most `isize::MAX`.
//! - A call never reads its output arguments, so a list may be passed as uninitialized capacity.
//! - Reference counts are not atomic: whoever changes one holds the lock. With the feature
//!   `single_thread` there is no lock, and nothing that holds a `Root` is `Send` or `Sync`.
#![allow(unsafe_code)]

use std::alloc::{handle_alloc_error, Layout};
use std::cell::Cell;
use std::ffi::c_void;
use std::marker::PhantomData;
use std::mem::MaybeUninit;
use std::ptr;

use crate::positions::Encoding;
use crate::slice::known;
use crate::{LineBreaks, MAX_BYTES};

pub(crate) mod changes;
pub(crate) mod files;

/// `ropey_rope`.
#[repr(C)]
struct Handle {
    ptr: *mut c_void,
}

const NONE: Handle = Handle { ptr: ptr::null_mut() };

/// `const ropey_rope *`.
type Held = *const Handle;

/// `ropey_chunk`.
#[repr(C)]
struct RawChunk {
    text: Piece,
    bytes_before: usize,
    chars_before: usize,
    line_breaks_before: usize,
}

/// A chunk, and the bytes, characters and line breaks before it.
pub(crate) type ChunkAt<'a> = (&'a str, usize, usize, usize);

/// `ropey_piece`.
#[repr(C)]
#[derive(Clone, Copy)]
struct Piece {
    text: *const u8,
    len: usize,
}

impl Piece {
    #[inline(always)]
    fn of(text: &str) -> Piece {
        Piece { text: text.as_ptr(), len: text.len() }
    }
}

/// `ropey_place`.
#[repr(C)]
struct Place {
    line: usize,
    column: usize,
}

/// `ropey_counts`: the counts of a text.
#[repr(C)]
#[derive(Clone, Copy, Debug)]
pub(crate) struct Counts {
    pub bytes: usize,
    pub chars: usize,
    pub utf16: usize,
    pub line_breaks: usize,
}

/// `ropey_slice`.
#[repr(C)]
#[derive(Clone, Copy)]
struct RawSlice {
    text: Piece,
    counts: Counts,
}

/// A part of a rope's text: the text if it lies in one chunk, and its counts.
pub(crate) type Lent<'a> = (Option<&'a str>, Counts);

impl RawSlice {
    /// Returns the text, if it lies in one chunk, and its counts.
    ///
    /// Safety: the rope is neither edited nor freed for `'a`.
    #[inline(always)]
    unsafe fn lent<'a>(self) -> Lent<'a> {
        let is_one = self.text.len == self.counts.bytes;
        (is_one.then(|| text_at(self.text)), self.counts)
    }
}

const OK: u32 = 0;
const OUT_OF_MEMORY: u32 = 1;
const TOO_LONG: u32 = 15;

// The macros below declare the other calls.
extern "C" {
    fn ropey_from_text(text: *const u8, len: usize, break_set: u32, rope: *mut Handle) -> u32;
    fn ropey_from_text_unchecked(text: *const u8, len: usize, break_set: u32, rope: *mut Handle) -> u32;
    fn ropey_free(rope: *mut Handle);
    fn ropey_clone(rope: Held, copy: *mut Handle) -> u32;
    fn ropey_clone_chars(rope: Held, start: usize, end: usize, copy: *mut Handle) -> u32;
    fn ropey_shrink_to_fit(rope: *mut Handle) -> u32;
    fn ropey_insert(rope: *mut Handle, char_idx: usize, text: *const u8, len: usize) -> u32;
    fn ropey_insert_char(rope: *mut Handle, char_idx: usize, c: u32) -> u32;
    fn ropey_remove(rope: *mut Handle, start: usize, end: usize) -> u32;
    fn ropey_split_off(rope: *mut Handle, char_idx: usize, tail: *mut Handle) -> u32;
    fn ropey_append(rope: *mut Handle, other: *mut Handle) -> u32;
    fn ropey_char_to_position_in(rope: Held, char_idx: usize, encoding: u32, place: *mut Place) -> u32;
    fn ropey_clamped_position_to_char(
        rope: Held,
        line: usize,
        column: usize,
        encoding: u32,
        char_idx: *mut usize,
    ) -> u32;
    fn ropey_text_counts_unchecked(text: *const u8, len: usize, break_set: u32, counts: *mut Counts) -> u32;
}

/// One lock for all ropes, held by every call that may touch a reference count: clones, edits,
/// frees.
#[cfg(not(feature = "single_thread"))]
mod owners {
    use std::sync::{Mutex, MutexGuard, PoisonError};

    static OWNERS: Mutex<()> = Mutex::new(());

    pub(super) fn lock() -> MutexGuard<'static, ()> {
        // The lock guards no value, so a panic leaves nothing inconsistent.
        OWNERS.lock().unwrap_or_else(PoisonError::into_inner)
    }

    // Safety: whoever changes a reference count holds the lock. Lookups touch no count, and an edit
    // writes only nodes of which it is the sole owner. Earlier owners released them under the lock,
    // after their last lookup.
    unsafe impl Send for super::Root {}
    unsafe impl Sync for super::Root {}

    // Safety: a piece is a `&str`.
    unsafe impl Send for super::Piece {}
    unsafe impl Sync for super::Piece {}
}

#[cfg(feature = "single_thread")]
mod owners {
    pub(super) fn lock() -> impl Sized {}
}

use owners::lock;

/// Returns whether a call succeeded; otherwise its arguments were refused.
#[inline(always)]
fn done(status: u32) -> bool {
    if status == OUT_OF_MEMORY || status == TOO_LONG {
        cannot_grow(status);
    }
    status == OK
}

/// Checks a call whose arguments are valid.
#[inline(always)]
fn must(status: u32) {
    assert!(done(status), "the library refused good arguments: status {status}");
}

/// Returns the value that a call writes, or `None` if the call fails.
#[inline(always)]
fn written<T>(call: impl FnOnce(*mut T) -> u32) -> Option<T> {
    let mut value = MaybeUninit::uninit();
    // Safety: a successful call has written the value.
    done(call(value.as_mut_ptr())).then(|| unsafe { value.assume_init() })
}

#[cold]
#[inline(never)]
fn cannot_grow(status: u32) -> ! {
    if status == TOO_LONG {
        panic!("the text would be longer than isize::MAX bytes");
    }
    handle_alloc_error(Layout::new::<Handle>())
}

/// Returns the text of a piece.
///
/// Safety: the piece points to UTF-8 that nothing writes for `'a`.
#[inline(always)]
unsafe fn text_at<'a>(piece: Piece) -> &'a str {
    std::str::from_utf8_unchecked(std::slice::from_raw_parts(piece.text, piece.len))
}

/// A rope of the library, and its set of line breaks.
pub(crate) struct Root(Handle, LineBreaks);

impl Drop for Root {
    fn drop(&mut self) {
        let _lock = lock();
        unsafe { ropey_free(&mut self.0) }
    }
}

impl Clone for Root {
    fn clone(&self) -> Root {
        let mut copy = Root(NONE, self.1);
        let _lock = lock();
        must(unsafe { ropey_clone(&self.0, &mut copy.0) });
        copy
    }
}

/// Edits return whether the index or range was in bounds. Out of memory, they abort as `Vec` does.
impl Root {
    pub(crate) fn of_text(text: &str, breaks: LineBreaks) -> Root {
        let mut root = Root(NONE, breaks);
        // Safety: a `&str` is UTF-8.
        must(unsafe { ropey_from_text_unchecked(text.as_ptr(), text.len(), breaks as u32, &mut root.0) });
        root
    }

    /// Returns a rope of the bytes, or `None` if they are not UTF-8.
    pub(crate) fn of_bytes(bytes: &[u8], breaks: LineBreaks) -> Option<Root> {
        let mut root = Root(NONE, breaks);
        done(unsafe { ropey_from_text(bytes.as_ptr(), bytes.len(), breaks as u32, &mut root.0) }).then_some(root)
    }

    #[inline]
    pub(crate) fn breaks(&self) -> LineBreaks {
        self.1
    }

    /// Returns a rope of the characters from `start` up to `end`, which are in bounds.
    pub(crate) fn clone_chars(&self, start: usize, end: usize) -> Root {
        let mut copy = Root(NONE, self.1);
        let _lock = lock();
        must(unsafe { ropey_clone_chars(&self.0, start, end, &mut copy.0) });
        copy
    }

    pub(crate) fn shrink_to_fit(&mut self) {
        let _lock = lock();
        must(unsafe { ropey_shrink_to_fit(&mut self.0) });
    }

    pub(crate) fn insert(&mut self, char_idx: usize, text: &str) -> bool {
        let _lock = lock();
        done(unsafe { ropey_insert(&mut self.0, char_idx, text.as_ptr(), text.len()) })
    }

    pub(crate) fn insert_char(&mut self, char_idx: usize, c: char) -> bool {
        let _lock = lock();
        done(unsafe { ropey_insert_char(&mut self.0, char_idx, c.into()) })
    }

    pub(crate) fn remove(&mut self, start: usize, end: usize) -> bool {
        let _lock = lock();
        done(unsafe { ropey_remove(&mut self.0, start, end) })
    }

    pub(crate) fn split_off(&mut self, char_idx: usize) -> Option<Root> {
        let mut tail = Root(NONE, self.1);
        let is_done = {
            let _lock = lock();
            done(unsafe { ropey_split_off(&mut self.0, char_idx, &mut tail.0) })
        };
        is_done.then_some(tail)
    }

    pub(crate) fn append(&mut self, mut other: Root) {
        let _lock = lock();
        must(unsafe { ropey_append(&mut self.0, &mut other.0) });
        // The handle is empty now, and a drop would wait for the lock.
        std::mem::forget(other);
    }
}

macro_rules! lengths {
    ($($name:ident: $call:ident;)*) => {
        extern "C" {
            $(fn $call(rope: Held) -> usize;)*
        }

        impl Root {
            $(
                #[inline]
                pub(crate) fn $name(&self) -> usize {
                    unsafe { $call(&self.0) }
                }
            )*
        }
    };
}

lengths! {
    len_bytes: ropey_len_bytes;
    len_chars: ropey_len_chars;
    len_lines: ropey_len_lines;
    len_utf16: ropey_len_utf16;
}

/// Lookups whose calls write a `$raw`. They return `None` if the index is out of bounds.
macro_rules! lookups {
    ($raw:ty => $result:ty, $convert:expr; $($name:ident($($index:ident),+): $call:ident;)*) => {
        extern "C" {
            $(fn $call(rope: Held, $($index: usize,)+ result: *mut $raw) -> u32;)*
        }

        impl Root {
            $(
                #[inline]
                pub(crate) fn $name(&self, $($index: usize),+) -> Option<$result> {
                    written(|result| unsafe { $call(&self.0, $($index,)+ result) }).map($convert)
                }
            )*
        }
    };
}

lookups! {
    usize => usize, |number| number;
    byte_to_char(byte_idx): ropey_byte_to_char;
    byte_to_line(byte_idx): ropey_byte_to_line;
    char_to_byte(char_idx): ropey_char_to_byte;
    char_to_line(char_idx): ropey_char_to_line;
    char_to_utf16(char_idx): ropey_char_to_utf16;
    utf16_to_char(utf16_idx): ropey_utf16_to_char;
    line_to_byte(line_idx): ropey_line_to_byte;
    line_to_char(line_idx): ropey_line_to_char;
}

lookups! {
    u8 => u8, |byte| byte;
    byte(byte_idx): ropey_byte;
}

lookups! {
    u32 => char, |c| unsafe { char::from_u32_unchecked(c) };
    char(char_idx): ropey_char;
}

lookups! {
    RawChunk => ChunkAt<'_>,
    |chunk: RawChunk| (unsafe { text_at(chunk.text) }, chunk.bytes_before, chunk.chars_before, chunk.line_breaks_before);
    chunk_at_byte(byte_idx): ropey_chunk_at_byte;
    chunk_at_char(char_idx): ropey_chunk_at_char;
    chunk_at_line_break(line_idx): ropey_chunk_at_line_break;
}

lookups! {
    RawSlice => Lent<'_>, |slice: RawSlice| unsafe { slice.lent() };
    line_slice(line_idx): ropey_line_slice;
}

/// Lookups of a range, with the counts before it. They return `None` if the range is refused.
macro_rules! ranges {
    ($($name:ident: $call:ident -> $result:ty;)*) => {
        extern "C" {
            $(fn $call(rope: Held, start: usize, end: usize, result: *mut $result, before: *mut Counts) -> u32;)*
        }

        impl Root {
            $(
                #[inline]
                fn $name(&self, start: usize, end: usize) -> Option<($result, Counts)> {
                    let mut before = Counts::NONE;
                    written(|it| unsafe { $call(&self.0, start, end, it, &mut before) }).map(|it| (it, before))
                }
            )*
        }
    };
}

ranges! {
    chars_and_before: ropey_char_slice_with_before -> RawSlice;
    bytes_and_before: ropey_byte_slice_with_before -> RawSlice;
    counts_and_before: ropey_counts_in_chars_with_before -> Counts;
}

impl Root {
    /// Returns the characters from `start` up to `end`, which are in bounds, and the counts before.
    #[inline]
    pub(crate) fn char_slice(&self, start: usize, end: usize) -> (Lent<'_>, Counts) {
        let (slice, before) = known(self.chars_and_before(start, end));
        (unsafe { slice.lent() }, before)
    }

    /// Returns the bytes from `start` up to `end`, which are in bounds, and the counts before, or
    /// `None` if a bound is inside a character.
    #[inline]
    pub(crate) fn byte_slice(&self, start: usize, end: usize) -> Option<(Lent<'_>, Counts)> {
        let (slice, before) = self.bytes_and_before(start, end)?;
        Some((unsafe { slice.lent() }, before))
    }

    /// Returns the counts of the characters from `start` up to `end`, which are in bounds, and the
    /// counts before.
    #[inline]
    pub(crate) fn counts_in_chars(&self, start: usize, end: usize) -> (Counts, Counts) {
        known(self.counts_and_before(start, end))
    }

    /// Returns the line and column of a character, or `None` if the index is past the end.
    pub(crate) fn char_to_position(&self, char_idx: usize, encoding: Encoding) -> Option<(usize, usize)> {
        let place = written(|place| unsafe { ropey_char_to_position_in(&self.0, char_idx, encoding as u32, place) });
        place.map(|Place { line, column }| (line, column))
    }

    /// Returns the index of the character at a line and column, clamped to the text.
    pub(crate) fn clamped_position_to_char(&self, line: usize, column: usize, encoding: Encoding) -> usize {
        known(written(|i| unsafe { ropey_clamped_position_to_char(&self.0, line, column, encoding as u32, i) }))
    }

    /// Returns the counts of the whole text.
    #[inline]
    pub(crate) fn counts(&self) -> Counts {
        Counts {
            bytes: self.len_bytes(),
            chars: self.len_chars(),
            utf16: self.len_utf16(),
            line_breaks: self.len_lines() - 1,
        }
    }
}

/// Calls that write a list of items from an index on, and then values of the types `$more`.
macro_rules! lists {
    ($($call:ident: $item:ty $(, $more:ty)*;)*) => {
        extern "C" {
            $(fn $call(rope: Held, i: usize, list: *mut $item, room: usize, count: *mut usize $(, _: *mut $more)*) -> u32;)*
        }
    };
}

lists! {
    ropey_chunks_from_byte_with_before: Piece, usize, usize, usize;
    ropey_chunks_from_char_with_before: Piece, usize, usize, usize;
    ropey_chunks_from_line_break_with_before: Piece, usize, usize, usize;
    ropey_chunks_before_byte: Piece, usize;
    ropey_lines_from_char_with_before: RawSlice, Counts;
    ropey_lines_from_with_before: RawSlice, Counts;
    ropey_lines_before: RawSlice;
}

/// Replaces the list by at most `room` items that a call writes.
#[inline(always)]
fn fill<T>(list: &mut Vec<T>, room: usize, call: impl FnOnce(*mut T, usize, *mut usize) -> u32) {
    let mut count = 0;
    list.clear();
    list.reserve_exact(room);
    must(call(list.as_mut_ptr(), room, &mut count));
    // Safety: the library wrote `count` items, at most `room`.
    unsafe { list.set_len(count) };
}

/// Prefetches a byte.
#[inline(always)]
fn prefetch(byte: *const u8) {
    #[cfg(target_arch = "x86_64")]
    unsafe {
        use std::arch::x86_64::{_mm_prefetch, _MM_HINT_T0};
        _mm_prefetch::<_MM_HINT_T0>(byte.cast());
    }
    #[cfg(not(target_arch = "x86_64"))]
    let _ = byte;
}

/// The number of pieces that are stored without an allocation.
pub(crate) const FEW_PIECES: usize = 3;

/// Consecutive pieces of a rope: the first `len` of `few`, or a list of more. The next fetch writes
/// at most `room` pieces.
pub(crate) struct Pieces<'a> {
    few: [MaybeUninit<Piece>; FEW_PIECES],
    len: usize,
    list: Vec<Piece>,
    pub room: usize,
    text: PhantomData<&'a str>,
}

impl<'a> Pieces<'a> {
    #[inline]
    pub(crate) fn new() -> Pieces<'a> {
        let few = [MaybeUninit::uninit(); FEW_PIECES];
        Pieces { few, len: 0, list: Vec::new(), room: FEW_PIECES, text: PhantomData }
    }

    #[inline]
    pub(crate) fn of(text: &'a str) -> Pieces<'a> {
        let mut pieces = Pieces::new();
        pieces.few[0].write(Piece::of(text));
        pieces.len = usize::from(!text.is_empty());
        pieces
    }

    /// Returns a copy of the pieces if there are only a few, else no pieces.
    #[inline]
    pub(crate) fn few(&self) -> Pieces<'a> {
        Pieces { list: Vec::new(), room: FEW_PIECES, ..*self }
    }

    #[inline]
    pub(crate) fn len(&self) -> usize {
        self.len + self.list.len()
    }

    #[inline(always)]
    fn at(&mut self, i: usize) -> Option<&mut Piece> {
        if i < self.len {
            // Safety: the first `len` were written.
            self.few.get_mut(i).map(|piece| unsafe { piece.assume_init_mut() })
        } else {
            self.list.get_mut(i)
        }
    }

    #[inline(always)]
    pub(crate) fn get(&mut self, i: usize) -> Option<&'a str> {
        // Safety: the piece was written by `of` or `keep`, or by the library as a part of a rope
        // that is borrowed for `'a`.
        self.at(i).map(|piece| unsafe { text_at(*piece) })
    }

    /// Prefetches the text of the piece `i`, if there is one.
    #[inline(always)]
    pub(crate) fn prefetch(&mut self, i: usize) {
        let text = self.get(i).unwrap_or_default();
        for line in (0..text.len()).step_by(64) {
            // Safety: the offset is within the text.
            prefetch(unsafe { text.as_ptr().add(line) });
        }
    }

    /// Cuts `front` bytes off the front, and keeps at most `left` of the others.
    pub(crate) fn cut(&mut self, front: usize, left: usize) {
        if let Some(text) = self.get(0).filter(|_| front > 0) {
            *self.at(0).expect("there is one") = Piece::of(&text[front..]);
        }
        self.keep(left, |text, len| &text[..len]);
    }

    /// Keeps pieces of at most `left` bytes in all; `part` shortens the last one.
    fn keep(&mut self, mut left: usize, part: impl Fn(&'a str, usize) -> &'a str) {
        if self.len() <= left / MAX_BYTES {
            return;
        }
        for i in 0..self.len() {
            let text = self.get(i).unwrap_or_default();
            if left <= text.len() {
                *self.at(i).expect("there is one") = Piece::of(part(text, left));
                self.len = self.len.min(i + 1);
                self.list.truncate(i + 1);
                return;
            }
            left -= text.len();
        }
    }

    #[inline(always)]
    fn fill(&mut self, call: impl FnOnce(*mut Piece, usize, *mut usize) -> u32) {
        self.list.clear();
        self.len = 0;
        if self.room <= FEW_PIECES {
            must(call(self.few.as_mut_ptr().cast(), self.room, &mut self.len));
        } else {
            fill(&mut self.list, self.room, call);
        }
    }

    /// Fetches the chunks before the one that contains a byte, at most `left` bytes of them, and
    /// returns the end of the last one. The index is at most the length.
    pub(crate) fn fetch_before(&mut self, root: &'a Root, byte_idx: usize, left: usize) -> usize {
        let mut end = 0;
        self.fill(|list, room, count| unsafe {
            ropey_chunks_before_byte(&root.0, byte_idx, list, room, count, &mut end)
        });
        // The nearest comes first.
        self.keep(left, |text, len| &text[text.len() - len..]);
        self.few[..self.len].reverse();
        self.list.reverse();
        end
    }
}

/// The bytes, characters and line breaks before a position.
pub(crate) type Before = (usize, usize, usize);

/// Fetches of the chunks from an index on, with the counts before them. The index is in bounds.
macro_rules! chunks_at {
    ($($name:ident: $call:ident;)*) => {
        impl<'a> Pieces<'a> {
            $(
                #[inline]
                pub(crate) fn $name(&mut self, root: &'a Root, index: usize) -> Before {
                    let (mut bytes, mut chars, mut breaks) = (0, 0, 0);
                    self.fill(|list, room, count| unsafe {
                        $call(&root.0, index, list, room, count, &mut bytes, &mut chars, &mut breaks)
                    });
                    (bytes, chars, breaks)
                }
            )*
        }
    };
}

chunks_at! {
    fetch_at_byte: ropey_chunks_from_byte_with_before;
    fetch_at_char: ropey_chunks_from_char_with_before;
    fetch_at_line_break: ropey_chunks_from_line_break_with_before;
}

/// Consecutive lines of a rope, from the line `first` forward or backward.
pub(crate) struct Window<'a> {
    list: Vec<RawSlice>,
    first: usize,
    is_back: bool,
    // The number of lines that the next fetch writes at most.
    room: usize,
    // The counts before the cursor, if they are known.
    pub before: Option<Counts>,
    text: PhantomData<&'a str>,
}

thread_local! {
    // The buffer of a dropped cursor, for the next one.
    static ROOM: Cell<Vec<RawSlice>> = const { Cell::new(Vec::new()) };
}

impl Drop for Window<'_> {
    #[inline]
    fn drop(&mut self) {
        if self.list.capacity() >= LINES {
            let list = std::mem::take(&mut self.list);
            // The buffer may already be dropped if the thread ends.
            let _ = ROOM.try_with(|room| room.set(list));
        }
    }
}

impl<'a> Window<'a> {
    #[inline]
    pub(crate) fn new(before: Option<Counts>) -> Window<'a> {
        Window { list: Vec::new(), first: 0, is_back: false, room: 1, before, text: PhantomData }
    }

    /// Returns the position in the list of a line, whose index is in bounds. Fetches it if it isn't
    /// there, and with it the lines that the cursor passes next, at most `left` in all. A fetch of
    /// several lines forward also sets `before`.
    #[inline(always)]
    pub(crate) fn find(&mut self, root: &'a Root, line_idx: usize, is_back: bool, left: usize) -> usize {
        let at = self.position(line_idx);
        if at < self.list.len() {
            return at;
        }
        self.fetch(root, line_idx, is_back, left);
        0
    }

    /// Returns a line's text if it lies in one chunk.
    #[inline(always)]
    pub(crate) fn text(&self, at: usize) -> Option<&'a str> {
        let line = &self.list[at];
        // Safety: the library wrote the piece, as a part of a rope that is borrowed for `'a`.
        (line.text.len == line.counts.bytes).then(|| unsafe { text_at(line.text) })
    }

    /// Returns the counts of a line.
    #[inline(always)]
    pub(crate) fn counts(&self, at: usize) -> Counts {
        self.list[at].counts
    }

    fn position(&self, line_idx: usize) -> usize {
        let (low, high) = if self.is_back { (line_idx, self.first) } else { (self.first, line_idx) };
        high.wrapping_sub(low)
    }

    /// Returns a copy of at most two lines from one on, for a clone that may soon be dropped.
    pub(crate) fn few(&self, line_idx: usize) -> Window<'a> {
        let list = self.list.iter().skip(self.position(line_idx)).take(2).copied().collect();
        Window { list, first: line_idx, room: 1, ..*self }
    }

    #[inline(never)]
    fn fetch(&mut self, root: &'a Root, line_idx: usize, is_back: bool, left: usize) {
        // A new cursor may soon be dropped, and one that has turned may turn again.
        let room = if is_back == self.is_back { self.room } else { 1 };
        if self.list.capacity() < LINES {
            self.list = ROOM.try_with(Cell::take).unwrap_or_default();
            self.list.reserve_exact(LINES);
        }
        fill(&mut self.list, room.min(left), |lines, room, count| unsafe {
            match self.before {
                None if room > 1 && !is_back => ropey_lines_from_with_before(
                    &root.0,
                    line_idx,
                    lines,
                    room,
                    count,
                    self.before.insert(Counts::NONE),
                ),
                Some(at) if !is_back => {
                    ropey_lines_from_char_with_before(&root.0, at.chars, lines, room, count, self.before.insert(at))
                }
                _ if room > 1 => ropey_lines_before(&root.0, line_idx + 1, lines, room, count),
                _ => {
                    *count = 1;
                    ropey_line_slice(&root.0, line_idx, lines)
                }
            }
        });
        (self.first, self.is_back, self.room) = (line_idx, is_back, LINES.min(4 * room));
    }
}

/// The largest number of lines fetched at once: the lines of a screen. A cursor first fetches one
/// line, and each further fetch in the same direction has four times as many.
const LINES: usize = 50;

/// A plain text, and its set of line breaks.
#[derive(Clone, Copy)]
pub(crate) struct Plain<'a> {
    pub text: &'a str,
    pub breaks: LineBreaks,
}

impl<'a> Plain<'a> {
    /// Returns the counts of the text.
    pub(crate) fn counts(self) -> Counts {
        let (text, len) = (self.text.as_ptr(), self.text.len());
        // Safety: a `&str` is UTF-8.
        known(written(|counts| unsafe { ropey_text_counts_unchecked(text, len, self.breaks as u32, counts) }))
    }

    /// Returns another text with the same set of line breaks.
    #[inline]
    pub(crate) fn with(self, text: &'a str) -> Plain<'a> {
        Plain { text, ..self }
    }
}

/// Conversions in a text; those with `breaks` depend on its set of line breaks. An index past the
/// end counts as the end.
macro_rules! text_conversions {
    ($($name:ident: $call:ident($($breaks:ident)?);)*) => {
        extern "C" {
            $(fn $call(text: *const u8, len: usize, $($breaks: u32,)? index: usize, result: *mut usize) -> u32;)*
        }

        impl Plain<'_> {
            $(
                #[inline]
                pub(crate) fn $name(self, index: usize) -> usize {
                    let (text, len) = (self.text.as_ptr(), self.text.len());
                    known(written(|result| unsafe { $call(text, len, $(self.$breaks as u32,)? index, result) }))
                }
            )*
        }
    };
}

text_conversions! {
    byte_to_char: ropey_text_byte_to_char();
    char_to_byte: ropey_text_char_to_byte();
    char_to_utf16: ropey_text_char_to_utf16();
    utf16_to_char: ropey_text_utf16_to_char();
    byte_to_line: ropey_text_byte_to_line(breaks);
    char_to_line: ropey_text_char_to_line(breaks);
    line_to_byte: ropey_text_line_to_byte(breaks);
    line_to_char: ropey_text_line_to_char(breaks);
}

impl Counts {
    pub(crate) const NONE: Counts = Counts { bytes: 0, chars: 0, utf16: 0, line_breaks: 0 };

    #[inline(always)]
    fn with(self, other: Counts, each: impl Fn(usize, usize) -> usize) -> Counts {
        Counts {
            bytes: each(self.bytes, other.bytes),
            chars: each(self.chars, other.chars),
            utf16: each(self.utf16, other.utf16),
            line_breaks: each(self.line_breaks, other.line_breaks),
        }
    }

    /// Returns the counts of this text followed by another.
    #[inline(always)]
    pub(crate) fn plus(self, next: Counts) -> Counts {
        self.with(next, |a, b| a + b)
    }

    /// Returns the counts of this text without a part of it.
    #[inline(always)]
    pub(crate) fn minus(self, part: Counts) -> Counts {
        self.with(part, |a, b| a - b)
    }
}
