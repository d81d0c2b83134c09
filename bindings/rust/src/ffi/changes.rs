//! Changes of the library for C. They share no memory with ropes or with other changes.
use super::{cannot_grow, fill, lock, text_at, Handle, Held, Piece, Root, NONE, OK, OUT_OF_MEMORY};
use crate::changes::EditRange;

/// The status of a range that starts past its end.
pub(crate) const RANGE_INVALID: u32 = 10;
/// The status of a range that ends past the text.
pub(crate) const RANGE_OUT_OF_BOUNDS: u32 = 11;
/// The status of a range that starts before the end of the last replacement.
pub(crate) const OUT_OF_ORDER: u32 = 21;
/// The status of a text whose length isn't the one that the changes are for.
pub(crate) const LENGTHS_DIFFER: u32 = 22;

/// `ropey_replacement`.
#[repr(C)]
#[derive(Clone, Copy)]
struct RawReplacement {
    start: usize,
    end: usize,
    new_start: usize,
    new_end: usize,
    text: Piece,
}

extern "C" {
    fn ropey_changes_new(len: usize, changes: *mut Handle) -> u32;
    fn ropey_changes_replace(changes: *mut Handle, start: usize, end: usize, text: *const u8, len: usize) -> u32;
    fn ropey_changes_free(changes: *mut Handle);
    fn ropey_changes_len_before(changes: Held) -> usize;
    fn ropey_changes_len_after(changes: Held) -> usize;
    fn ropey_changes_apply(changes: Held, rope: *mut Handle) -> u32;
    fn ropey_changes_invert(changes: Held, before: Held, inverse: *mut Handle) -> u32;
    fn ropey_changes_compose(changes: Held, later: Held, both: *mut Handle) -> u32;
    fn ropey_changes_rebase(changes: Held, over: Held, side: u32, rebased: *mut Handle) -> u32;
    fn ropey_changes_map(changes: Held, char_idx: usize, side: u32, moved: *mut usize) -> u32;
    fn ropey_changes_map_sorted(changes: Held, char_indices: *mut usize, count: usize, side: u32) -> u32;
    fn ropey_changes_edits(changes: Held, edits: *mut RawReplacement, room: usize, count: *mut usize) -> u32;
}

/// Returns the status of a call that failed. Out of memory, it aborts as `Vec` does.
fn checked(status: u32) -> Result<(), u32> {
    match status {
        OK => Ok(()),
        OUT_OF_MEMORY => cannot_grow(status),
        _ => Err(status),
    }
}

/// Changes of the library.
pub(crate) struct Changes(Handle);

// Safety: only the handle points to the memory of changes, and calls by `&` only read it.
unsafe impl Send for Changes {}
unsafe impl Sync for Changes {}

impl Drop for Changes {
    fn drop(&mut self) {
        unsafe { ropey_changes_free(&mut self.0) }
    }
}

/// Calls that fail return the status.
impl Changes {
    fn made(call: impl FnOnce(*mut Handle) -> u32) -> Result<Changes, u32> {
        let mut made = Changes(NONE);
        checked(call(&mut made.0))?;
        Ok(made)
    }

    pub(crate) fn new(len: usize) -> Result<Changes, u32> {
        Changes::made(|made| unsafe { ropey_changes_new(len, made) })
    }

    pub(crate) fn replace(&mut self, start: usize, end: usize, text: &str) -> Result<(), u32> {
        checked(unsafe { ropey_changes_replace(&mut self.0, start, end, text.as_ptr(), text.len()) })
    }

    pub(crate) fn len_before(&self) -> usize {
        unsafe { ropey_changes_len_before(&self.0) }
    }

    pub(crate) fn len_after(&self) -> usize {
        unsafe { ropey_changes_len_after(&self.0) }
    }

    pub(crate) fn apply(&self, root: &mut Root) -> Result<(), u32> {
        let _lock = lock();
        checked(unsafe { ropey_changes_apply(&self.0, &mut root.0) })
    }

    pub(crate) fn invert(&self, before: &Root) -> Result<Changes, u32> {
        Changes::made(|made| unsafe { ropey_changes_invert(&self.0, &before.0, made) })
    }

    pub(crate) fn compose(&self, later: &Changes) -> Result<Changes, u32> {
        Changes::made(|made| unsafe { ropey_changes_compose(&self.0, &later.0, made) })
    }

    pub(crate) fn rebase(&self, over: &Changes, side: u32) -> Result<Changes, u32> {
        Changes::made(|made| unsafe { ropey_changes_rebase(&self.0, &over.0, side, made) })
    }

    pub(crate) fn map(&self, char_idx: usize, side: u32) -> Result<usize, u32> {
        let mut moved = 0;
        checked(unsafe { ropey_changes_map(&self.0, char_idx, side, &mut moved) })?;
        Ok(moved)
    }

    pub(crate) fn map_sorted(&self, char_indices: &mut [usize], side: u32) -> Result<(), u32> {
        checked(unsafe { ropey_changes_map_sorted(&self.0, char_indices.as_mut_ptr(), char_indices.len(), side) })
    }

    pub(crate) fn count(&self) -> usize {
        let mut count = 0;
        let status = unsafe { ropey_changes_edits(&self.0, [].as_mut_ptr(), 0, &mut count) };
        debug_assert_eq!(status, OK);
        count
    }

    pub(crate) fn edits(&self) -> Vec<EditRange<'_>> {
        let mut list: Vec<RawReplacement> = Vec::new();
        fill(&mut list, self.count(), |list, room, count| unsafe { ropey_changes_edits(&self.0, list, room, count) });
        let shown = |raw: &RawReplacement| EditRange {
            start: raw.start,
            end: raw.end,
            new_start: raw.new_start,
            new_end: raw.new_end,
            // Safety: the text is UTF-8, and stays in place until the changes are edited or freed.
            text: unsafe { text_at(raw.text) },
        };
        list.iter().map(shown).collect()
    }
}
