//! Ranges as arguments of calls.
use std::ops::{Bound, RangeBounds};

use crate::{Error, Result};

/// The bounds of a half-open range, `None` for an open bound. A bound past `usize::MAX` saturates,
/// which is still past every text.
#[derive(Clone, Copy)]
pub(crate) struct Bounds {
    start: Option<usize>,
    end: Option<usize>,
}

impl Bounds {
    pub(crate) fn of(range: &impl RangeBounds<usize>) -> Bounds {
        Bounds {
            start: match range.start_bound() {
                Bound::Included(&start) => Some(start),
                Bound::Excluded(&before) => Some(before.saturating_add(1)),
                Bound::Unbounded => None,
            },
            end: match range.end_bound() {
                Bound::Included(&last) => Some(last.saturating_add(1)),
                Bound::Excluded(&end) => Some(end),
                Bound::Unbounded => None,
            },
        }
    }

    /// Returns start and end in a text of `len` units, unchecked.
    pub(crate) fn within(self, len: usize) -> (usize, usize) {
        (self.start.unwrap_or(0), self.end.unwrap_or(len))
    }

    /// Returns start and end of a range of bytes.
    pub(crate) fn of_bytes(self, len: usize) -> Result<(usize, usize)> {
        match (self.start, self.end) {
            (Some(start), Some(end)) if start > end => Err(Error::ByteRangeInvalid(start, end)),
            _ if self.is_past(len) => Err(Error::ByteRangeOutOfBounds(self.start, self.end, len)),
            _ => Ok(self.within(len)),
        }
    }

    /// Returns start and end of a range of characters.
    pub(crate) fn of_chars(self, len: usize) -> Result<(usize, usize)> {
        match self.within(len) {
            _ if self.is_past(len) => Err(Error::CharRangeOutOfBounds(self.start, self.end, len)),
            (start, end) if start > end => Err(Error::CharRangeInvalid(start, end)),
            bounds => Ok(bounds),
        }
    }

    pub(crate) fn inside_character(self) -> Error {
        Error::ByteRangeNotCharBoundary(self.start, self.end)
    }

    fn is_past(self, len: usize) -> bool {
        self.start.is_some_and(|start| start > len) || self.end.is_some_and(|end| end > len)
    }
}
