//! Lines, fetched several at a time. A line in one chunk is a slice of that chunk, any other a
//! range of the rope.
use crate::ffi::{Counts, Plain, Root, Window};
use crate::iter::counted_cursor;
use crate::slice::{Part, RopeSlice};
use crate::str_utils::{first_line, last_line};

/// A cursor over the lines of a text, each with the line break that ends it.
///
/// A text has one line more than it has line breaks; its last line may be empty.
///
/// ```
/// use ropey::Rope;
///
/// let rope = Rope::from_str("one\r\ntwo\n");
/// let lines: Vec<String> = rope.lines().map(String::from).collect();
/// assert_eq!(lines, ["one\r\n", "two\n", ""]);
/// ```
pub struct Lines<'a> {
    slice: RopeSlice<'a>,
    is_whole: bool,
    // In a rope, some lines around the cursor.
    window: Window<'a>,
    // In a plain text, the cursor's byte index.
    idx: usize,
    passed: usize,
    total: usize,
    is_reversed: bool,
}

counted_cursor!(Lines, "lines_at(2)", RopeSlice<'a>, |lines: &Lines<'_>| lines.passed);

impl Clone for Lines<'_> {
    fn clone(&self) -> Self {
        let line_idx = self.slice.start().line_breaks + self.passed;
        Lines { window: self.window.few(line_idx), ..*self }
    }
}

impl<'a> Lines<'a> {
    pub(crate) fn of(slice: RopeSlice<'a>, line_idx: usize) -> Lines<'a> {
        let idx = match slice.part {
            Part::Text(plain) if line_idx > 0 => plain.line_to_byte(line_idx),
            _ => 0,
        };
        let (is_whole, total) = (slice.is_whole(), slice.len_lines());
        let window = Window::new((line_idx == 0).then(|| slice.start()));
        Lines { slice, is_whole, window, idx, passed: line_idx, total, is_reversed: false }
    }

    #[inline(always)]
    fn forward(&mut self) -> Option<RopeSlice<'a>> {
        if self.passed == self.total {
            return None;
        }
        let line = match self.slice.part {
            Part::Text(plain) => self.first_of(plain),
            Part::Range { .. } => self.of_range(self.passed, false),
        };
        self.passed += 1;
        Some(line)
    }

    #[inline(always)]
    fn backward(&mut self) -> Option<RopeSlice<'a>> {
        if self.passed == 0 {
            return None;
        }
        self.passed -= 1;
        Some(match self.slice.part {
            Part::Text(plain) => self.last_of(plain),
            Part::Range { .. } => self.of_range(self.passed, true),
        })
    }

    fn first_of(&mut self, plain: Plain<'a>) -> RopeSlice<'a> {
        let (line, counts) = first_line(plain.with(&plain.text[self.idx..]));
        self.idx += line.len();
        RopeSlice::of_text(plain.with(line), counts)
    }

    fn last_of(&mut self, plain: Plain<'a>) -> RopeSlice<'a> {
        let (start, is_ended) = last_line(plain.with(&plain.text[..self.idx]));
        if is_ended && self.passed + 1 == self.total {
            return RopeSlice::empty(plain.breaks);
        }
        let end = std::mem::replace(&mut self.idx, start);
        RopeSlice::counted(plain.with(&plain.text[start..end]))
    }

    /// Returns a line of a range of a rope: from the window, unless the slice may cut the line.
    #[inline(always)]
    fn of_range(&mut self, line_idx: usize, is_back: bool) -> RopeSlice<'a> {
        let Some((root, line)) = self.slice.line_of_rope(line_idx, self.is_whole) else {
            return self.cut_line(line_idx, is_back);
        };
        // The first line of a slice that isn't whole may be cut, so it isn't fetched backward.
        let left = if is_back { line_idx + usize::from(self.is_whole) } else { self.total - line_idx };
        let at = self.window.find(root, line, is_back, left);
        let Some(text) = self.window.text(at) else { return self.long_line(root, line, at, is_back) };
        self.pass(self.window.counts(at), is_back);
        // Read again: a kept copy would cause a store-forwarding stall.
        RopeSlice::of_text(Plain { text, breaks: root.breaks() }, self.window.counts(at))
    }

    #[inline(always)]
    fn pass(&mut self, line: Counts, is_back: bool) {
        if let Some(before) = self.window.before {
            self.window.before = Some(if is_back { before.minus(line) } else { before.plus(line) });
        }
    }

    /// Returns a line that spans several chunks.
    #[inline(never)]
    fn long_line(&mut self, root: &'a Root, line: usize, at: usize, is_back: bool) -> RopeSlice<'a> {
        let counts = self.window.counts(at);
        let start = match self.window.before {
            Some(before) if is_back => before.minus(counts),
            Some(before) => before,
            None => RopeSlice::before_line(root, line),
        };
        self.window.before = Some(if is_back { start } else { start.plus(counts) });
        RopeSlice::of_range(root, start, counts)
    }

    /// Returns a line at an end of a slice, which may cut it.
    #[inline(never)]
    fn cut_line(&mut self, line_idx: usize, is_back: bool) -> RopeSlice<'a> {
        let line = match self.window.before {
            Some(before) if !is_back => self.clipped(line_idx, before),
            _ => self.slice.get_line(line_idx).unwrap_or(RopeSlice::empty(self.slice.line_breaks())),
        };
        self.pass(line.counts, is_back);
        line
    }

    /// Returns the part in the slice of the line after the cursor.
    fn clipped(&mut self, line_idx: usize, before: Counts) -> RopeSlice<'a> {
        let left = self.slice.start().plus(self.slice.counts).minus(before);
        let Some((root, line)) = self.slice.line_of_rope(line_idx, true).filter(|_| left.bytes > 0) else {
            return RopeSlice::empty(self.slice.line_breaks());
        };
        let at = self.window.find(root, line, false, self.total - line_idx);
        let counts = self.window.counts(at);
        let counts = if counts.bytes > left.bytes { left } else { counts };
        RopeSlice::of_lent(root, (self.window.text(at).map(|text| &text[..counts.bytes]), counts), || before)
    }
}
