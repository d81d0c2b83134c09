//! Every lookup of ropes and slices, at every index of short texts and at random indices of long
//! ones, compared with plain texts.
mod common;

use std::panic::{catch_unwind, AssertUnwindSafe};

use common::{break_ends, char_of_byte, char_starts, counts, line_of_byte, line_starts, lines, utf16_len, Random};
use ropey::{Error, Rope, RopeSlice};

fn panics<T>(call: impl FnOnce() -> T) -> bool {
    catch_unwind(AssertUnwindSafe(call)).is_err()
}

/// Compares a rope or a slice with its text at the indices that `$indices` chooses, and past its
/// end.
macro_rules! compare {
    ($text:expr, $with:expr, $indices:expr) => {{
        let (subject, text, indices): (_, &str, &mut dyn FnMut(usize) -> Vec<usize>) = ($with, $text, $indices);
        let (bytes, chars, line_count, units) = counts(text);
        let lens = (subject.len_bytes(), subject.len_chars(), subject.len_lines(), subject.len_utf16_cu());
        assert_eq!(lens, (bytes, chars, line_count, units), "{text:?}");
        let (char_starts, line_starts, lines) = (char_starts(text), line_starts(text), lines(text));
        for i in indices(bytes) {
            assert_eq!(subject.byte_to_char(i), char_of_byte(text, i));
            assert_eq!(subject.byte_to_line(i), line_of_byte(text, char_starts[char_of_byte(text, i)]), "{text:?} {i}");
            assert_eq!(subject.get_byte(i), text.as_bytes().get(i).copied());
            let (chunk, byte, char, line) = subject.chunk_at_byte(i);
            assert_eq!(&text[byte..byte + chunk.len()], chunk);
            assert_eq!((char, line), (char_of_byte(text, byte), line_of_byte(text, byte)));
            assert!(i >= byte && (i < byte + chunk.len() || i == bytes));
            let (chunks, byte, char, line) = subject.chunks_at_byte(i);
            assert!(chunks.collect::<String>() == text[byte..] && (byte <= i || i == bytes));
            assert_eq!((char, line), (char_of_byte(text, byte), line_of_byte(text, byte)));
            assert!(subject.bytes_at(i).eq(text.bytes().skip(i)));
        }
        for i in indices(chars) {
            assert_eq!(subject.char_to_byte(i), char_starts[i]);
            assert_eq!(subject.char_to_line(i), line_of_byte(text, char_starts[i]));
            assert_eq!(subject.char_to_utf16_cu(i), utf16_len(&text[..char_starts[i]]));
            assert_eq!(subject.get_char(i), text[char_starts[i]..].chars().next());
            let (chunk, byte, char, line) = subject.chunk_at_char(i);
            assert_eq!(&text[byte..byte + chunk.len()], chunk);
            assert_eq!((char, line), (char_of_byte(text, byte), line_of_byte(text, byte)));
            let (chunks, byte, ..) = subject.chunks_at_char(i);
            assert!(chunks.collect::<String>() == text[byte..]);
            assert!(subject.chars_at(i).eq(text.chars().skip(i)));
        }
        for i in indices(units) {
            let before = char_starts.iter().rposition(|&start| utf16_len(&text[..start]) <= i);
            assert_eq!(Some(subject.utf16_cu_to_char(i)), before);
        }
        for i in indices(line_count) {
            assert_eq!(subject.line_to_byte(i), line_starts[i], "{text:?} {i}");
            assert_eq!(subject.line_to_char(i), char_of_byte(text, line_starts[i]));
            let line = subject.get_line(i);
            assert_eq!(line.map(String::from), lines.get(i).map(|line| line.to_string()), "{text:?} {i}");
            if let Some(line) = line {
                let lens = (line.len_bytes(), line.len_chars(), line.len_lines(), line.len_utf16_cu());
                assert_eq!(lens, counts(lines[i]), "{:?}", lines[i]);
            }
            let (chunk, byte, char, number) = subject.chunk_at_line_break(i);
            assert_eq!(&text[byte..byte + chunk.len()], chunk);
            assert_eq!((char, number), (char_of_byte(text, byte), line_of_byte(text, byte)));
            let found = if i == line_count { bytes } else { line_starts[i].saturating_sub(1) };
            assert!(byte <= found && found <= byte + chunk.len());
            let (chunks, byte, ..) = subject.chunks_at_line_break(i);
            assert!(chunks.collect::<String>() == text[byte..]);
            assert!(subject.lines_at(i).map(String::from).eq(lines[i.min(lines.len())..].iter().copied()));
            assert!(subject.lines_at(i).reversed().map(String::from).eq(lines[..i].iter().rev().copied()));
        }
        assert!(subject.chunks().collect::<String>() == text && subject.chunks().all(|chunk| !chunk.is_empty()));
        refusals!(subject, bytes, chars, line_count, units);
    }};
}

/// Checks that indices past the end are refused.
macro_rules! refusals {
    ($subject:ident, $bytes:ident, $chars:ident, $lines:ident, $units:ident) => {
        for past in [1, 2, usize::MAX / 2] {
            let (byte, char, line, unit) = ($bytes + past, $chars + past, $lines + past, $units + past);
            assert!(matches!($subject.try_byte_to_char(byte), Err(Error::ByteIndexOutOfBounds(i, n)) if (i, n) == (byte, $bytes)));
            assert!(matches!($subject.try_byte_to_line(byte), Err(Error::ByteIndexOutOfBounds(i, n)) if (i, n) == (byte, $bytes)));
            assert!(matches!($subject.try_char_to_byte(char), Err(Error::CharIndexOutOfBounds(i, n)) if (i, n) == (char, $chars)));
            assert!(matches!($subject.try_char_to_line(char), Err(Error::CharIndexOutOfBounds(i, n)) if (i, n) == (char, $chars)));
            assert!(matches!($subject.try_char_to_utf16_cu(char), Err(Error::CharIndexOutOfBounds(..))));
            assert!(matches!($subject.try_utf16_cu_to_char(unit), Err(Error::Utf16IndexOutOfBounds(i, n)) if (i, n) == (unit, $units)));
            assert!(matches!($subject.try_line_to_byte(line), Err(Error::LineIndexOutOfBounds(i, n)) if (i, n) == (line, $lines)));
            assert!(matches!($subject.try_line_to_char(line), Err(Error::LineIndexOutOfBounds(i, n)) if (i, n) == (line, $lines)));
            assert!($subject.get_chunks_at_byte(byte).is_none());
            assert!($subject.get_chunk_at_char(char).is_none() && $subject.get_chunks_at_char(char).is_none());
            assert!($subject.get_chunk_at_line_break(line).is_none() && $subject.get_chunks_at_line_break(line).is_none());
            assert!($subject.get_bytes_at(byte).is_none() && $subject.get_chars_at(char).is_none());
            assert!($subject.get_lines_at(line).is_none());
            assert!($subject.get_slice(..char).is_none() && $subject.get_slice(char..).is_none());
            assert!($subject.get_byte_slice(..byte).is_none() && $subject.get_byte_slice(byte..).is_none());
        }
        assert!($subject.get_byte($bytes).is_none() && $subject.get_char($chars).is_none());
        assert!($subject.get_line($lines).is_none());
    };
}

fn all(len: usize) -> Vec<usize> {
    (0..=len).collect()
}

#[test]
fn short_texts_at_every_index() {
    let mut random = Random::new(1);
    for round in 0..90 {
        let chars = random.below(if round < 40 { 6 } else { 40 });
        let text = random.text(chars);
        let rope = Rope::from_str(&text);
        compare!(&text, &rope, &mut all);
        compare!(&text, rope.slice(..), &mut all);
        compare!(&text, RopeSlice::from(text.as_str()), &mut all);
    }
}

#[test]
fn slices_of_short_texts() {
    let mut random = Random::new(2);
    for _ in 0..40 {
        let text = random.text(60);
        let rope = Rope::from_str(&text);
        let starts = char_starts(&text);
        let (start, end) = random.range(starts.len() - 1);
        let part = &text[starts[start]..starts[end]];
        let slice = rope.slice(start..end);
        compare!(part, slice, &mut all);
        compare!(part, rope.byte_slice(starts[start]..starts[end]), &mut all);
        let inner_starts = char_starts(part);
        let (start, end) = random.range(inner_starts.len() - 1);
        compare!(&part[inner_starts[start]..inner_starts[end]], slice.slice(start..end), &mut all);
    }
}

#[test]
fn long_texts_at_some_indices() {
    for seed in 0..8 {
        let mut random = Random::new(seed);
        let text = if seed % 2 == 0 { random.text(4000) } else { random.lines(60) };
        let rope = Rope::from_str(&text);
        let starts = char_starts(&text);
        let (start, end) = random.range(starts.len() - 1);
        let mut draw = |len: usize| (0..4).map(|_| random.below(len + 1)).chain([0, len]).collect::<Vec<_>>();
        compare!(&text, &rope, &mut draw);
        compare!(&text[starts[start]..starts[end]], rope.slice(start..end), &mut draw);
        compare!(&text[starts[start]..], rope.slice(start..), &mut draw);
        compare!(&text[..starts[end]], rope.byte_slice(..starts[end]), &mut draw);
    }
}

/// Moves a cursor back and forth at random, and compares its items with a list.
macro_rules! walk {
    ($cursor:expr, $at:expr, $items:expr, $random:expr) => {{
        let (mut cursor, mut at, items, random) = ($cursor, $at, &$items, $random);
        let mut is_reversed = false;
        for _ in 0..3 * items.len() + 10 {
            let choice = random.below(7);
            if choice == 0 {
                cursor.reverse();
                is_reversed = !is_reversed;
            }
            let is_forward = (choice < 4) != is_reversed;
            let item = if choice < 4 { cursor.next() } else { cursor.prev() };
            if is_forward {
                assert_eq!(item.map(|item| item.into()), items.get(at).cloned());
                at += usize::from(at < items.len());
            } else {
                assert_eq!(item.map(|item| item.into()), at.checked_sub(1).map(|at| items[at].clone()));
                at = at.saturating_sub(1);
            }
        }
        at
    }};
}

#[test]
fn cursors_move_back_and_forth() {
    let mut random = Random::new(3);
    for round in 0..30 {
        let chars = [0, 1, 30, 200, 3000][round % 5];
        let text = if round % 2 == 0 { random.text(chars) } else { random.lines(chars / 40) };
        let rope = Rope::from_str(&text);
        let starts = char_starts(&text);
        let (start, end) = if round % 3 == 0 { (0, starts.len() - 1) } else { random.range(starts.len() - 1) };
        let (part, slice) = (&text[starts[start]..starts[end]], rope.slice(start..end));
        let chars: Vec<char> = part.chars().collect();
        let lines: Vec<String> = lines(part).into_iter().map(String::from).collect();
        let chunks: Vec<String> = slice.chunks().map(String::from).collect();
        let at = random.below(part.len() + 1);
        walk!(slice.bytes_at(at), at, part.as_bytes(), &mut random);
        let at = random.below(chars.len() + 1);
        walk!(slice.chars_at(at), at, chars, &mut random);
        let at = random.below(lines.len() + 1);
        walk!(slice.lines_at(at), at, lines, &mut random);
        walk!(RopeSlice::from(part).lines_at(at), at, lines, &mut random);
        walk!(slice.chunks(), 0, chunks, &mut random);
        walk!(slice.chunks_at_byte(part.len()).0, chunks.len(), chunks, &mut random);
    }
}

/// The first line of a slice stays cut to the slice when a cursor returns to it.
#[test]
fn a_first_line_stays_cut() {
    let rope = Rope::from_str(&"one line\n".repeat(300));
    let slice = rope.slice(4..);
    let mut lines = slice.lines();
    for count in 1..60 {
        for line in 0..count {
            assert_eq!(lines.next().unwrap(), if line == 0 { "line\n" } else { "one line\n" });
        }
        for line in (0..count).rev() {
            assert_eq!(lines.prev().unwrap(), if line == 0 { "line\n" } else { "one line\n" });
        }
    }
}

/// Lookups in a line that a cursor returns are those of the line's text, whatever the cursor's
/// steps.
#[test]
fn lines_of_cursors_are_texts_of_their_own() {
    for seed in 0..12 {
        let mut random = Random::new(seed);
        let text = random.lines(80);
        let rope = Rope::from_str(&text);
        let starts = char_starts(&text);
        let (start, end) = if seed % 3 == 0 { (0, starts.len() - 1) } else { random.range(starts.len() - 1) };
        let (part, slice) = (&text[starts[start]..starts[end]], rope.slice(start..end));
        let lines = lines(part);
        let mut at = random.below(lines.len() + 1);
        let mut cursor = slice.lines_at(at);
        for _ in 0..200 {
            let is_forward = at == 0 || (at < lines.len() && random.below(5) < 3);
            at -= usize::from(!is_forward);
            let line = if is_forward { cursor.next() } else { cursor.prev() };
            let mut draw = |len: usize| vec![random.below(len + 1), len];
            compare!(lines[at], line.unwrap(), &mut draw);
            at += usize::from(is_forward);
        }
    }
}

#[test]
fn cursors_know_what_is_left() {
    let rope = Rope::from_str("one\ntwo é\n");
    let mut lines = rope.lines_at(1);
    assert_eq!((lines.len(), rope.bytes_at(3).len(), rope.chars_at(9).len()), (2, 8, 1));
    lines.reverse();
    assert_eq!(lines.len(), 1);
    assert_eq!(lines.next().unwrap(), "one\n");
    assert_eq!((lines.len(), lines.reversed().len()), (0, 3));
}

#[test]
fn lookups_panic_only_past_the_end() {
    let text = "ab\ncé";
    let rope = Rope::from_str(text);
    let slice = rope.slice(..);
    macro_rules! panics_past {
        ($($call:ident: $most:expr;)*) => {
            $(
                for subject in [slice, RopeSlice::from(text)] {
                    assert!(!panics(|| subject.$call($most)) && panics(|| subject.$call($most + 1)), stringify!($call));
                }
                assert!(!panics(|| rope.$call($most)) && panics(|| rope.$call($most + 1)), stringify!($call));
            )*
        };
    }
    panics_past! {
        byte_to_char: 6; byte_to_line: 6; char_to_byte: 5; char_to_line: 5; char_to_utf16_cu: 5; utf16_cu_to_char: 5;
        line_to_byte: 2; line_to_char: 2; byte: 5; char: 4; line: 1; chunk_at_byte: 6; chunk_at_char: 5;
        chunk_at_line_break: 2; bytes_at: 6; chars_at: 5; lines_at: 2; chunks_at_byte: 6; chunks_at_char: 5;
        chunks_at_line_break: 2;
    }
    #[allow(clippy::reversed_empty_ranges)]
    for (range, is_bad) in [(0..5, false), (5..5, false), (0..6, true), (3..2, true), (6..6, true)] {
        assert_eq!(panics(|| rope.slice(range.clone())), is_bad);
        assert_eq!(panics(|| slice.slice(range.clone())), is_bad);
    }
    #[allow(clippy::reversed_empty_ranges)]
    for (range, is_bad) in [(0..6, false), (4..6, false), (0..5, true), (5..6, true), (0..7, true), (3..2, true)] {
        assert_eq!(panics(|| rope.byte_slice(range.clone())), is_bad);
        assert_eq!(panics(|| slice.byte_slice(range.clone())), is_bad);
    }
    assert!(panics(|| rope.slice(..=usize::MAX)) && panics(|| rope.slice(..=5)) && !panics(|| rope.slice(..=4)));
}

#[test]
fn a_cut_cr_lf_is_a_break_on_either_side() {
    let text = "a\r\n".repeat(1000);
    let rope = Rope::from_str(&text);
    for at in [2, 1001 * 3 / 3 * 2, 2999] {
        let at = at / 3 * 3 + 2;
        let (front, tail) = (rope.slice(..at), rope.slice(at..));
        let lines_of = |text: &str| break_ends(text).len() + 1;
        assert_eq!(front.len_lines(), lines_of(&text[..at]));
        assert_eq!(tail.len_lines(), lines_of(&text[at..]));
        assert_eq!(rope.byte_slice(..at).len_lines(), lines_of(&text[..at]));
        assert!(front.lines().map(String::from).eq(lines(&text[..at])));
        assert!(tail.lines().map(String::from).eq(lines(&text[at..])));
    }
}
