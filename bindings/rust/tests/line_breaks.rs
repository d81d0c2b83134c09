//! Ropes with a set of line breaks, positions, and lines without their break, against a plain text.
use ropey::positions::{Encoding, Position};
use ropey::{LineBreaks, Rope, RopeBuilder, RopeSlice};

mod common;

use common::Random;

const SETS: [LineBreaks; 3] = [LineBreaks::Lf, LineBreaks::CrLf, LineBreaks::Unicode];

/// Returns the lines of a text, each with its line break.
fn lines(text: &str, breaks: LineBreaks) -> Vec<&str> {
    let mut lines = Vec::new();
    let mut start = 0;
    for (i, c) in text.char_indices() {
        let end = i + c.len_utf8();
        let is_break = match c {
            '\n' => true,
            '\r' => breaks != LineBreaks::Lf && !text[end..].starts_with('\n'),
            '\u{b}' | '\u{c}' | '\u{85}' | '\u{2028}' | '\u{2029}' => breaks == LineBreaks::Unicode,
            _ => false,
        };
        if is_break {
            lines.push(&text[start..end]);
            start = end;
        }
    }
    lines.push(&text[start..]);
    lines
}

/// Returns a line without its line break.
fn bare(line: &str, breaks: LineBreaks) -> &str {
    let without = match breaks {
        LineBreaks::Lf => line.strip_suffix('\n'),
        LineBreaks::CrLf => line.strip_suffix("\r\n").or(line.strip_suffix(['\n', '\r'])),
        LineBreaks::Unicode => line
            .strip_suffix("\r\n")
            .or(line.strip_suffix(['\n', '\r', '\u{b}', '\u{c}', '\u{85}', '\u{2028}', '\u{2029}'])),
    };
    without.unwrap_or(line)
}

/// Compares all calls that count lines with the plain text.
fn check(slice: RopeSlice<'_>, text: &str, breaks: LineBreaks, random: &mut Random) {
    let expected = lines(text, breaks);
    assert_eq!((slice.line_breaks(), slice.len_lines()), (breaks, expected.len()));
    assert!(slice.lines().eq(expected.iter().copied()));
    assert!(slice.lines_at(expected.len()).reversed().eq(expected.iter().rev().copied()));
    for _ in 0..4 {
        let line_idx = random.below(expected.len());
        let line = slice.line(line_idx);
        assert_eq!(line, expected[line_idx]);
        assert_eq!(line.line_breaks(), breaks);
        assert_eq!(line.without_break(), bare(expected[line_idx], breaks));
        assert_eq!(line.line_break(), expected[line_idx][line.without_break().len_bytes()..]);
        let start: usize = expected[..line_idx].iter().map(|line| line.chars().count()).sum();
        assert_eq!((slice.line_to_char(line_idx), slice.char_to_line(start)), (start, line_idx));
    }
}

#[test]
fn each_rope_has_a_set_of_its_own() {
    let mut random = Random::new(7);
    for turn in 0..60 {
        let text = random.text([3, 40, 3000][turn % 3]);
        for breaks in SETS {
            let mut builder = RopeBuilder::new_with(breaks);
            builder.append(&text);
            let read = Rope::from_reader_with(text.as_bytes(), breaks).unwrap();
            let mut rope = Rope::new_with(breaks);
            rope.append(builder.finish());
            assert_eq!(rope, read);
            check(rope.slice(..), &text, breaks, &mut random);
            check(RopeSlice::from_str_with(&text, breaks), &text, breaks, &mut random);
            let (from, to) = random.range(rope.len_chars());
            let part: String = text.chars().skip(from).take(to - from).collect();
            check(rope.slice(from..to), &part, breaks, &mut random);
            let copy = Rope::from(rope.slice(from..to));
            check(copy.slice(..), &part, breaks, &mut random);
            let tail = rope.clone().split_off(to);
            assert_eq!((tail.line_breaks(), rope.clone().line_breaks()), (breaks, breaks));
        }
    }
}

#[test]
#[should_panic(expected = "different sets of line breaks")]
fn ropes_with_different_sets_are_not_joined() {
    Rope::new_with(LineBreaks::Lf).append(Rope::from_str_with("a", LineBreaks::CrLf));
}

#[test]
fn the_features_choose_the_default() {
    let expected = match (cfg!(feature = "cr_lines"), cfg!(feature = "unicode_lines")) {
        (false, false) => LineBreaks::Lf,
        (true, false) => LineBreaks::CrLf,
        (_, true) => LineBreaks::Unicode,
    };
    assert_eq!((LineBreaks::default(), Rope::new().line_breaks()), (expected, expected));
    assert_eq!(RopeSlice::from("").line_breaks(), expected);
}

fn width(text: &str, encoding: Encoding) -> usize {
    match encoding {
        Encoding::Utf8 => text.len(),
        Encoding::Utf16 => text.encode_utf16().count(),
        Encoding::Utf32 => text.chars().count(),
    }
}

#[test]
fn positions_are_those_of_the_text() {
    let mut random = Random::new(11);
    for turn in 0..60 {
        let text = random.text([3, 40, 2000][turn % 3]);
        for (breaks, encoding) in SETS.into_iter().zip([Encoding::Utf8, Encoding::Utf16, Encoding::Utf32]) {
            let rope = Rope::from_str_with(&text, breaks);
            let expected = lines(&text, breaks);
            let line = random.below(expected.len());
            let column = random.below(expected[line].chars().count() + 1);
            let before: usize = expected[..line].iter().map(|line| line.chars().count()).sum();
            let front: String = expected[line].chars().take(column).collect();
            let is_end = front == expected[line] && line + 1 < expected.len();
            let position = Position { line, column: width(&front, encoding) };
            if !is_end {
                assert_eq!(rope.char_to_position_in(before + column, encoding), position);
            }
            let most = bare(expected[line], breaks).chars().count();
            assert_eq!(rope.clamped_position_to_char(position, encoding), before + column.min(most));
            let past = Position { line: expected.len(), column: 0 };
            assert_eq!(rope.clamped_position_to_char(past, encoding), rope.len_chars());
            assert!(rope.try_char_to_position_in(rope.len_chars() + 1, encoding).is_err());
        }
    }
}
