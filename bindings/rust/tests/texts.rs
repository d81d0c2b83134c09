//! Ropes and slices as texts: converted, compared, hashed, read and written.
#![allow(clippy::op_ref)]
mod common;

use std::borrow::Cow;
use std::cmp::Ordering;
use std::collections::hash_map::DefaultHasher;
use std::hash::{Hash, Hasher};
use std::io::{self, Read, Write};

use common::{char_starts, Random};
use ropey::{Rope, RopeBuilder, RopeSlice};

fn hash(value: &impl Hash) -> u64 {
    let mut hasher = DefaultHasher::new();
    value.hash(&mut hasher);
    hasher.finish()
}

/// Returns a rope of the text with other chunk boundaries than those of `from_str`.
fn fragmented(text: &str, random: &mut Random) -> Rope {
    let mut rope = Rope::from_str(text);
    for _ in 0..6 {
        let at = random.below(rope.len_chars() + 1);
        let new = random.text(300);
        let len = new.chars().count();
        rope.insert(at, &new);
        rope.remove(at..at + len);
    }
    assert_eq!(rope, text);
    rope
}

#[test]
fn equal_texts_are_equal_whatever_their_chunks() {
    let mut random = Random::new(5);
    for round in 0..40 {
        let text = random.text(round * round * 2);
        let (rope, other) = (Rope::from_str(&text), fragmented(&text, &mut random));
        let (slice, other_slice) = (rope.slice(..), other.slice(..));
        assert!(rope == other && slice == other_slice && slice == other && rope == other_slice);
        assert!(
            hash(&rope) == hash(&other) && hash(&slice) == hash(&rope) && hash(&RopeSlice::from(&*text)) == hash(&rope)
        );
        assert!(rope.cmp(&other).is_eq() && slice.cmp(&other_slice).is_eq());
        let (owned, cow) = (text.clone(), Cow::Borrowed(&*text));
        assert!(other == *text && other == &*text && other == owned && other == cow);
        assert!(*text == other && &*text == other && owned == other && cow == other);
        assert!(other_slice == *text && other_slice == &*text && other_slice == owned && other_slice == cow);
        assert!(*text == other_slice && &*text == other_slice && owned == other_slice && cow == other_slice);
        let longer = text.clone() + "x";
        assert!(other != longer && other_slice != longer && rope != Rope::from_str(&longer));
        if let Some(c) = text.chars().next() {
            let differs = longer.replacen(c, "y", 1);
            let differs = &differs[..differs.len() - 1];
            assert!(other != differs && slice != differs);
        }
    }
}

#[test]
fn order_is_that_of_the_texts() {
    let mut random = Random::new(6);
    let mut texts: Vec<String> = (0..30).map(|i| random.text(i * 60)).collect();
    let extended: Vec<String> = texts.iter().map(|text| text.clone() + &random.text(2)).collect();
    texts.extend(extended);
    for left in &texts {
        for right in &texts {
            let expected: Ordering = left.as_bytes().cmp(right.as_bytes());
            let (rope, other) = (Rope::from_str(left), Rope::from_str(right));
            assert_eq!(rope.cmp(&other), expected);
            assert_eq!(rope.partial_cmp(&other), Some(expected));
            assert_eq!(rope.slice(..).cmp(&other.slice(..)), expected);
            assert_eq!(RopeSlice::from(&**left).partial_cmp(&other.slice(..)), Some(expected));
            assert_eq!(rope == other, expected.is_eq());
        }
    }
}

#[test]
fn texts_become_ropes_and_ropes_become_texts() {
    let mut random = Random::new(7);
    for round in 0..40 {
        let text = random.text(round * round * 2);
        let rope = Rope::from(text.as_str());
        assert_eq!(rope, Rope::from(text.clone()));
        assert_eq!(rope, Rope::from(Cow::Borrowed(&*text)));
        assert_eq!(String::from(&rope), text);
        assert_eq!(String::from(rope.clone()), text);
        assert_eq!(Cow::from(&rope), text);
        assert_eq!(Cow::from(rope.clone()), text);
        assert_eq!(format!("{rope}{}", rope.slice(..)), text.clone() + &text);
        assert_eq!(format!("{rope:?}"), format!("{:?}", rope.chunks().collect::<Vec<_>>()));
        let starts = char_starts(&text);
        let (start, end) = random.range(starts.len() - 1);
        let (part, slice) = (&text[starts[start]..starts[end]], rope.slice(start..end));
        assert_eq!(String::from(slice), part);
        assert_eq!(Cow::from(slice), part);
        assert_eq!(Rope::from(slice), part);
        assert!(slice.as_str().is_none_or(|text| text == part));
        let pieces: Vec<&str> = text.split_inclusive('a').collect();
        assert_eq!(pieces.iter().copied().collect::<Rope>(), text);
        assert_eq!(pieces.iter().map(|piece| piece.to_string()).collect::<Rope>(), text);
        assert_eq!(pieces.iter().map(|piece| Cow::Borrowed(*piece)).collect::<Rope>(), text);
    }
    assert_eq!(Rope::default(), "");
}

#[test]
fn builders_join_their_texts() {
    let mut random = Random::new(8);
    let (mut builder, mut text) = (RopeBuilder::new(), String::new());
    for _ in 0..3000 {
        let len = random.below(500);
        let part = random.text(len);
        builder.append(&part);
        text.push_str(&part);
    }
    let other = builder.clone();
    builder.append("after");
    assert_eq!(other.finish(), text);
    assert_eq!(builder.finish(), text + "after");
    assert_eq!(RopeBuilder::default().finish(), "");
}

/// A reader of bytes in parts of random lengths, which fails when `fails_at` bytes are left.
struct Device<'a> {
    bytes: &'a [u8],
    random: Random,
    fails_at: Option<usize>,
}

impl Read for Device<'_> {
    fn read(&mut self, buffer: &mut [u8]) -> io::Result<usize> {
        if self.fails_at.is_some_and(|at| self.bytes.len() <= at) {
            return Err(io::ErrorKind::ConnectionReset.into());
        }
        let len = (1 + self.random.below(700)).min(buffer.len()).min(self.bytes.len());
        let (part, rest) = self.bytes.split_at(len);
        buffer[..len].copy_from_slice(part);
        self.bytes = rest;
        Ok(len)
    }
}

fn read(bytes: &[u8], fails_at: Option<usize>) -> io::Result<Rope> {
    Rope::from_reader(Device { bytes, random: Random::new(bytes.len() as u64), fails_at })
}

#[test]
fn readers_are_read_to_their_end() {
    let mut random = Random::new(9);
    for chars in [0, 1, 5, 700, 3000, 60_000, 400_000] {
        let text = random.text(chars);
        assert_eq!(read(text.as_bytes(), None).unwrap(), text);
        assert_eq!(Rope::from_reader(text.as_bytes()).unwrap(), text);
        let mut bytes = text.clone().into_bytes();
        for bad in [&b"\xff"[..], b"\xc3", b"\xe2\x82", b"\xed\xa0\x80", b"\xf0\x9f\x98"] {
            let at = char_starts(&text)[random.below(char_starts(&text).len())];
            bytes.splice(at..at, bad.iter().copied());
            assert_eq!(read(&bytes, None).unwrap_err().kind(), io::ErrorKind::InvalidData);
            bytes.drain(at..at + bad.len());
            bytes.extend(bad);
            assert_eq!(read(&bytes, None).unwrap_err().kind(), io::ErrorKind::InvalidData);
            bytes.truncate(text.len());
        }
        assert_eq!(read(text.as_bytes(), Some(text.len() / 2)).unwrap_err().kind(), io::ErrorKind::ConnectionReset);
    }
}

/// A writer that accepts a limited number of bytes.
struct Small(Vec<u8>, usize);

impl Write for Small {
    fn write(&mut self, bytes: &[u8]) -> io::Result<usize> {
        let len = bytes.len().min(self.1 - self.0.len());
        self.0.extend(&bytes[..len]);
        Ok(len)
    }

    fn flush(&mut self) -> io::Result<()> {
        Ok(())
    }
}

#[test]
fn writers_receive_the_text() {
    let text = Random::new(10).text(5000);
    let rope = Rope::from_str(&text);
    let mut written = Vec::new();
    rope.write_to(&mut written).unwrap();
    assert_eq!(written, text.as_bytes());
    let mut small = Small(Vec::new(), 2000);
    assert_eq!(rope.write_to(&mut small).unwrap_err().kind(), io::ErrorKind::WriteZero);
    assert_eq!(small.0, &text.as_bytes()[..2000]);
}

#[test]
fn plain_texts_are_converted() {
    use ropey::str_utils::*;
    let mut random = Random::new(11);
    for _ in 0..60 {
        let text = random.text(40);
        let rope = Rope::from_str(&text);
        for i in 0..=text.len() {
            assert_eq!(byte_to_char_idx(&text, i), rope.byte_to_char(i));
            assert_eq!(byte_to_line_idx(&text, i), rope.byte_to_line(i));
        }
        for i in 0..=rope.len_chars() {
            assert_eq!(char_to_byte_idx(&text, i), rope.char_to_byte(i));
            assert_eq!(char_to_line_idx(&text, i), rope.char_to_line(i));
        }
        for i in 0..=rope.len_lines() {
            assert_eq!(line_to_byte_idx(&text, i), rope.line_to_byte(i));
            assert_eq!(line_to_char_idx(&text, i), rope.line_to_char(i));
        }
        let past = (text.len() + 3, rope.len_chars() + 3, rope.len_lines() + 3);
        assert_eq!(byte_to_char_idx(&text, past.0), rope.len_chars());
        assert_eq!(char_to_byte_idx(&text, past.1), text.len());
        assert_eq!(line_to_byte_idx(&text, past.2), text.len());
    }
}
