//! Random numbers, random texts, and the expected results of lookups, computed from a plain text.
#![allow(dead_code)]

/// A generator of random numbers (xorshift).
pub struct Random(u64);

impl Random {
    pub fn new(seed: u64) -> Random {
        Random(seed.wrapping_mul(0x9E37_79B9_7F4A_7C15) | 1)
    }

    pub fn below(&mut self, bound: usize) -> usize {
        self.0 ^= self.0 << 13;
        self.0 ^= self.0 >> 7;
        self.0 ^= self.0 << 17;
        (self.0 % bound as u64) as usize
    }

    /// Returns two numbers up to `most`, the smaller first.
    pub fn range(&mut self, most: usize) -> (usize, usize) {
        let (a, b) = (self.below(most + 1), self.below(most + 1));
        (a.min(b), a.max(b))
    }

    /// Returns a text of characters of all widths, with many line breaks of every kind.
    pub fn text(&mut self, chars: usize) -> String {
        const KINDS: [&str; 16] = [
            "a", "b", " ", "é", "ß", "语", "あ", "😀", "\n", "\r", "\r\n", "\u{b}", "\u{c}", "\u{85}", "\u{2028}",
            "\u{2029}",
        ];
        (0..chars).map(|_| KINDS[self.below(KINDS.len())]).collect()
    }

    /// Returns a text of lines of various lengths.
    pub fn lines(&mut self, lines: usize) -> String {
        const ENDS: [&str; 4] = ["\n", "\r\n", "\n", "\u{2028}"];
        let mut text = String::new();
        for _ in 0..lines {
            let len = [0, 5, 40, 80, 300, 2500][self.below(6)];
            let filler = ["x", "word ", "née ", "語"][self.below(4)];
            while text.len() % 10_000 < len {
                text.push_str(filler);
                if self.below(len + 1) < filler.len() {
                    break;
                }
            }
            text.push_str(ENDS[self.below(ENDS.len())]);
        }
        text
    }
}

/// Returns the byte index at which each line break ends.
pub fn break_ends(text: &str) -> Vec<usize> {
    let mut ends = Vec::new();
    for (i, c) in text.char_indices() {
        let end = i + c.len_utf8();
        let is_break = match c {
            '\n' => true,
            '\r' => cfg!(feature = "cr_lines") && !text[end..].starts_with('\n'),
            '\u{b}' | '\u{c}' | '\u{85}' | '\u{2028}' | '\u{2029}' => cfg!(feature = "unicode_lines"),
            _ => false,
        };
        if is_break {
            ends.push(end);
        }
    }
    ends
}

/// Returns the byte index at which each line starts, and the length.
pub fn line_starts(text: &str) -> Vec<usize> {
    let mut starts = vec![0];
    starts.extend(break_ends(text));
    starts.push(text.len());
    starts
}

pub fn lines(text: &str) -> Vec<&str> {
    line_starts(text).windows(2).map(|ends| &text[ends[0]..ends[1]]).collect()
}

/// Returns the byte index at which each character starts, and the length.
pub fn char_starts(text: &str) -> Vec<usize> {
    text.char_indices().map(|(i, _)| i).chain([text.len()]).collect()
}

pub fn utf16_len(text: &str) -> usize {
    text.encode_utf16().count()
}

/// Returns the index of the character that contains a byte.
pub fn char_of_byte(text: &str, byte_idx: usize) -> usize {
    let starts = char_starts(text);
    starts.iter().rposition(|&start| start <= byte_idx).unwrap()
}

/// Returns the index of the line that contains a byte: the number of breaks that end at or before
/// it.
pub fn line_of_byte(text: &str, byte_idx: usize) -> usize {
    break_ends(text).iter().filter(|&&end| end <= byte_idx).count()
}

/// Returns the bytes, characters, lines and UTF-16 code units of a text.
pub fn counts(text: &str) -> (usize, usize, usize, usize) {
    (text.len(), text.chars().count(), break_ends(text).len() + 1, utf16_len(text))
}
