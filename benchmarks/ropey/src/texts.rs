//! The texts of the workloads: the same in every run and in `crates/rope_bench`.

use crate::numbers::Numbers;

/// The length of lines of prose and of mixed text.
const COLUMNS: usize = 40;

/// The characters after words of source code.
const MARKS: [char; 8] = [' ', ' ', ' ', '.', ',', ';', '(', ')'];

/// A kind of text.
#[derive(Clone, Copy)]
pub enum Text {
    /// Words of lowercase letters, in lines that end in LF.
    Prose,
    /// Characters of one to four bytes, and several kinds of line breaks.
    Mixed,
    /// Indented lines of words and marks, and empty lines, that end in CR LF.
    Code,
}

/// All texts, in order.
pub const TEXTS: [Text; 3] = [Text::Prose, Text::Mixed, Text::Code];

impl Text {
    /// Returns the suffix of the names of workloads on this text.
    pub fn ending(self) -> &'static str {
        match self {
            Text::Prose => "/P",
            Text::Mixed => "/M",
            Text::Code => "/C",
        }
    }

    /// Returns a text of at least `least` bytes.
    pub fn make(self, least: usize) -> String {
        match self {
            Text::Prose => prose(least),
            Text::Mixed => mixed(least),
            Text::Code => code(least),
        }
    }
}

fn prose(least: usize) -> String {
    let mut numbers = Numbers::new();
    let mut text = String::new();
    let mut column = 0;
    while text.len() < least {
        let letters = 1 + numbers.up_to(8);
        push_word(&mut text, &mut numbers, letters);
        column += letters;
        if column >= COLUMNS {
            text.push('\n');
            column = 0;
        } else {
            text.push(' ');
            column += 1;
        }
    }
    text
}

fn push_word(text: &mut String, numbers: &mut Numbers, letters: usize) {
    for _ in 0..letters {
        text.push(letter(numbers, 'a', 26));
    }
}

/// Returns one of `count` characters from `first` on.
fn letter(numbers: &mut Numbers, first: char, count: usize) -> char {
    let code = first as u32 + numbers.up_to(count - 1) as u32;
    char::from_u32(code).expect("the ranges have no surrogates")
}

/// Returns a text of `bytes` bytes, in lines of `width` lowercase letters that end in LF.
pub fn letters(width: usize, bytes: usize) -> String {
    let mut numbers = Numbers::new();
    let mut text = String::new();
    let mut column = 0;
    for _ in 0..bytes {
        if column == width {
            text.push('\n');
            column = 0;
        } else {
            text.push(letter(&mut numbers, 'a', 26));
            column += 1;
        }
    }
    text
}

fn mixed(least: usize) -> String {
    let mut numbers = Numbers::new();
    let mut text = String::new();
    let mut column = 0;
    while text.len() < least {
        text.push(mixed_letter(&mut numbers));
        column += 1;
        if column == COLUMNS {
            text.push_str(line_end(&mut numbers));
            column = 0;
        }
    }
    text
}

fn mixed_letter(numbers: &mut Numbers) -> char {
    match numbers.up_to(7) {
        4 => letter(numbers, '\u{E0}', 24),
        5 => letter(numbers, '\u{430}', 32),
        6 => letter(numbers, '\u{3042}', 80),
        7 => letter(numbers, '\u{1F600}', 64),
        _ => letter(numbers, 'a', 26),
    }
}

fn line_end(numbers: &mut Numbers) -> &'static str {
    match numbers.up_to(7) {
        0 => "\u{2028}",
        1 => "\r\n",
        2 => "\u{85}",
        _ => "\n",
    }
}

fn code(least: usize) -> String {
    let mut numbers = Numbers::new();
    let mut text = String::new();
    while text.len() < least {
        if numbers.up_to(7) > 0 {
            push_statement(&mut text, &mut numbers);
        }
        text.push_str("\r\n");
    }
    text
}

/// Appends tabs, and words with a mark after each.
fn push_statement(text: &mut String, numbers: &mut Numbers) {
    for _ in 0..numbers.up_to(4) {
        text.push('\t');
    }
    for _ in 0..1 + numbers.up_to(10) {
        let letters = 1 + numbers.up_to(8);
        push_word(text, numbers, letters);
        text.push(MARKS[numbers.up_to(7)]);
    }
}

/// Returns pieces of whole lines with at least `least` bytes each, without the rest.
pub fn pieces_of(text: &str, least: usize) -> Vec<String> {
    let mut pieces = Vec::new();
    let mut piece = String::new();
    for line in text.split_inclusive('\n') {
        piece.push_str(line);
        if piece.len() >= least {
            pieces.push(std::mem::take(&mut piece));
        }
    }
    pieces
}

/// Returns the fewest first lines that have at least `least` bytes.
pub fn first_lines(text: &str, least: usize) -> String {
    let mut piece = String::new();
    for line in text.split_inclusive('\n') {
        if piece.len() >= least {
            break;
        }
        piece.push_str(line);
    }
    piece
}

/// Returns the first `most` lines of a text, each with its LF, except perhaps the last.
pub fn lines_of(text: &str, most: usize) -> Vec<&str> {
    text.split_inclusive('\n').take(most).collect()
}
