//! A person's edits of a text, in order, on standard input.
//!
//! A line is an edit: the character index, the number of removed characters, and in quotes the
//! inserted character, if any. Quotes and backslashes are escaped by a backslash, and LF, tab and
//! CR as \n, \t and \r.

use crate::measure::{timed, whole, Outcome};
use ropey::Rope;

/// A removal of characters, and an insert of one.
pub struct Keystroke {
    char_idx: usize,
    removed: usize,
    typed: Option<char>,
}

/// Reads the edits on standard input. Other lines are ignored.
pub fn keystrokes() -> std::io::Result<Vec<Keystroke>> {
    let text = std::io::read_to_string(std::io::stdin())?;
    Ok(text.split('\n').filter_map(keystroke_of).collect())
}

/// Parses a line, if it is an edit.
fn keystroke_of(line: &str) -> Option<Keystroke> {
    let (char_idx, rest) = line.split_once(' ')?;
    let (removed, quoted) = rest.split_once(' ')?;
    Some(Keystroke {
        char_idx: char_idx.parse().ok()?,
        removed: removed.parse().ok()?,
        typed: first_of(quoted),
    })
}

/// Returns the first character of a text in quotes.
fn first_of(quoted: &str) -> Option<char> {
    let mut chars = quoted.chars().skip(1);
    match chars.next() {
        None | Some('"') => None,
        Some('\\') => chars.next().map(unescaped),
        Some(c) => Some(c),
    }
}

/// Returns the character that is escaped by a backslash and `c`.
fn unescaped(c: char) -> char {
    match c {
        'n' => '\n',
        't' => '\t',
        'r' => '\r',
        _ => c,
    }
}

/// Applies the edits to an empty rope.
pub fn replay(edits: &[Keystroke]) -> Outcome {
    let mut rope = Rope::new();
    timed(
        edits.len(),
        || {
            apply(&mut rope, edits);
            rope
        },
        whole,
    )
}

fn apply(rope: &mut Rope, edits: &[Keystroke]) {
    for edit in edits {
        if edit.removed > 0 {
            rope.try_remove(edit.char_idx..edit.char_idx.saturating_add(edit.removed))
                .expect("a trace removes existing characters");
        }
        if let Some(c) = edit.typed {
            rope.try_insert_char(edit.char_idx, c)
                .expect("a trace inserts within the text");
        }
    }
}
