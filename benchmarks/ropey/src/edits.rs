//! Series of edits of a rope.

use crate::numbers::Numbers;
use ropey::Rope;

/// Inserts a character at random indices.
pub fn insert_chars_at_random(rope: &mut Rope, count: usize) {
    let mut numbers = Numbers::new();
    for _ in 0..count {
        let char_idx = numbers.up_to(rope.len_chars());
        rope.insert_char(char_idx, 'x');
    }
}

/// Inserts a character in the middle, and each further one after the last.
pub fn insert_chars_in_a_row(rope: &mut Rope, count: usize) {
    let middle = rope.len_chars() / 2;
    for k in 0..count {
        rope.insert_char(middle + k, 'x');
    }
}

/// Inserts a text at random indices.
pub fn insert_text_at_random(rope: &mut Rope, text: &str, count: usize) {
    let mut numbers = Numbers::new();
    for _ in 0..count {
        let char_idx = numbers.up_to(rope.len_chars());
        rope.insert(char_idx, text);
    }
}

/// Inserts the first characters of a text at the end, one by one.
pub fn type_text(rope: &mut Rope, text: &str, count: usize) {
    for c in text.chars().take(count) {
        rope.insert_char(rope.len_chars(), c);
    }
}

/// Removes one to ten characters at random indices.
pub fn remove_at_random(rope: &mut Rope, count: usize) {
    let mut numbers = Numbers::new();
    for _ in 0..count {
        let Some(last) = rope.len_chars().checked_sub(11) else {
            break;
        };
        let start = numbers.up_to(last);
        let end = start + 1 + numbers.up_to(9);
        rope.remove(start..end);
    }
}

/// Removes `chars` characters at random indices.
pub fn remove_long_at_random(rope: &mut Rope, chars: usize, count: usize) {
    let mut numbers = Numbers::new();
    for _ in 0..count {
        let Some(last) = rope.len_chars().checked_sub(chars) else {
            break;
        };
        let start = numbers.up_to(last);
        rope.remove(start..start + chars);
    }
}

/// Replaces three characters at random indices.
pub fn replace_at_random(rope: &mut Rope, count: usize) {
    let mut numbers = Numbers::new();
    for _ in 0..count {
        let Some(last) = rope.len_chars().checked_sub(11) else {
            break;
        };
        let start = numbers.up_to(last);
        rope.remove(start..start + 3);
        rope.insert(start, "abc");
    }
}

/// Inserts characters at random indices and removes them again: the text stays the same, with other
/// chunk boundaries.
pub fn fragment(rope: &mut Rope, count: usize) {
    let mut numbers = Numbers::new();
    for _ in 0..count {
        let Some(last) = rope.len_chars().checked_sub(1) else {
            break;
        };
        let char_idx = numbers.up_to(last);
        rope.insert_char(char_idx, 'x');
        rope.remove(char_idx..char_idx + 1);
    }
}

/// Splits the rope near its middle, and rejoins the two parts.
pub fn split_near_middle(rope: &mut Rope, count: usize) {
    let mut numbers = Numbers::new();
    let first = (rope.len_chars() / 2).saturating_sub(500);
    for _ in 0..count {
        let tail = rope.split_off(first + numbers.up_to(999));
        rope.append(tail);
    }
}

/// Splits the rope at random indices, and rejoins the two parts.
pub fn split_at_random(rope: &mut Rope, count: usize) {
    let mut numbers = Numbers::new();
    for _ in 0..count {
        let char_idx = numbers.up_to(rope.len_chars());
        let tail = rope.split_off(char_idx);
        rope.append(tail);
    }
}

/// Appends other ropes.
pub fn append_all(rope: &mut Rope, others: Vec<Rope>) {
    for other in others {
        rope.append(other);
    }
}
