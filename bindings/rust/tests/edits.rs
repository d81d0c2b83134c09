//! Random edits, compared with the same edits of a `String`.
mod common;

use std::panic::{catch_unwind, AssertUnwindSafe};

use common::{char_starts, counts, Random};
use ropey::{Error, Rope};

fn is(rope: &Rope, text: &str) {
    assert_eq!(rope.to_string(), text);
    assert_eq!((rope.len_bytes(), rope.len_chars(), rope.len_lines(), rope.len_utf16_cu()), counts(text));
}

/// Applies a random edit to a rope and to its text.
fn edit(rope: &mut Rope, text: &mut String, random: &mut Random) {
    let starts = char_starts(text);
    let len = starts.len() - 1;
    match random.below(9) {
        0..=2 => {
            let at = random.below(len + 1);
            let chars = [1, 3, 20, 400, 6000][random.below(if len < 2000 { 5 } else { 3 })];
            let new = random.text(chars);
            rope.insert(at, &new);
            text.insert_str(starts[at], &new);
        }
        3 => {
            let at = random.below(len + 1);
            let c = random.text(1).chars().next().unwrap();
            rope.insert_char(at, c);
            text.insert(starts[at], c);
        }
        4..=6 => {
            let (start, end) = random.range(len);
            let end = if random.below(4) > 0 { end.min(start + 30) } else { end };
            rope.remove(start..end);
            text.replace_range(starts[start]..starts[end], "");
        }
        7 => {
            let at = random.below(len + 1);
            let (tail, tail_text) = (rope.split_off(at), text.split_off(starts[at]));
            is(&tail, &tail_text);
            is(rope, text);
            if random.below(2) == 0 {
                rope.append(tail);
                text.push_str(&tail_text);
            }
        }
        _ => {
            let (start, end) = random.range(len);
            let part = Rope::from(rope.slice(start..end));
            is(&part, &text[starts[start]..starts[end]]);
            rope.append(part);
            let part = text[starts[start]..starts[end]].to_string();
            text.push_str(&part);
            if rope.len_bytes() > 40_000 {
                *rope = Rope::new();
                text.clear();
            }
        }
    }
}

#[test]
fn random_edits() {
    for seed in 0..20 {
        let mut random = Random::new(seed);
        let (mut rope, mut text) = (Rope::new(), String::new());
        for _ in 0..150 {
            edit(&mut rope, &mut text, &mut random);
            is(&rope, &text);
        }
        rope.shrink_to_fit();
        is(&rope, &text);
        assert!(rope.capacity() >= rope.len_bytes());
    }
}

#[test]
fn clones_keep_their_text() {
    let mut random = Random::new(99);
    let mut kept: Vec<(Rope, String)> = Vec::new();
    let (mut rope, mut text) = (Rope::new(), String::new());
    for _ in 0..300 {
        kept.push((rope.clone(), text.clone()));
        if kept.len() > 12 {
            let at = random.below(kept.len());
            kept.swap_remove(at);
        }
        edit(&mut rope, &mut text, &mut random);
        kept.iter().for_each(|(rope, text)| assert_eq!(rope, text));
    }
}

#[test]
fn refused_edits_change_nothing() {
    let mut rope = Rope::from_str("one é\n");
    assert!(matches!(rope.try_insert(7, "x"), Err(Error::CharIndexOutOfBounds(7, 6))));
    assert!(matches!(rope.try_insert(7, ""), Err(Error::CharIndexOutOfBounds(7, 6))));
    assert!(matches!(rope.try_insert_char(9, 'x'), Err(Error::CharIndexOutOfBounds(9, 6))));
    assert!(matches!(rope.try_split_off(7), Err(Error::CharIndexOutOfBounds(7, 6))));
    assert!(matches!(rope.try_remove(2..7), Err(Error::CharRangeOutOfBounds(Some(2), Some(7), 6))));
    assert!(matches!(rope.try_remove(7..), Err(Error::CharRangeOutOfBounds(Some(7), None, 6))));
    assert!(matches!(rope.try_remove(..=6), Err(Error::CharRangeOutOfBounds(None, Some(7), 6))));
    #[allow(clippy::reversed_empty_ranges)]
    let reversed = 3..2;
    assert!(matches!(rope.try_remove(reversed), Err(Error::CharRangeInvalid(3, 2))));
    #[allow(clippy::reversed_empty_ranges)]
    let both = 7..2;
    assert!(matches!(rope.try_remove(both), Err(Error::CharRangeOutOfBounds(Some(7), Some(2), 6))));
    let edits: [&dyn Fn(&mut Rope); 5] = [
        &|rope| rope.insert(7, "x"),
        &|rope| rope.insert_char(7, 'x'),
        &|rope| rope.remove(6..7),
        &|rope| rope.remove(7..),
        &|rope| drop(rope.split_off(7)),
    ];
    for edit in edits {
        assert!(catch_unwind(AssertUnwindSafe(|| edit(&mut rope))).is_err());
        assert_eq!(rope, "one é\n");
    }
}

#[test]
fn instances_are_clones_without_edits() {
    let mut rope = Rope::from_str("one");
    let mut clone = rope.clone();
    assert!(rope.is_instance(&rope) && rope.is_instance(&clone) && clone.clone().is_instance(&rope));
    assert!(!Rope::from_str("one").is_instance(&rope) && !Rope::new().is_instance(&Rope::new()));
    rope.insert(1, "");
    assert!(rope.is_instance(&clone));
    clone.insert(3, "x");
    assert!(!rope.is_instance(&clone));
    clone.remove(3..4);
    assert!(rope == clone && !rope.is_instance(&clone));
    let mut empty = Rope::new();
    empty.append(rope.clone());
    assert!(empty.is_instance(&rope));
    let tail = rope.split_off(1);
    assert!(!empty.is_instance(&rope) && !tail.is_instance(&empty));
}
