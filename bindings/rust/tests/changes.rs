//! Change sets against a plain text.
use ropey::changes::{ChangeError, ChangeSet, Edit, Side};
use ropey::Rope;

mod common;

use common::Random;

/// Returns random edits, in order, of a text of `len` characters.
fn random_edits(random: &mut Random, len: usize) -> Vec<(usize, usize, String)> {
    let mut at = 0;
    let mut edits = Vec::new();
    for _ in 0..random.below(6) {
        let start = at + random.below(len - at + 1);
        let end = start + random.below((len - start).min(4) + 1);
        let text = ["", "x", "\u{1F600}y", "\r\n", "four"][random.below(5)];
        at = end;
        edits.push((start, end, text.to_owned()));
    }
    edits
}

fn made(len: usize, edits: &[(usize, usize, String)]) -> ChangeSet {
    let edits: Vec<Edit<'_>> = edits.iter().map(|(start, end, text)| Edit { start: *start, end: *end, text }).collect();
    ChangeSet::of_edits(len, &edits).unwrap()
}

fn edited(text: &str, edits: &[(usize, usize, String)]) -> String {
    let mut chars: Vec<char> = text.chars().collect();
    for (start, end, text) in edits.iter().rev() {
        chars.splice(start..end, text.chars());
    }
    chars.into_iter().collect()
}

fn applied(changes: &ChangeSet, text: &str) -> Rope {
    let mut rope = Rope::from_str(text);
    changes.apply(&mut rope).unwrap();
    rope
}

#[test]
fn changes_do_what_their_edits_do() {
    let mut random = Random::new(11);
    for _ in 0..500 {
        let before = "one\r\ntwo \u{e9}\u{4e2d} three";
        let len = before.chars().count();
        let edits = random_edits(&mut random, len);
        let changes = made(len, &edits);
        let after = edited(before, &edits);
        let mut rope = applied(&changes, before);
        assert_eq!(rope, after.as_str());
        assert_eq!((changes.len_before(), changes.len_after()), (len, after.chars().count()));
        changes.invert(&Rope::from_str(before)).unwrap().apply(&mut rope).unwrap();
        assert_eq!(rope, before);

        let more = random_edits(&mut random, changes.len_after());
        let later = made(changes.len_after(), &more);
        assert_eq!(applied(&changes.compose(&later).unwrap(), before), edited(&after, &more).as_str());

        let other = made(len, &random_edits(&mut random, len));
        let (mut first, mut second) = (applied(&changes, before), applied(&other, before));
        other.rebase(&changes, Side::After).unwrap().apply(&mut first).unwrap();
        changes.rebase(&other, Side::Before).unwrap().apply(&mut second).unwrap();
        assert_eq!(first, second);

        let mut ends = (0, 0);
        for edit in changes.edits() {
            assert_eq!(edit.new_start - ends.1, edit.start - ends.0);
            assert_eq!(edit.new_end - edit.new_start, edit.text.chars().count());
            assert_eq!(changes.map(edit.end, Side::After), edit.new_end);
            ends = (edit.end, edit.new_end);
        }
        assert_eq!(changes.is_empty(), changes.edits().is_empty());
        let mut all: Vec<usize> = (0..=len).collect();
        changes.map_sorted(&mut all, Side::Before);
        assert!(all.iter().enumerate().all(|(i, &moved)| moved == changes.map(i, Side::Before)));
    }
}

#[test]
fn errors_name_the_arguments() {
    let mut changes = ChangeSet::new(7).unwrap();
    changes.replace(2, 5, "x").unwrap();
    assert_eq!(changes.replace(6, 5, ""), Err(ChangeError::RangeInvalid(6, 5)));
    assert_eq!(changes.replace(6, 8, ""), Err(ChangeError::RangeOutOfBounds(8, 7)));
    assert_eq!(changes.replace(4, 6, ""), Err(ChangeError::OutOfOrder(4, 5)));
    let mut rope = Rope::from_str("seven?");
    assert_eq!(changes.apply(&mut rope), Err(ChangeError::LengthDiffers(7, 6)));
    assert_eq!(changes.invert(&rope).unwrap_err(), ChangeError::LengthDiffers(7, 6));
    assert_eq!(changes.compose(&ChangeSet::new(7).unwrap()).unwrap_err(), ChangeError::LengthDiffers(7, 5));
    assert_eq!(changes.rebase(&ChangeSet::new(8).unwrap(), Side::After).unwrap_err(), ChangeError::LengthDiffers(7, 8));
    assert_eq!(ChangeSet::new(usize::MAX).unwrap_err(), ChangeError::TooLong);
    assert_eq!(
        ChangeError::OutOfOrder(4, 5).to_string(),
        "Char range out of order: range start 4, last replacement end 5"
    );
}

#[test]
#[should_panic(expected = "Char index out of bounds: char index 8, text char length 7")]
fn an_index_past_the_end_panics() {
    ChangeSet::new(7).unwrap().map(8, Side::Before);
}

#[test]
fn a_changed_rope_is_no_instance_of_its_clone() {
    let mut rope = Rope::from_str("one");
    let copy = rope.clone();
    ChangeSet::new(3).unwrap().apply(&mut rope).unwrap();
    assert!(rope.is_instance(&copy));
    made(3, &[(0, 1, "O".to_owned())]).apply(&mut rope).unwrap();
    assert!(!rope.is_instance(&copy) && rope == "One" && copy == "one");
}

#[test]
fn changes_may_be_shared_between_threads() {
    let changes = made(3, &[(0, 1, "O".to_owned())]);
    std::thread::scope(|scope| {
        for _ in 0..3 {
            scope.spawn(|| assert_eq!(changes.map(3, Side::After), 3));
        }
    });
}
