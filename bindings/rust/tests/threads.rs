//! Ropes in eight concurrent threads.
#![cfg(not(feature = "single_thread"))]
mod common;

use std::sync::mpsc::channel;
use std::sync::Arc;
use std::thread;

use common::Random;
use ropey::{iter, Error, Rope, RopeBuilder, RopeSlice};

const THREADS: u64 = 8;

fn may_be_shared<T: Send + Sync>() {}

#[test]
fn all_types_may_be_sent_and_shared() {
    may_be_shared::<Rope>();
    may_be_shared::<RopeSlice<'static>>();
    may_be_shared::<RopeBuilder>();
    may_be_shared::<iter::Bytes<'static>>();
    may_be_shared::<iter::Chars<'static>>();
    may_be_shared::<iter::Lines<'static>>();
    may_be_shared::<iter::Chunks<'static>>();
    may_be_shared::<Error>();
}

fn numbered(lines: usize) -> String {
    (0..lines).map(|i| format!("line {i} é\r\n")).collect()
}

/// Each thread edits clones of a rope that all threads read, and sends some to a thread that drops
/// them.
#[test]
fn clones_are_edited_while_all_threads_read() {
    let lines = 5000;
    let base = numbered(lines);
    let rope = Arc::new(Rope::from_str(&base));
    let (send, receive) = channel::<Rope>();
    let dropper = thread::spawn(move || receive.iter().map(|rope| rope.len_chars()).sum::<usize>());
    thread::scope(|scope| {
        for seed in 0..THREADS {
            let (rope, base, send) = (rope.clone(), &base, send.clone());
            scope.spawn(move || {
                let mut random = Random::new(seed);
                for _ in 0..20 {
                    edit_a_clone(&rope, base, &mut random);
                    let line = random.below(lines);
                    assert_eq!(rope.line(line), format!("line {line} é\r\n"));
                    let mut copy = (*rope).clone();
                    copy.remove(..copy.len_chars() / 2);
                    send.send(copy).unwrap();
                }
            });
        }
    });
    drop(send);
    assert!(dropper.join().unwrap() > 0);
    assert_eq!(*rope, base);
}

fn edit_a_clone(rope: &Rope, base: &str, random: &mut Random) {
    let mut mine = rope.clone();
    let mut text: Vec<char> = base.chars().collect();
    for _ in 0..60 {
        let at = random.below(text.len());
        if random.below(2) == 0 {
            mine.insert(at, "new\n");
            text.splice(at..at, "new\n".chars());
        } else {
            let end = (at + random.below(50)).min(text.len());
            mine.remove(at..end);
            text.drain(at..end);
        }
        let at = random.below(text.len());
        assert_eq!(mine.char(at), text[at]);
        assert!(rope.chars_at(at).reversed().take(30).all(|c| c != 'n' || base.contains(c)));
    }
    let tail = mine.split_off(text.len() / 2);
    mine.append(tail);
    assert!(mine.chars().eq(text));
}

/// A rope is moved from thread to thread and edited by each, while clones of all its states are
/// read.
#[test]
fn a_rope_moves_from_thread_to_thread() {
    let mut rope = Rope::from_str(&numbered(300));
    let mut kept = Vec::new();
    for round in 0..THREADS {
        kept.push((rope.clone(), rope.to_string()));
        rope = thread::spawn(move || {
            let mut random = Random::new(round);
            let at = random.below(rope.len_chars());
            rope.insert(at, &"x".repeat(700));
            rope
        })
        .join()
        .unwrap();
    }
    thread::scope(|scope| {
        for (rope, text) in &kept {
            scope.spawn(move || (0..20).for_each(|_| assert_eq!(rope, text)));
        }
    });
    assert_eq!(rope.len_chars(), numbered(300).chars().count() + 700 * THREADS as usize);
}

/// Clones of concurrent threads get the same number.
#[test]
fn clones_of_many_threads_are_instances_of_one_rope() {
    let rope = Rope::from_str("one");
    let clones: Vec<Rope> = thread::scope(|scope| {
        let threads: Vec<_> = (0..THREADS).map(|_| scope.spawn(|| rope.clone())).collect();
        threads.into_iter().map(|thread| thread.join().unwrap()).collect()
    });
    assert!(clones.iter().all(|clone| clone.is_instance(&rope)));
}
