//! Questions 6, 7 and 8 at their limits: lists that lay takes or refuses,
//! and results that just fit or just do not.

mod common;

use common::{compared, fresh, shelf_mut};
use reference::call::Call;
use reference::lay;

fn check(name: &str, mut session: Vec<u32>, call: Call, expected: u32) {
    let before = session.clone();
    let number = compared(&call, &mut session, &mut [], name);
    assert_eq!(number, expected, "{name}: {call:?}");
    assert!(number == 0 || session == before, "{name}: {call:?}");
}

/// A list laid in an empty shelf.
fn check_lay(name: &str, beats: u32, notes: &[u32], expected: u32) {
    let call = Call::Lay { shelf: 2, beats, notes: notes.to_vec() };
    check(name, fresh(10, 3, 4, 90), call, expected);
}

/// A list of two notes.
fn check_second(name: &str, second: [u32; 4], expected: u32) {
    check_lay(name, 2, &[&[60, 4, 10, 100], &second[..]].concat(), expected);
}

#[test]
fn lay_lists() {
    check_lay("empty list", 0, &[], 0);
    check_lay("empty list", 4096, &[], 0);
    check_lay("too many beats", 4097, &[], 6);
    check_lay("too many beats", u32::MAX, &[1], 6);
    for second in [[60, 10, 20, 1], [60, 11, 12, 127], [61, 0, 20, 5], [2047, 3, 4, 5]] {
        check_second("legal", second, 0);
    }
    for extra in 1..4 {
        check_lay("no whole note", 2, &[60, 4, 10, 100, 61, 4, 10][..4 + extra], 7);
    }
}

#[test]
fn illegal_notes_in_a_list() {
    for second in [
        [60, 9, 20, 1],
        [60, 4, 10, 100],
        [60, 2, 3, 100],
        [59, 10, 20, 100],
        [2048, 10, 20, 100],
        [u32::MAX, 10, 20, 100],
        [61, 10, 10, 100],
        [61, 11, 10, 100],
        [61, 10, 21, 100],
        [61, 10, u32::MAX, 100],
        [61, 10, 20, 0],
        [61, 10, 20, 128],
    ] {
        check_second("illegal", second, 7);
    }
}

#[test]
fn results_that_just_fit() {
    // Seven words for a note inside its beat, 13 for one that ends on a line.
    for (words, note, expected) in [
        (7, [60, 3, 5, 9], 0),
        (6, [60, 3, 5, 9], 8),
        (13, [60, 3, 10, 9], 0),
        (12, [60, 3, 10, 9], 8),
        (19, [60, 3, 12, 9], 0),
        (18, [60, 3, 12, 9], 8),
        (31, [60, 3, 22, 9], 0),
        (30, [60, 3, 22, 9], 8),
        (31, [60, 0, 20, 9], 0),
        (30, [60, 0, 20, 9], 8),
    ] {
        let session = fresh(10, 3, 2, words);
        let call = Call::Lay { shelf: 1, beats: 3, notes: note.to_vec() };
        check("just fits", session, call, expected);
    }
}

/// Two shelves of the given words, joined.
fn check_join(name: &str, words: u32, first: &[u32], second: &[u32], expected: u32) {
    let mut session = fresh(10, 3, 4, words);
    shelf_mut(&mut session, 1)[..first.len()].copy_from_slice(first);
    shelf_mut(&mut session, 2)[..second.len()].copy_from_slice(second);
    check(name, session, Call::Join { first: 1, second: 2, result: 3 }, expected);
}

#[test]
fn joins_that_just_fit() {
    // Hidden halves of 9 words each: the join of both adds a note.
    for (words, expected) in [(19, 0), (20, 0)] {
        let mut session = fresh(10, 3, 4, words);
        assert_eq!(lay(&mut session, 0, 2, &[60, 8, 12, 100]), 0);
        assert_eq!(reference::split(&mut session, 0, 1, 1, 2), 0);
        let call = Call::Join { first: 1, second: 2, result: 3 };
        check("hidden halves", session, call, expected);
    }
    // Written by hand, because a lay of the whole note would not fit.
    for (words, expected) in [(18, 8), (19, 0)] {
        let (left, right) = ([1, 0, 1, 60, 0, 1, 2, 2, 100], [1, 0, 1, 60, 0, 0, 2, 2, 100]);
        check_join("hidden halves", words, &left, &right, expected);
    }
    // Two shown halves of 13 words become one note: 19 words, not 23.
    for (words, expected) in [(18, 8), (19, 0)] {
        let left = [1, 1, 1, 60, 5, 10, 100, 60, 0, 1, 5, 5, 100];
        let right = [1, 1, 1, 60, 0, 5, 100, 60, 0, 0, 5, 5, 100];
        check_join("shown halves", words, &left, &right, expected);
    }
}
