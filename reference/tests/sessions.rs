//! Question 1: the header words, the session's length, and open.

mod common;

use common::{compared, fresh};
use reference::call::Call;

fn check(name: &str, mut session: Vec<u32>, call: &Call, expected: u32) {
    let before = session.clone();
    let mut output = [0xEE; 60];
    let number = compared(call, &mut session, &mut output, name);
    assert_eq!(number, expected, "{name}: {call:?}");
    if number > 0 {
        assert!(session == before && output == [0xEE; 60], "{name}: {call:?}");
    }
}

/// 364 words.
fn session() -> Vec<u32> {
    fresh(10, 3, 4, 90)
}

/// Every call but open, with arguments that a right session accepts.
fn calls() -> [Call; 5] {
    let file = b"MThd\0\0\0\x06\0\0\0\x01\0\x0AMTrk\0\0\0\x04\x00\xFF\x2F\x00";
    [
        Call::Lay { shelf: 0, beats: 1, notes: vec![] },
        Call::Split { take: 0, beat: 0, left: 1, right: 2 },
        Call::Join { first: 0, second: 0, result: 1 },
        Call::Load { shelf: 0, file: file.to_vec() },
        Call::Write { shelf: 0 },
    ]
}

#[test]
fn header_words() {
    let changes: [(usize, &[u32]); 4] = [
        (0, &[0, 2, 32_768, u32::MAX]),
        (1, &[0, 11, u32::MAX]),
        (2, &[0, 3, 5, 65, u32::MAX]),
        (3, &[0, 2, 89, 91, 1_048_577, u32::MAX]),
    ];
    for call in calls() {
        check("right", session(), &call, 0);
        for (word, values) in changes {
            for &value in values {
                let mut wrong = session();
                wrong[word] = value;
                check("header", wrong, &call, 1);
            }
        }
        // K × W is 2^32 + 360 here: a wrapped product would be right.
        let mut wrapped = session();
        wrapped[2] = 8;
        wrapped[3] = 536_870_957;
        check("wrapped product", wrapped, &call, 1);
    }
}

#[test]
fn lengths() {
    for call in calls() {
        for length in [0, 1, 2, 3, 4, 5, 363, 365] {
            let mut wrong = session();
            wrong.resize(length, 0);
            check("length", wrong, &call, 1);
        }
    }
}

fn open(delta: u32, epsilon: u32, shelves: u32, shelf_words: u32) -> Call {
    Call::Open { delta, epsilon, shelves, shelf_words }
}

#[test]
fn arguments_of_open() {
    // What the list held before does not matter.
    let lent = vec![u32::MAX; 364];
    for call in
        [open(10, 3, 4, 90), open(1, 1, 4, 90), open(32_767, 32_767, 4, 90), open(9, 9, 40, 9)]
    {
        check("open", lent.clone(), &call, 0);
        check("open", session(), &call, 0);
    }
    for call in [
        open(0, 0, 4, 90),
        open(0, 1, 4, 90),
        open(32_768, 3, 4, 90),
        open(10, 0, 4, 90),
        open(10, 11, 4, 90),
        open(10, 3, 0, 90),
        open(10, 3, 90, 4),
        open(10, 3, 180, 2),
        open(10, 3, 5, 73),
        open(10, 3, 8, 536_870_957),
        open(10, 3, u32::MAX, u32::MAX),
    ] {
        check("open", lent.clone(), &call, 1);
        check("open", session(), &call, 1);
    }
}

#[test]
fn lengths_for_open() {
    for (shelves, words, in_range) in [
        (64, 3, true),
        (1, 1_048_576, true),
        (2, 1000, true),
        (65, 3, false),
        (1, 2, false),
        (1, 1_048_577, false),
    ] {
        let call = open(10, 3, shelves, words);
        let exact = 4 + (shelves * words) as usize;
        check("exact", vec![5; exact], &call, if in_range { 0 } else { 1 });
        check("longer", vec![5; exact + 1], &call, 1);
        check("shorter", vec![5; exact - 1], &call, 1);
    }
    for length in 0..8 {
        check("short list", vec![5; length], &open(10, 3, 1, 3), if length == 7 { 0 } else { 1 });
    }
}
