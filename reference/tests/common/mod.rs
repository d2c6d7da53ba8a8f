//! What the tests share: fresh sessions, and a call compared with the
//! literal one.
#![allow(dead_code)]

use reference::call::{perform, Call};
use reference::plain;
use reference::plain::rules::Measures;

/// A fresh session.
pub fn fresh(delta: u32, epsilon: u32, shelves: u32, shelf_words: u32) -> Vec<u32> {
    let mut session = vec![7; 4 + (shelves * shelf_words) as usize];
    assert_eq!(reference::open(&mut session, delta, epsilon, shelves, shelf_words), 0);
    session
}

/// Carries a call out and compares number, byte count, every session word
/// and every output byte with the literal call.
pub fn compared(call: &Call, session: &mut [u32], output: &mut [u8], context: &str) -> u32 {
    let expected = plain::calls::perform(call, session, output);
    let (number, count) = perform(call, session, output);
    assert_eq!(number, expected.number, "number, {context}, {call:?}");
    assert_eq!(count, expected.count, "byte count, {context}, {call:?}");
    assert!(session == expected.session, "session words, {context}, {call:?}");
    assert!(output == expected.output, "output bytes, {context}, {call:?}");
    number
}

/// The words of a shelf.
pub fn shelf(session: &[u32], number: u32) -> &[u32] {
    let words = session[3] as usize;
    &session[4 + number as usize * words..][..words]
}

pub fn shelf_mut(session: &mut [u32], number: u32) -> &mut [u32] {
    let words = session[3] as usize;
    &mut session[4 + number as usize * words..][..words]
}

/// A shelf's notes and cells as lists of their words.
pub fn notes(session: &[u32], number: u32) -> Vec<[u32; 4]> {
    let shelf = shelf(session, number);
    shelf[3..3 + 4 * shelf[1] as usize].as_chunks::<4>().0.to_vec()
}

pub fn cells(session: &[u32], number: u32) -> Vec<[u32; 6]> {
    let shelf = shelf(session, number);
    let from = 3 + 4 * shelf[1] as usize;
    shelf[from..from + 6 * shelf[2] as usize].as_chunks::<6>().0.to_vec()
}

/// The measures of a session for the literal rules.
pub fn measures(session: &[u32]) -> Measures {
    Measures {
        delta: session[0].into(),
        epsilon: session[1].into(),
        shelf_words: session[3].into(),
    }
}

/// A shelf's file.
pub fn file(session: &[u32], number: u32) -> Vec<u8> {
    let mut output = vec![0; 1 << 16];
    let mut count = 0;
    assert_eq!(reference::write(session, number, &mut output, &mut count), 0);
    output.truncate(count as usize);
    output
}
