//! A call with its arguments as plain data, and how it is carried out.

use crate::{join, lay, load, open, split, write};

#[derive(Clone, Debug, PartialEq, Eq)]
pub enum Call {
    Open { delta: u32, epsilon: u32, shelves: u32, shelf_words: u32 },
    Lay { shelf: u32, beats: u32, notes: Vec<u32> },
    Split { take: u32, beat: u32, left: u32, right: u32 },
    Join { first: u32, second: u32, result: u32 },
    Load { shelf: u32, file: Vec<u8> },
    Write { shelf: u32 },
}

/// Carries a call out; gives its number, and for write the byte count.
pub fn perform(call: &Call, session: &mut [u32], output: &mut [u8]) -> (u32, u64) {
    let mut count = 0;
    let number = match *call {
        Call::Open { delta, epsilon, shelves, shelf_words } => {
            open(session, delta, epsilon, shelves, shelf_words)
        }
        Call::Lay { shelf, beats, ref notes } => lay(session, shelf, beats, notes),
        Call::Split { take, beat, left, right } => split(session, take, beat, left, right),
        Call::Join { first, second, result } => join(session, first, second, result),
        Call::Load { shelf, ref file } => load(session, shelf, file),
        Call::Write { shelf } => write(session, shelf, output, &mut count),
    };
    (number, count)
}
