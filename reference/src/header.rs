//! The four header words of a session, where its shelves lie, and `open`.

use crate::question;
use std::ops::Range;

/// Most beats in a take.
pub const MOST_BEATS: u32 = 4096;
/// Lanes: 16 channels of 128 keys.
pub const LANES: u32 = 2048;
/// Most shelves in a session.
pub const MOST_SHELVES: u32 = 64;
/// Most ticks in a beat.
pub const MOST_TICKS: u32 = 32_767;
/// Most words in a shelf; the fewest are the three of the empty take.
pub const MOST_SHELF_WORDS: u32 = 1_048_576;

/// Header words that are known to be in range.
#[derive(Clone, Copy, Debug)]
pub struct Header {
    pub delta: u32,
    pub epsilon: u32,
    pub shelves: u32,
    pub shelf_words: u32,
}

impl Header {
    /// Where a shelf's words lie in the session. The number is below K.
    pub fn place(&self, shelf: u32) -> Range<usize> {
        let words = self.shelf_words as usize;
        let first = 4 + shelf as usize * words;
        first..first + words
    }

    /// The last tick that any take or file may reach, 4,096 × δ.
    pub fn last_tick(&self) -> u32 {
        MOST_BEATS * self.delta
    }

    /// Question 2 for all shelf numbers of a call.
    pub fn has_shelves(&self, numbers: &[u32]) -> Result<(), u32> {
        match numbers.iter().all(|&number| number < self.shelves) {
            true => Ok(()),
            false => Err(question::SHELF_NUMBERS),
        }
    }
}

/// Question 1 for four header words and a session of `length` words.
fn check(words: [u32; 4], length: usize) -> Result<Header, u32> {
    let [delta, epsilon, shelves, shelf_words] = words;
    let in_range = (1..=MOST_TICKS).contains(&delta)
        && (1..=delta).contains(&epsilon)
        && (1..=MOST_SHELVES).contains(&shelves)
        && (3..=MOST_SHELF_WORDS).contains(&shelf_words);
    let exact = 4 + u64::from(shelves) * u64::from(shelf_words);
    if in_range && exact == length as u64 {
        Ok(Header { delta, epsilon, shelves, shelf_words })
    } else {
        Err(question::SESSION)
    }
}

/// Question 1 for the session's own words.
pub fn read(session: &[u32]) -> Result<Header, u32> {
    let words = session.first_chunk::<4>().ok_or(question::SESSION)?;
    check(*words, session.len())
}

/// Makes the lent words a fresh session: every shelf is the empty take.
pub fn open(session: &mut [u32], delta: u32, epsilon: u32, shelves: u32, shelf_words: u32) -> u32 {
    let words = [delta, epsilon, shelves, shelf_words];
    if let Err(number) = check(words, session.len()) {
        return number;
    }
    let (header, shelf_space) = session.split_at_mut(4);
    header.copy_from_slice(&words);
    shelf_space.fill(0);
    0
}
