//! A shelf's words seen as a take, and the three words that begin it.

use crate::cell::{Cell, Note};
use crate::header::MOST_BEATS;

/// Words before the first note: beats, note count, cell count.
pub const COUNTS: usize = 3;

/// A take as it lies in a shelf.
#[derive(Clone, Copy)]
pub struct Take<'a> {
    pub beats: u32,
    pub notes: &'a [Note],
    pub cells: &'a [Cell],
}

/// The words that a take of so many notes and cells needs.
pub fn words_needed(notes: u64, cells: u64) -> u64 {
    COUNTS as u64 + 4 * notes + 6 * cells
}

/// Reads the layout: beats and counts in range, then zeros behind the cells.
pub fn read(shelf: &[u32]) -> Option<Take<'_>> {
    let (&[beats, note_count, cell_count], rest) = shelf.split_first_chunk::<COUNTS>()?;
    let needed = words_needed(note_count.into(), cell_count.into());
    if beats > MOST_BEATS || needed > shelf.len() as u64 {
        return None;
    }
    let (note_words, rest) = rest.split_at(4 * note_count as usize);
    let (cell_words, behind) = rest.split_at(6 * cell_count as usize);
    let notes = note_words.as_chunks::<4>().0;
    let cells = cell_words.as_chunks::<6>().0;
    all_zero(behind).then_some(Take { beats, notes, cells })
}

/// Blocks are joined by "or" so that many words are looked at in one step.
fn all_zero(words: &[u32]) -> bool {
    let (blocks, rest) = words.as_chunks::<64>();
    let clear = |block: &[u32]| block.iter().fold(0, |all, &word| all | word) == 0;
    blocks.iter().all(|block| clear(block)) && clear(rest)
}

/// Writes the three counts and the zeros behind so many notes and cells. The
/// notes and cells themselves are written by the caller.
pub fn finish(shelf: &mut [u32], beats: u32, notes: usize, cells: usize) {
    shelf[..COUNTS].copy_from_slice(&[beats, notes as u32, cells as u32]);
    shelf[COUNTS + 4 * notes + 6 * cells..].fill(0);
}

/// The room for notes, from the first note's place to the shelf's end.
pub fn note_room(shelf: &mut [u32]) -> &mut [Note] {
    shelf[COUNTS..].as_chunks_mut::<4>().0
}

/// The room for cells behind so many notes.
pub fn cell_room(shelf: &mut [u32], notes: usize) -> &mut [Cell] {
    shelf[COUNTS + 4 * notes..].as_chunks_mut::<6>().0
}
