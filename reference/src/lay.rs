//! `lay`: a lent note list becomes a recording in a shelf.

use crate::cell::Note;
use crate::header::{self, MOST_BEATS};
use crate::{question, recording, shelf, sound};

/// Lays a note list of so many beats in a shelf, with all its cells.
pub fn lay(session: &mut [u32], shelf: u32, beats: u32, notes: &[u32]) -> u32 {
    question::number(try_lay(session, shelf, beats, notes))
}

fn try_lay(session: &mut [u32], shelf: u32, beats: u32, list: &[u32]) -> Result<(), u32> {
    let header = header::read(session)?;
    header.has_shelves(&[shelf])?;
    if beats > MOST_BEATS {
        return Err(question::BEATS);
    }
    let (notes, rest) = list.as_chunks::<4>();
    if !rest.is_empty() {
        return Err(question::NOTE_LIST);
    }
    let cells = check_list(notes, beats * header.delta, header.delta)?;
    if shelf::words_needed(notes.len() as u64, cells) > header.shelf_words.into() {
        return Err(question::ROOM);
    }
    let words = &mut session[header.place(shelf)];
    shelf::note_room(words)[..notes.len()].copy_from_slice(notes);
    recording::complete(words, beats, notes.len(), header.delta);
    Ok(())
}

/// Question 7 for whole notes; gives the number of their cells. The sum is
/// that of a long list, so it is kept in 64 bits.
fn check_list(notes: &[Note], end_tick: u32, delta: u32) -> Result<u64, u32> {
    let mut last = [0; 4];
    let mut cells = 0;
    for note in notes {
        if !sound::note_in_range(note, end_tick) || !sound::in_order(&last, note) {
            return Err(question::NOTE_LIST);
        }
        cells += u64::from(recording::cell_count(note, delta));
        last = *note;
    }
    Ok(cells)
}
