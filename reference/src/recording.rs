//! A recording's cells: what its notes leave at the beat lines.

use crate::cell::{Cell, Note};
use crate::shelf;
use std::slice::IterMut;

/// How many cells a note has: two at each line that it crosses, one at a
/// line where it starts or ends.
#[inline]
pub fn cell_count(note: &Note, delta: u32) -> u32 {
    let [_, start, end, _] = *note;
    let first_line = start.div_ceil(delta);
    let last_line = end / delta;
    if first_line > last_line {
        return 0;
    }
    let starts_there = u32::from(first_line * delta == start);
    let ends_there = u32::from(last_line * delta == end);
    2 * (last_line - first_line + 1) - starts_there - ends_there
}

/// Puts a cell into the next place.
#[inline]
fn put(room: &mut IterMut<Cell>, cell: Cell) {
    if let Some(place) = room.next() {
        *place = cell;
    }
}

/// Completes a shelf whose first `notes` notes are in place: their cells,
/// the counts and the zeros. The shelf has room for all of them.
pub fn complete(shelf: &mut [u32], beats: u32, notes: usize, delta: u32) {
    let (front, back) = shelf.split_at_mut(shelf::COUNTS + 4 * notes);
    let mut room = back.as_chunks_mut::<6>().0.iter_mut();
    let places = room.len();
    for &[lane, start, end, velocity] in front[shelf::COUNTS..].as_chunks::<4>().0 {
        let mut beat = start.div_ceil(delta);
        let mut line = beat * delta;
        while line <= end {
            let (before, after) = (line - start, end - line);
            if before > 0 {
                put(&mut room, [lane, beat - 1, 1, before, after, velocity]);
            }
            if after > 0 {
                put(&mut room, [lane, beat, 0, before, after, velocity]);
            }
            beat += 1;
            line += delta;
        }
    }
    let cells = places - room.len();
    shelf::finish(shelf, beats, notes, cells);
}
