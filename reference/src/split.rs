//! `split`: the beats before k go to one shelf, the others to another.
//!
//! Away from the cut line nothing changes, so notes and cells there are
//! copied. A note that crosses the cut was bound there. Each half is kept if
//! its cell at the cut stands alone; if it does not, its piece is shorter
//! than a beat and is the whole half, and that half is hidden.

use crate::cell::{place, place_of, stands_alone, Cell, Note};
use crate::header;
use crate::shelf::{self, Take};
use crate::{question, sound};

/// Splits a take at a beat line into two other shelves.
pub fn split(session: &mut [u32], take: u32, beat: u32, left: u32, right: u32) -> u32 {
    question::number(try_split(session, take, beat, left, right))
}

fn try_split(session: &mut [u32], take: u32, beat: u32, left: u32, right: u32) -> Result<(), u32> {
    let header = header::read(session)?;
    header.has_shelves(&[take, left, right])?;
    // Three different shelves, which the disjoint borrow asks for as well.
    let places = [take, left, right].map(|shelf| header.place(shelf));
    let [source, left, right] =
        session.get_disjoint_mut(places).map_err(|_| question::WRITTEN_SHELVES)?;
    let take = sound::read(source, &header).ok_or(question::SOUND)?;
    if beat > take.beats {
        return Err(question::SPLIT_BEAT);
    }
    let cut = Cut { beat, tick: beat * header.delta, epsilon: header.epsilon };
    // Each half fits: its notes are parts of different notes of the take and
    // its cells are some of the take's.
    let (left_notes, right_notes) =
        cut.notes(&take, shelf::note_room(left), shelf::note_room(right));
    let (left_cells, right_cells) = cut.cells(
        take.cells,
        shelf::cell_room(left, left_notes),
        shelf::cell_room(right, right_notes),
    );
    shelf::finish(left, beat, left_notes, left_cells);
    shelf::finish(right, take.beats - beat, right_notes, right_cells);
    Ok(())
}

/// The line at which a take is cut.
struct Cut {
    beat: u32,
    tick: u32,
    epsilon: u32,
}

impl Cut {
    /// Writes both halves' notes and gives their counts.
    fn notes(&self, take: &Take, left: &mut [Note], right: &mut [Note]) -> (usize, usize) {
        let (mut lefts, mut rights) = (0, 0);
        let mut cells = take.cells;
        for &[lane, start, end, velocity] in take.notes {
            if end <= self.tick {
                left[lefts] = [lane, start, end, velocity];
                lefts += 1;
            } else if start >= self.tick {
                right[rights] = [lane, start - self.tick, end - self.tick, velocity];
                rights += 1;
            } else if let Some((closing, opening)) = self.cells_at_cut(lane, &mut cells) {
                if stands_alone(closing, self.epsilon) {
                    left[lefts] = [lane, start, self.tick, velocity];
                    lefts += 1;
                }
                // The right half's first piece has its own velocity.
                if stands_alone(opening, self.epsilon) {
                    right[rights] = [lane, 0, end - self.tick, opening[5]];
                    rights += 1;
                }
            }
        }
        (lefts, rights)
    }

    /// The two cells at the cut in a lane where a note crosses it. A sound
    /// take has both. `cells` are those not yet passed.
    fn cells_at_cut<'a>(&self, lane: u32, cells: &mut &'a [Cell]) -> Option<(&'a Cell, &'a Cell)> {
        let closing_place = place(lane, self.beat, 0) - 1;
        while let [cell, rest @ ..] = *cells {
            if place_of(cell) >= closing_place {
                break;
            }
            *cells = rest;
        }
        match *cells {
            [closing, opening, ..] => Some((closing, opening)),
            _ => None,
        }
    }

    /// Writes both halves' cells, of which only the beat changes, and gives
    /// their counts.
    fn cells(&self, cells: &[Cell], left: &mut [Cell], right: &mut [Cell]) -> (usize, usize) {
        let (mut lefts, mut rights) = (0, 0);
        for &[lane, beat, side, before, after, velocity] in cells {
            if beat < self.beat {
                left[lefts] = [lane, beat, side, before, after, velocity];
                lefts += 1;
            } else {
                right[rights] = [lane, beat - self.beat, side, before, after, velocity];
                rights += 1;
            }
        }
        (lefts, rights)
    }
}
