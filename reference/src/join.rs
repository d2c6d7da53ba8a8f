//! `join`: two takes in order go to a third shelf.
//!
//! Away from the seam nothing changes, so notes and cells there are copied.
//! At the seam, a lane in which the two cells are bound gets one note from
//! the run or hidden piece that ends there and the one that starts there.

use crate::cell::{bound, place, place_of, stands_alone, Cell, Note};
use crate::header::{self, Header, MOST_BEATS};
use crate::shelf::{self, Take};
use crate::{question, sound};
use std::iter::Peekable;
use std::slice::Iter;

/// Joins two takes, which may be one shelf, into another shelf.
pub fn join(session: &mut [u32], first: u32, second: u32, result: u32) -> u32 {
    question::number(try_join(session, first, second, result))
}

fn try_join(session: &mut [u32], first: u32, second: u32, result: u32) -> Result<(), u32> {
    let header = header::read(session)?;
    header.has_shelves(&[first, second, result])?;
    if result == first || result == second {
        return Err(question::WRITTEN_SHELVES);
    }
    let places = [first, second, result].map(|shelf| header.place(shelf));
    if first == second {
        let [take, _, target] = places;
        let [take, target] =
            session.get_disjoint_mut([take, target]).map_err(|_| question::WRITTEN_SHELVES)?;
        let take = sound::read(take, &header).ok_or(question::SOUND)?;
        join_takes(&header, &take, &take, target)
    } else {
        let [first, second, target] =
            session.get_disjoint_mut(places).map_err(|_| question::WRITTEN_SHELVES)?;
        let first = sound::read(first, &header).ok_or(question::SOUND)?;
        let second = sound::read(second, &header).ok_or(question::SOUND)?;
        join_takes(&header, &first, &second, target)
    }
}

fn join_takes(header: &Header, first: &Take, second: &Take, target: &mut [u32]) -> Result<(), u32> {
    let beats = first.beats + second.beats;
    if beats > MOST_BEATS {
        return Err(question::BEATS);
    }
    let ties = find_ties(first, second, header.epsilon);
    let cells = first.cells.len() + second.cells.len();
    // A tie replaces the shown ones of its two sides by one note.
    let shown: usize = ties.iter().map(Tie::shown_sides).sum();
    let notes = first.notes.len() + second.notes.len() + ties.len() - shown;
    if shelf::words_needed(notes as u64, cells as u64) > header.shelf_words.into() {
        return Err(question::ROOM);
    }
    let seam = first.beats * header.delta;
    join_notes(first.notes, second.notes, &ties, seam, shelf::note_room(target));
    join_cells(first, second, shelf::cell_room(target, notes));
    shelf::finish(target, beats, notes, cells);
    Ok(())
}

/// A lane in which the two cells at the seam are bound.
struct Tie {
    closing: Cell,
    opening: Cell,
    /// Whether the first take shows the piece as the end of its last note.
    first_shown: bool,
    /// Whether the second take shows the piece as the start of its first note.
    second_shown: bool,
}

impl Tie {
    fn shown_sides(&self) -> usize {
        usize::from(self.first_shown) + usize::from(self.second_shown)
    }
}

/// The ties in order of lane. A piece at an outer line is shown just when
/// its cell there stands alone, because nothing binds it there.
fn find_ties(first: &Take, second: &Take, epsilon: u32) -> Vec<Tie> {
    let mut ties = Vec::new();
    let mut closings = first.cells.iter().peekable();
    for &opening in second.cells.iter().filter(|cell| cell[1] == 0 && cell[2] == 0) {
        // One before the seam's own line: the closing line of the last beat.
        let wanted = place(opening[0], first.beats, 0).wrapping_sub(1);
        while closings.next_if(|cell| place_of(cell) < wanted).is_some() {}
        let Some(&closing) = closings.next_if(|cell| place_of(cell) == wanted) else {
            continue;
        };
        if bound(&closing, &opening, epsilon) {
            ties.push(Tie {
                closing,
                opening,
                first_shown: stands_alone(&closing, epsilon),
                second_shown: stands_alone(&opening, epsilon),
            });
        }
    }
    ties
}

/// The first lane in which a note or a tie is left.
#[inline]
fn next_lane(notes: [&mut Peekable<Iter<Note>>; 2], ties: &mut Peekable<Iter<Tie>>) -> Option<u32> {
    let [first, second] = notes.map(|notes| notes.peek().map(|note| note[0]));
    let tie = ties.peek().map(|tie| tie.closing[0]);
    [first, second, tie].into_iter().flatten().min()
}

/// Writes the result's notes: lane by lane the first take's, the tie at the
/// seam, and the second take's.
fn join_notes(first: &[Note], second: &[Note], ties: &[Tie], seam: u32, room: &mut [Note]) {
    let mut room = room.iter_mut();
    let mut put = |note: Note| {
        if let Some(place) = room.next() {
            *place = note;
        }
    };
    let (mut first, mut second) = (first.iter().peekable(), second.iter().peekable());
    let mut ties = ties.iter().peekable();
    while let Some(lane) = next_lane([&mut first, &mut second], &mut ties) {
        let tie = ties.next_if(|tie| tie.closing[0] == lane);
        let ends_at_seam = |note: &&Note| tie.is_some_and(|tie| tie.first_shown) && note[2] == seam;
        while let Some(note) = first.next_if(|note| note[0] == lane && !ends_at_seam(note)) {
            put(*note);
        }
        if let Some(tie) = tie {
            let left = if tie.first_shown { first.next() } else { None };
            let right = if tie.second_shown { second.next() } else { None };
            put(tied_note(tie, left, right, seam));
        }
        while let Some(&[_, start, end, velocity]) = second.next_if(|note| note[0] == lane) {
            put([lane, start + seam, end + seam, velocity]);
        }
    }
}

/// One note from both sides of the seam; a side without a note is the hidden
/// piece of its cell.
fn tied_note(tie: &Tie, left: Option<&Note>, right: Option<&Note>, seam: u32) -> Note {
    let [lane, _, _, before, _, own_velocity] = tie.closing;
    let (start, velocity) = match left {
        Some(note) => (note[1], note[3]),
        None => (seam - before, own_velocity),
    };
    let length_behind = right.map_or(tie.opening[4], |note| note[2]);
    [lane, start, seam + length_behind, velocity]
}

/// Writes the result's cells, of which only the second take's beats change.
/// In a lane the first take's come before the second's.
fn join_cells(first: &Take, second: &Take, room: &mut [Cell]) {
    let (mut firsts, mut seconds) = (first.cells, second.cells);
    for cell in room.iter_mut().take(firsts.len() + seconds.len()) {
        match (firsts, seconds) {
            ([next, rest @ ..], []) => {
                *cell = *next;
                firsts = rest;
            }
            ([next, rest @ ..], [other, ..]) if next[0] <= other[0] => {
                *cell = *next;
                firsts = rest;
            }
            (_, [[lane, beat, side, before, after, velocity], rest @ ..]) => {
                *cell = [*lane, beat + first.beats, *side, *before, *after, *velocity];
                seconds = rest;
            }
            ([], []) => return,
        }
    }
}
