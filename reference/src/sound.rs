//! Question 4: is a shelf sound? Each pass is linear in its notes and cells.

use crate::cell::{place, place_of, Cell, Note};
use crate::header::{Header, LANES};
use crate::runs::Runs;
use crate::shelf::{self, Take};

/// The shelf's take if the shelf is sound.
pub fn read<'a>(shelf: &'a [u32], header: &Header) -> Option<Take<'a>> {
    let take = shelf::read(shelf)?;
    let sound = cells_sound(&take, header) && notes_sound(&take, header);
    sound.then_some(take)
}

/// All that soundness says of cells by themselves.
fn cells_sound(take: &Take, header: &Header) -> bool {
    let mut cells = take.cells.iter();
    let Some(mut last) = cells.next() else {
        return true;
    };
    if !in_range(last, take.beats, header) || (last[2] == 1 && last[3] >= header.delta) {
        return false;
    }
    for cell in cells {
        if !in_range(cell, take.beats, header) || !follows(last, cell, header.delta) {
            return false;
        }
        last = cell;
    }
    // A last cell that opens a beat has no partner behind it.
    last[2] == 1 || last[4] < header.delta
}

/// The ranges of one cell's words, the limit of its memory, and that its
/// piece is not empty.
fn in_range(cell: &Cell, beats: u32, header: &Header) -> bool {
    let [lane, beat, side, before, after, velocity] = *cell;
    let own = if side == 0 { after } else { before };
    lane < LANES
        && beat < beats
        && side < 2
        && u64::from(before) + u64::from(after) <= u64::from(header.last_tick())
        && own > 0
        && (1..=127).contains(&velocity)
}

/// Whether `cell` may stand behind `last`: in order, and as its partner or
/// without overlap where both lie in one beat of one lane.
fn follows(last: &Cell, cell: &Cell, delta: u32) -> bool {
    let [_, _, last_side, last_before, last_after, last_velocity] = *last;
    let [_, _, side, before, after, velocity] = *cell;
    let fills_last = last_side == 0 && last_after >= delta;
    let fills = side == 1 && before >= delta;
    let one_beat = last_side == 0 && place_of(cell) == place_of(last) + 1;
    if !one_beat {
        return place_of(last) < place_of(cell) && !fills_last && !fills;
    }
    if fills_last || fills {
        before == last_before + delta && last_after == after + delta && velocity == last_velocity
    } else {
        last_after + before <= delta
    }
}

/// The notes are in range and in order; those that touch no line keep clear
/// of the pieces, and the others are the runs that the cells give.
fn notes_sound(take: &Take, header: &Header) -> bool {
    let end_tick = take.beats * header.delta;
    let mut runs = Runs::new(take.cells, header.delta, header.epsilon);
    let mut beside = take.cells;
    let mut last = [0; 4];
    for note in take.notes {
        if !note_in_range(note, end_tick) || !in_order(&last, note) {
            return false;
        }
        let right = match beat_inside(note, header.delta) {
            Some(beat) => keeps_clear(note, beat, header.delta, &mut beside),
            None => runs.next().as_ref() == Some(note),
        };
        if !right {
            return false;
        }
        // Notes behind this one lie behind the runs so far.
        if runs.left().len() < beside.len() {
            beside = runs.left();
        }
        last = *note;
    }
    runs.next().is_none()
}

/// The beat of a note that touches no line.
#[inline]
fn beat_inside(note: &Note, delta: u32) -> Option<u32> {
    let beat = note[1] / delta;
    let line = beat * delta;
    (note[1] > line && note[2] < line + delta).then_some(beat)
}

/// Lane, ticks and velocity in range.
#[inline]
pub fn note_in_range(note: &Note, end_tick: u32) -> bool {
    let [lane, start, end, velocity] = *note;
    lane < LANES && start < end && end <= end_tick && (1..=127).contains(&velocity)
}

/// By lane, and in a lane no note starts before the last one ends. The note
/// of four zeros may stand before any first note.
#[inline]
pub fn in_order(last: &Note, note: &Note) -> bool {
    last[0] < note[0] || (last[0] == note[0] && last[2] <= note[1])
}

/// Whether a note that touches no line overlaps neither piece at the lines
/// of its beat. `cells` are those not yet passed; the order of the notes is
/// that of the cells, so that they are passed once in all.
fn keeps_clear(note: &Note, beat: u32, delta: u32, cells: &mut &[Cell]) -> bool {
    let [lane, start, end, _] = *note;
    let opening_place = place(lane, beat, 0);
    while let Some((cell, rest)) = cells.split_first() {
        if place_of(cell) >= opening_place {
            break;
        }
        *cells = rest;
    }
    let line = beat * delta;
    let clear = |cell: &Cell| match place_of(cell).wrapping_sub(opening_place) {
        0 => start >= line + cell[4].min(delta),
        1 => end <= line + delta - cell[3].min(delta),
        _ => true,
    };
    cells.iter().take(2).all(clear)
}
