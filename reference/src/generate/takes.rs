//! Sound shelves that need not come from any list of calls: their cells are
//! chosen freely as far as soundness lets them be.

use super::notes::{self, Measures};
use crate::plain::{piece, rules};
use crate::random::Random;

/// Lane, beat, side, before, after, velocity.
type CellWords = [u32; 6];
/// Lane, start, end, velocity of a note that touches no line.
type NoteWords = [u32; 4];

/// The words of a shelf of this session with freely chosen cells and the notes
/// that the rules give from them, if they fit it.
pub fn shelf_words(random: &mut Random, session: &[u32]) -> Option<Vec<u32>> {
    let chosen = Measures { delta: session[0], epsilon: session[1], beats: random.between(0, 4) };
    let lanes = notes::lanes(random, 2);
    let (cells, inner) = cells_and_inner_notes(random, &chosen, &lanes);
    let cells: Vec<piece::Cell> = cells.into_iter().map(cell).collect();
    let inner: Vec<piece::Note> = inner.into_iter().map(note).collect();
    let pieces = piece::of_take(&inner, &cells, chosen.delta.into());
    let measures = rules::Measures {
        delta: chosen.delta.into(),
        epsilon: chosen.epsilon.into(),
        shelf_words: session[3].into(),
    };
    rules::words(chosen.beats.into(), &pieces, &measures)
}

fn cell(words: CellWords) -> piece::Cell {
    let [lane, beat, side, before, after, velocity] = words.map(u64::from);
    piece::Cell { lane, beat, side, before, after, velocity }
}

fn note(words: NoteWords) -> piece::Note {
    let [lane, start, end, velocity] = words.map(u64::from);
    piece::Note { lane, start, end, velocity }
}

/// Cells in order, and the notes that touch no line.
fn cells_and_inner_notes(
    random: &mut Random,
    measures: &Measures,
    lanes: &[u32],
) -> (Vec<CellWords>, Vec<NoteWords>) {
    let (mut cells, mut notes) = (Vec::new(), Vec::new());
    for &lane in lanes {
        for beat in 0..measures.beats {
            put_beat(random, measures, lane, beat, &mut cells, &mut notes);
        }
    }
    (cells, notes)
}

/// Memory on the far side of a line: often none, often short.
fn far_side(random: &mut Random, measures: &Measures) -> u32 {
    match random.below(4) {
        0 => 0,
        1 | 2 => random.between(1, measures.epsilon),
        _ => random.below(3 * measures.delta),
    }
}

/// One beat of a lane: a piece that fills it, or up to two pieces at its
/// lines and a note between them.
fn put_beat(
    random: &mut Random,
    measures: &Measures,
    lane: u32,
    beat: u32,
    cells: &mut Vec<CellWords>,
    notes: &mut Vec<NoteWords>,
) {
    let delta = measures.delta;
    let velocity = random.between(1, 127);
    // Of one tick, a beat can only be filled.
    if random.one_in(3) || delta == 1 {
        let (before, behind) = (far_side(random, measures), far_side(random, measures));
        cells.push([lane, beat, 0, before, behind + delta, velocity]);
        cells.push([lane, beat, 1, before + delta, behind, velocity]);
        return;
    }
    let (mut from, mut to) = (0, delta);
    if random.one_in(2) {
        from = near_side(random, measures, delta - 1);
        cells.push([lane, beat, 0, far_side(random, measures), from, velocity]);
    }
    if random.one_in(2) {
        let before = near_side(random, measures, (delta - from).min(delta - 1));
        to = delta - before;
        cells.push([lane, beat, 1, before, far_side(random, measures), velocity % 127 + 1]);
    }
    notes.extend(
        note_between(random, measures, from, to)
            .map(|(start, end)| [lane, beat * delta + start, beat * delta + end, velocity]),
    );
}

/// At times a note between two ticks of a beat, off the lines.
fn note_between(
    random: &mut Random,
    measures: &Measures,
    from: u32,
    to: u32,
) -> Option<(u32, u32)> {
    let (first, last) = (from.max(1), to.min(measures.delta - 1));
    if first >= last || random.one_in(2) {
        return None;
    }
    let start = random.between(first, last - 1);
    Some((start, random.between(start + 1, last)))
}

/// A piece's length, often shorter than ε, from 1 to `most`.
fn near_side(random: &mut Random, measures: &Measures, most: u32) -> u32 {
    match random.one_in(3) {
        true => random.between(1, most),
        false => random.between(1, measures.epsilon.min(most)),
    }
}
