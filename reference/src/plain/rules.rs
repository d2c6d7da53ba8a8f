//! The rules: which cells stand alone, which are bound, which pieces are
//! hidden, and the notes and words that a take's pieces give.

use super::piece::{Cell, Note, Piece};
use std::collections::BTreeMap;

/// δ, ε and W as plain numbers.
#[derive(Clone, Copy, Debug)]
pub struct Measures {
    pub delta: u64,
    pub epsilon: u64,
    pub shelf_words: u64,
}

fn stands_alone(cell: &Cell, epsilon: u64) -> bool {
    if cell.side == 1 {
        cell.before >= epsilon || cell.after == 0
    } else {
        cell.after >= epsilon || cell.before == 0
    }
}

/// The left beat's side 1 cell and the right beat's side 0 cell of one lane.
fn are_bound(left: Option<&Cell>, right: Option<&Cell>, epsilon: u64) -> bool {
    let (Some(left), Some(right)) = (left, right) else {
        return false;
    };
    let alone = [left, right].iter().filter(|cell| stands_alone(cell, epsilon)).count();
    if alone == 2 {
        left.after > 0 && right.before > 0
    } else if alone == 1 {
        true
    } else {
        let same_memory = left.before == right.before && left.after == right.after;
        same_memory || left.before + right.after >= epsilon
    }
}

/// All cells of a take by lane, beat and side.
struct Lines {
    cells: BTreeMap<(u64, u64, u64), Cell>,
    epsilon: u64,
}

impl Lines {
    fn new(pieces: &[Piece], epsilon: u64) -> Self {
        let cells = pieces.iter().flat_map(Piece::cells);
        let by_place = cells.map(|cell| ((cell.lane, cell.beat, cell.side), cell));
        Lines { cells: by_place.collect(), epsilon }
    }

    /// Whether the cells at a lane's line between this beat and the next are bound.
    fn bound_behind(&self, lane: u64, beat: u64) -> bool {
        let left = self.cells.get(&(lane, beat, 1));
        let right = self.cells.get(&(lane, beat + 1, 0));
        are_bound(left, right, self.epsilon)
    }

    fn is_bound(&self, cell: &Cell) -> bool {
        match cell.side {
            1 => self.bound_behind(cell.lane, cell.beat),
            _ => cell.beat > 0 && self.bound_behind(cell.lane, cell.beat - 1),
        }
    }

    fn is_hidden(&self, piece: &Piece) -> bool {
        piece.cells().any(|cell| !stands_alone(&cell, self.epsilon) && !self.is_bound(&cell))
    }

    /// Whether one piece is bound to another: the first reaches the line
    /// between their beats, the second starts there, and the cells are bound.
    fn binds(&self, piece: &Piece, next: &Piece) -> bool {
        piece.lane == next.lane
            && piece.beat + 1 == next.beat
            && piece.closing.is_some()
            && next.opening.is_some()
            && self.bound_behind(piece.lane, piece.beat)
    }
}

/// The take's notes: longest runs of shown pieces, each bound to the next.
pub fn notes(pieces: &[Piece], epsilon: u64) -> Vec<Note> {
    let lines = Lines::new(pieces, epsilon);
    let mut shown: Vec<&Piece> = pieces.iter().filter(|piece| !lines.is_hidden(piece)).collect();
    shown.sort_by_key(|piece| (piece.lane, piece.start));
    let mut notes: Vec<Note> = Vec::new();
    for (place, piece) in shown.iter().enumerate() {
        if place > 0 && lines.binds(shown[place - 1], piece) {
            if let Some(run) = notes.last_mut() {
                run.end = piece.end;
            }
        } else {
            let Piece { lane, start, end, velocity, .. } = **piece;
            notes.push(Note { lane, start, end, velocity });
        }
    }
    notes
}

/// All cells in their order: those of hidden pieces too.
pub fn cells(pieces: &[Piece]) -> Vec<Cell> {
    let mut cells: Vec<Cell> = pieces.iter().flat_map(Piece::cells).collect();
    cells.sort_by_key(|cell| (cell.lane, cell.beat, cell.side));
    cells
}

/// A shelf's words, or none if they do not fit it.
pub fn words(beats: u64, pieces: &[Piece], measures: &Measures) -> Option<Vec<u32>> {
    let notes = notes(pieces, measures.epsilon);
    let cells = cells(pieces);
    let mut words = vec![beats, notes.len() as u64, cells.len() as u64];
    for note in &notes {
        words.extend([note.lane, note.start, note.end, note.velocity]);
    }
    for cell in &cells {
        words.extend([cell.lane, cell.beat, cell.side, cell.before, cell.after, cell.velocity]);
    }
    if words.len() as u64 > measures.shelf_words {
        return None;
    }
    words.resize(measures.shelf_words as usize, 0);
    // Every word of a take is in a word's range; another would be a mistake here.
    Some(words.into_iter().map(|word| u32::try_from(word).expect("a 32-bit word")).collect())
}
