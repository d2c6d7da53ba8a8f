//! Soundness, clause by clause.

use super::piece::{any_overlap, of_take, Cell, Note};
use super::rules::{self, Measures};

/// The clauses that a shelf can break.
#[derive(Clone, Copy, Debug, PartialEq, Eq)]
pub enum Clause {
    /// At most 4,096 beats.
    Beats,
    /// Notes and cells fit the shelf.
    Counts,
    /// Zeros behind the cells.
    Zeros,
    NoteRange,
    /// By lane, then start; no start before the previous end in a lane.
    NoteOrder,
    CellRange,
    CellOrder,
    /// before + after ≤ 4,096 × δ.
    Memory,
    /// Side 0 has after > 0, side 1 has before > 0.
    EmptyPiece,
    /// Pieces and the notes touching no line overlap.
    Overlap,
    /// An opening cell with after ≥ δ lacks its partner.
    OpeningPartner,
    /// A closing cell with before ≥ δ lacks its partner.
    ClosingPartner,
    /// The notes at lines are not those that the rules give.
    NotesAtLines,
}

/// A take as a shelf's words give it.
#[derive(Clone, Debug)]
pub struct Take {
    pub beats: u64,
    pub notes: Vec<Note>,
    pub cells: Vec<Cell>,
}

/// Reads the words up to the zeros, or none if they do not fit the shelf.
pub fn read(shelf: &[u32]) -> Option<Take> {
    let words: Vec<u64> = shelf.iter().map(|&word| word.into()).collect();
    let (beats, notes, cells) = (words[0], words[1], words[2]);
    let behind_notes = 3 + 4 * notes;
    if behind_notes + 6 * cells > words.len() as u64 {
        return None;
    }
    Some(Take {
        beats,
        notes: (0..notes).map(|i| note(&words[(3 + 4 * i) as usize..])).collect(),
        cells: (0..cells).map(|i| cell(&words[(behind_notes + 6 * i) as usize..])).collect(),
    })
}

/// The note of the first words.
fn note(words: &[u64]) -> Note {
    Note { lane: words[0], start: words[1], end: words[2], velocity: words[3] }
}

/// The cell of the first words.
fn cell(words: &[u64]) -> Cell {
    Cell {
        lane: words[0],
        beat: words[1],
        side: words[2],
        before: words[3],
        after: words[4],
        velocity: words[5],
    }
}

/// A sound shelf's take.
pub fn sound_take(shelf: &[u32], measures: &Measures) -> Option<Take> {
    if broken(shelf, measures).is_empty() {
        read(shelf)
    } else {
        None
    }
}

/// The clauses that a shelf breaks. Where cells are out of range, what they
/// would give is not asked.
pub fn broken(shelf: &[u32], measures: &Measures) -> Vec<Clause> {
    let Some(take) = read(shelf) else {
        return vec![Clause::Counts];
    };
    let delta = measures.delta;
    let used = 3 + 4 * take.notes.len() + 6 * take.cells.len();
    let mut clauses = vec![
        (Clause::Beats, take.beats <= 4096),
        (Clause::Zeros, shelf[used..].iter().all(|&word| word == 0)),
        (Clause::NoteRange, take.notes.iter().all(|note| note_in_range(note, take.beats * delta))),
        (Clause::NoteOrder, notes_in_order(&take.notes)),
        (Clause::CellRange, take.cells.iter().all(|cell| cell_in_range(cell, take.beats))),
        (Clause::CellOrder, cells_in_order(&take.cells)),
        (Clause::Memory, take.cells.iter().all(|cell| cell.before + cell.after <= 4096 * delta)),
        (Clause::EmptyPiece, take.cells.iter().all(not_empty)),
    ];
    if !clauses.contains(&(Clause::CellRange, false)) {
        clauses.extend(at_lines(&take, measures));
    }
    clauses.into_iter().filter(|&(_, holds)| !holds).map(|(clause, _)| clause).collect()
}

/// The clauses of the pieces and the notes that the cells give.
fn at_lines(take: &Take, measures: &Measures) -> [(Clause, bool); 4] {
    let delta = measures.delta;
    let mut pieces = of_take(&take.notes, &take.cells, delta);
    let apart = !any_overlap(&pieces);
    pieces.retain(|piece| piece.cells().count() > 0);
    let at_lines = take.notes.iter().filter(|note| !note.touches_no_line(delta)).copied();
    let given = rules::notes(&pieces, measures.epsilon);
    [
        (Clause::Overlap, apart),
        (Clause::OpeningPartner, openings_have_partners(&take.cells, delta)),
        (Clause::ClosingPartner, closings_have_partners(&take.cells, delta)),
        (Clause::NotesAtLines, at_lines.collect::<Vec<Note>>() == given),
    ]
}

pub fn note_in_range(note: &Note, end: u64) -> bool {
    note.lane < 2048
        && note.start < note.end
        && note.end <= end
        && note.velocity >= 1
        && note.velocity <= 127
}

pub fn notes_in_order(notes: &[Note]) -> bool {
    let by_start = notes.is_sorted_by_key(|note| (note.lane, note.start));
    let apart = |pair: &[Note]| pair[0].lane != pair[1].lane || pair[0].end <= pair[1].start;
    by_start && notes.windows(2).all(apart)
}

fn cell_in_range(cell: &Cell, beats: u64) -> bool {
    cell.lane < 2048
        && cell.beat < beats
        && cell.side <= 1
        && cell.velocity >= 1
        && cell.velocity <= 127
}

fn cells_in_order(cells: &[Cell]) -> bool {
    let triple = |cell: &Cell| (cell.lane, cell.beat, cell.side);
    cells.windows(2).all(|pair| triple(&pair[0]) < triple(&pair[1]))
}

fn not_empty(cell: &Cell) -> bool {
    match cell.side {
        0 => cell.after > 0,
        _ => cell.before > 0,
    }
}

fn openings_have_partners(cells: &[Cell], delta: u64) -> bool {
    let filling = cells.iter().filter(|cell| cell.side == 0 && cell.after >= delta);
    let partner = |cell: &Cell| Cell {
        side: 1,
        before: cell.before + delta,
        after: cell.after - delta,
        ..*cell
    };
    filling.into_iter().all(|cell| cells.contains(&partner(cell)))
}

fn closings_have_partners(cells: &[Cell], delta: u64) -> bool {
    let filling = cells.iter().filter(|cell| cell.side == 1 && cell.before >= delta);
    let partner = |cell: &Cell| Cell {
        side: 0,
        before: cell.before - delta,
        after: cell.after + delta,
        ..*cell
    };
    filling.into_iter().all(|cell| cells.contains(&partner(cell)))
}
