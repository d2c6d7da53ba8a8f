//! Notes, cells and pieces, as a recording or a take's cells give them.

#[derive(Clone, Copy, Debug, PartialEq, Eq, PartialOrd, Ord)]
pub struct Note {
    pub lane: u64,
    pub start: u64,
    pub end: u64,
    pub velocity: u64,
}

impl Note {
    /// Strictly between two neighbouring lines.
    pub fn touches_no_line(&self, delta: u64) -> bool {
        let beat = self.start / delta;
        beat * delta < self.start && self.end < (beat + 1) * delta
    }
}

#[derive(Clone, Copy, Debug, PartialEq, Eq)]
pub struct Cell {
    pub lane: u64,
    pub beat: u64,
    pub side: u64,
    pub before: u64,
    pub after: u64,
    pub velocity: u64,
}

/// The part of a note in one beat, with its cells at that beat's lines.
#[derive(Clone, Copy, Debug, PartialEq, Eq)]
pub struct Piece {
    pub lane: u64,
    pub beat: u64,
    pub start: u64,
    pub end: u64,
    pub velocity: u64,
    pub opening: Option<Cell>,
    pub closing: Option<Cell>,
}

impl Piece {
    pub fn cells(&self) -> impl Iterator<Item = Cell> {
        [self.opening, self.closing].into_iter().flatten()
    }

    /// The piece in another beat: moved by whole beats, its cells with only
    /// their beat changed.
    pub fn moved_to(&self, beat: u64, delta: u64) -> Piece {
        let in_beat = |tick: u64| tick - self.beat * delta + beat * delta;
        let moved = |cell: Cell| Cell { beat, ..cell };
        Piece {
            beat,
            start: in_beat(self.start),
            end: in_beat(self.end),
            opening: self.opening.map(moved),
            closing: self.closing.map(moved),
            ..*self
        }
    }

    fn overlaps(&self, other: &Piece) -> bool {
        self.lane == other.lane && self.start < other.end && other.start < self.end
    }
}

/// Whether two of the pieces share a tick of a lane.
pub fn any_overlap(pieces: &[Piece]) -> bool {
    let others = |i: usize| pieces[i + 1..].iter();
    (0..pieces.len()).any(|i| others(i).any(|other| pieces[i].overlaps(other)))
}

/// All pieces into which the beat lines cut a recording's notes.
pub fn of_recording(notes: &[Note], beats: u64, delta: u64) -> Vec<Piece> {
    let mut pieces = Vec::new();
    for note in notes {
        for beat in 0..beats {
            pieces.extend(of_note_in_beat(note, beat, delta));
        }
    }
    pieces
}

fn of_note_in_beat(note: &Note, beat: u64, delta: u64) -> Option<Piece> {
    let (opening_line, closing_line) = (beat * delta, (beat + 1) * delta);
    let start = note.start.max(opening_line);
    let end = note.end.min(closing_line);
    if start >= end {
        return None;
    }
    let cell_at = |side: u64, line: u64| Cell {
        lane: note.lane,
        beat,
        side,
        before: line - note.start,
        after: note.end - line,
        velocity: note.velocity,
    };
    Some(Piece {
        lane: note.lane,
        beat,
        start,
        end,
        velocity: note.velocity,
        opening: (start == opening_line).then(|| cell_at(0, opening_line)),
        closing: (end == closing_line).then(|| cell_at(1, closing_line)),
    })
}

/// The pieces of a take: those that its cells give and, without cells, the
/// notes that touch no line.
pub fn of_take(notes: &[Note], cells: &[Cell], delta: u64) -> Vec<Piece> {
    let mut pieces: Vec<Piece> =
        cells.iter().filter_map(|cell| of_cell(cell, cells, delta)).collect();
    for note in notes.iter().filter(|note| note.touches_no_line(delta)) {
        pieces.push(Piece {
            lane: note.lane,
            beat: note.start / delta,
            start: note.start,
            end: note.end,
            velocity: note.velocity,
            opening: None,
            closing: None,
        });
    }
    pieces
}

/// A cell's piece. One that fills its beat is given by its opening cell, and
/// by its closing cell only where no opening cell gives it.
fn of_cell(cell: &Cell, cells: &[Cell], delta: u64) -> Option<Piece> {
    let fills = match cell.side {
        0 => cell.after >= delta,
        _ => cell.before >= delta,
    };
    let other_side = |other: &&Cell| {
        let fills_too = if other.side == 0 { other.after >= delta } else { other.before >= delta };
        (other.lane, other.beat) == (cell.lane, cell.beat) && other.side != cell.side && fills_too
    };
    let partner = if fills { cells.iter().find(other_side).copied() } else { None };
    if cell.side == 1 && partner.is_some() {
        return None;
    }
    let (opening_line, closing_line) = (cell.beat * delta, (cell.beat + 1) * delta);
    let (start, end) = match cell.side {
        0 => (opening_line, opening_line + cell.after.min(delta)),
        _ => (closing_line - cell.before.min(delta), closing_line),
    };
    let (opening, closing) = match cell.side {
        0 => (Some(*cell), partner),
        _ => (None, Some(*cell)),
    };
    let Cell { lane, beat, velocity, .. } = *cell;
    Some(Piece { lane, beat, start, end, velocity, opening, closing })
}
