//! The notes that the rules give from a take's cells.

use crate::cell::{bound, place_of, stands_alone, Cell, Note};

/// Goes once through cells in order and gives each longest run of shown and
/// bound pieces as a note. The cells must be in range, in order and have the
/// partners that soundness asks for.
pub struct Runs<'a> {
    cells: &'a [Cell],
    at: usize,
    delta: u32,
    epsilon: u32,
}

impl<'a> Runs<'a> {
    pub fn new(cells: &'a [Cell], delta: u32, epsilon: u32) -> Self {
        Runs { cells, at: 0, delta, epsilon }
    }

    /// The cells not yet passed.
    pub fn left(&self) -> &'a [Cell] {
        &self.cells[self.at..]
    }

    /// The cell behind `closing`, if it opens the next beat in the same lane
    /// and is bound to it. One more than a closing cell's place is that place.
    fn continues(&self, closing: &Cell) -> bool {
        self.cells.get(self.at).is_some_and(|opening| {
            place_of(opening) == place_of(closing) + 1 && bound(closing, opening, self.epsilon)
        })
    }

    /// Steps from a piece's closing cell, which is passed already, to the
    /// end of its run and gives that end.
    fn follow(&mut self, mut closing: &'a Cell) -> u32 {
        while self.continues(closing) {
            let opening = &self.cells[self.at];
            self.at += 1;
            if opening[4] < self.delta {
                return opening[1] * self.delta + opening[4];
            }
            // The piece fills its beat: its closing cell comes next.
            closing = &self.cells[self.at];
            self.at += 1;
        }
        (closing[1] + 1) * self.delta
    }

    /// The run that begins with an opening cell. A bound opening cell never
    /// comes here, because its run has passed it.
    fn opening_run(&mut self, cell: &Cell) -> Option<Note> {
        let [lane, beat, _, _, after, velocity] = *cell;
        let start = beat * self.delta;
        if after >= self.delta {
            let closing = &self.cells[self.at];
            self.at += 1;
            return Some([lane, start, self.follow(closing), velocity]);
        }
        stands_alone(cell, self.epsilon).then_some([lane, start, start + after, velocity])
    }

    /// The run that begins with a closing cell whose piece starts in its beat.
    fn closing_run(&mut self, cell: &'a Cell) -> Option<Note> {
        let [lane, beat, _, before, _, velocity] = *cell;
        let line = (beat + 1) * self.delta;
        if !stands_alone(cell, self.epsilon) && !self.continues(cell) {
            return None;
        }
        Some([lane, line - before, self.follow(cell), velocity])
    }
}

impl Iterator for Runs<'_> {
    type Item = Note;

    fn next(&mut self) -> Option<Note> {
        loop {
            let cell = self.cells.get(self.at)?;
            self.at += 1;
            let run = match cell[2] {
                0 => self.opening_run(cell),
                _ => self.closing_run(cell),
            };
            if run.is_some() {
                return run;
            }
        }
    }
}
