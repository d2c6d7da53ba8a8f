//! The plain machine: recordings, and for each shelf its history. It is fed
//! a call's arguments and number and never sees the session's words.

use super::file;
use super::piece::{of_recording, Note, Piece};
use super::rules::{self, Measures};
use crate::call::Call;

/// The pieces of each beat of a recording, and its notes for comparison.
pub struct Recording {
    pub beats: u64,
    pub notes: Vec<Note>,
    pieces: Vec<Vec<Piece>>,
}

pub struct Machine {
    measures: Measures,
    pub recordings: Vec<Recording>,
    /// For each shelf its pairs (recording, beat).
    pub histories: Vec<Vec<(usize, u64)>>,
}

impl Machine {
    /// After an accepted open.
    pub fn new(delta: u32, epsilon: u32, shelves: u32, shelf_words: u32) -> Self {
        let measures = Measures {
            delta: delta.into(),
            epsilon: epsilon.into(),
            shelf_words: shelf_words.into(),
        };
        Machine { measures, recordings: Vec::new(), histories: vec![Vec::new(); shelves as usize] }
    }

    /// Follows a call. One with a number above 0 changes nothing.
    pub fn follow(&mut self, call: &Call, number: u32) {
        if number > 0 {
            return;
        }
        match *call {
            Call::Open { delta, epsilon, shelves, shelf_words } => {
                *self = Machine::new(delta, epsilon, shelves, shelf_words);
            }
            Call::Lay { shelf, beats, ref notes } => {
                self.record(shelf, beats.into(), notes_of_list(notes));
            }
            Call::Load { shelf, ref file } => self.load(shelf, file),
            Call::Split { take, beat, left, right } => {
                let mut before = self.history(take).to_vec();
                self.histories[right as usize] = before.split_off(beat as usize);
                self.histories[left as usize] = before;
            }
            Call::Join { first, second, result } => {
                self.histories[result as usize] =
                    [self.history(first), self.history(second)].concat();
            }
            Call::Write { .. } => {}
        }
    }

    fn history(&self, shelf: u32) -> &[(usize, u64)] {
        &self.histories[shelf as usize]
    }

    fn load(&mut self, shelf: u32, file: &[u8]) {
        let read = file::read(file, self.measures.delta);
        let (beats, notes) = read.expect("an accepted file is read");
        self.record(shelf, beats, notes);
    }

    fn record(&mut self, shelf: u32, beats: u64, notes: Vec<Note>) {
        let number = self.recordings.len();
        self.histories[shelf as usize] = (0..beats).map(|beat| (number, beat)).collect();
        let mut pieces = vec![Vec::new(); beats as usize];
        for piece in of_recording(&notes, beats, self.measures.delta) {
            pieces[piece.beat as usize].push(piece);
        }
        self.recordings.push(Recording { beats, notes, pieces });
    }

    /// The W words that a shelf's history gives.
    pub fn words(&self, shelf: usize) -> Vec<u32> {
        self.words_of(&self.histories[shelf]).expect("an accepted call's result fits")
    }

    /// The words that any history gives, or none if they do not fit.
    pub fn words_of(&self, history: &[(usize, u64)]) -> Option<Vec<u32>> {
        let mut pieces = Vec::new();
        for (place, &(recording, beat)) in (0..).zip(history) {
            let own = &self.recordings[recording].pieces[beat as usize];
            pieces.extend(own.iter().map(|piece| piece.moved_to(place, self.measures.delta)));
        }
        rules::words(history.len() as u64, &pieces, &self.measures)
    }
}

/// The notes of an accepted list.
pub fn notes_of_list(list: &[u32]) -> Vec<Note> {
    let whole = list.chunks(4).map(|words| words.iter().map(|&word| u64::from(word)).collect());
    whole
        .map(|words: Vec<u64>| Note {
            lane: words[0],
            start: words[1],
            end: words[2],
            velocity: words[3],
        })
        .collect()
}
