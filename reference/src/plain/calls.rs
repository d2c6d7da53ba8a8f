//! Every call on the session's words, with its questions in printed order.

use super::file;
use super::machine::notes_of_list;
use super::piece::{of_recording, of_take, Note, Piece};
use super::rules::{words, Measures};
use super::sound::{note_in_range, notes_in_order, sound_take, Take};
use crate::call::Call;

/// All that a call leaves behind.
#[derive(Clone, Debug, PartialEq, Eq)]
pub struct Outcome {
    pub number: u32,
    pub session: Vec<u32>,
    pub output: Vec<u8>,
    pub count: u64,
}

/// What an accepted call changes.
enum Change {
    WholeSession(Vec<u32>),
    Shelves(Vec<(u32, Vec<u32>)>),
    File(Vec<u8>),
}

/// Carries a call out on copies of the session and the output.
pub fn perform(call: &Call, session: &[u32], output: &[u8]) -> Outcome {
    let (session, output) = (session.to_vec(), output.to_vec());
    let mut outcome = Outcome { number: 0, session, output, count: 0 };
    match decide(call, &outcome.session, outcome.output.len()) {
        Err(number) => outcome.number = number,
        Ok(Change::WholeSession(words)) => outcome.session = words,
        Ok(Change::Shelves(shelves)) => {
            for (number, words) in shelves {
                let from = 4 + number as usize * words.len();
                outcome.session.splice(from..from + words.len(), words);
            }
        }
        Ok(Change::File(bytes)) => {
            outcome.count = bytes.len() as u64;
            outcome.output.splice(..bytes.len(), bytes);
        }
    }
    outcome
}

fn decide(call: &Call, session: &[u32], room: usize) -> Result<Change, u32> {
    if let Call::Open { delta, epsilon, shelves, shelf_words } = *call {
        return open(&[delta, epsilon, shelves, shelf_words], session.len());
    }
    if session.len() < 4 || !header_right(&session[..4], session.len()) {
        return Err(1);
    }
    if shelf_numbers(call).iter().any(|&number| number >= session[2]) {
        return Err(2);
    }
    if !written_differ(call) {
        return Err(3);
    }
    decide_on_shelves(call, &Shelves::new(session), room)
}

/// The shelves of a session that has passed question 1.
struct Shelves<'a> {
    words: &'a [u32],
    measures: Measures,
}

impl<'a> Shelves<'a> {
    fn new(session: &'a [u32]) -> Self {
        let [delta, epsilon, shelf_words] = [0, 1, 3].map(|i: usize| u64::from(session[i]));
        Shelves { words: &session[4..], measures: Measures { delta, epsilon, shelf_words } }
    }

    /// Question 4 for one shelf.
    fn sound(&self, number: u32) -> Result<Take, u32> {
        let length = self.measures.shelf_words as usize;
        let from = number as usize * length;
        sound_take(&self.words[from..from + length], &self.measures).ok_or(4)
    }
}

fn decide_on_shelves(call: &Call, shelves: &Shelves, room: usize) -> Result<Change, u32> {
    let measures = &shelves.measures;
    match *call {
        Call::Open { .. } => Err(1),
        Call::Lay { shelf, beats, ref notes } => lay(shelf, beats, notes, measures),
        Call::Load { shelf, ref file } => {
            let (beats, notes) = file::read(file, measures.delta)?;
            record(shelf, beats, &notes, measures)
        }
        Call::Split { take, beat, left, right } => {
            split(&shelves.sound(take)?, beat.into(), [left, right], measures)
        }
        Call::Join { first, second, result } => {
            join(&shelves.sound(first)?, &shelves.sound(second)?, result, measures)
        }
        Call::Write { shelf } => {
            let take = shelves.sound(shelf)?;
            let bytes = file::written(take.beats, &take.notes, measures.delta);
            if bytes.len() > room {
                Err(15)
            } else {
                Ok(Change::File(bytes))
            }
        }
    }
}

/// Question 3: each written shelf differs from the other named ones.
fn written_differ(call: &Call) -> bool {
    match *call {
        Call::Split { take, left, right, .. } => take != left && take != right && left != right,
        Call::Join { first, second, result } => result != first && result != second,
        _ => true,
    }
}

fn header_right(words: &[u32], length: usize) -> bool {
    let [delta, epsilon, shelves, shelf_words] = [0, 1, 2, 3].map(|i| u128::from(words[i]));
    (1..=32_767).contains(&delta)
        && (1..=delta).contains(&epsilon)
        && (1..=64).contains(&shelves)
        && (3..=1_048_576).contains(&shelf_words)
        && 4 + shelves * shelf_words == length as u128
}

fn shelf_numbers(call: &Call) -> Vec<u32> {
    match *call {
        Call::Open { .. } => vec![],
        Call::Lay { shelf, .. } | Call::Load { shelf, .. } | Call::Write { shelf } => vec![shelf],
        Call::Split { take, left, right, .. } => vec![take, left, right],
        Call::Join { first, second, result } => vec![first, second, result],
    }
}

fn open(words: &[u32; 4], length: usize) -> Result<Change, u32> {
    if !header_right(words, length) {
        return Err(1);
    }
    let mut session = vec![0; length];
    session[..4].copy_from_slice(words);
    Ok(Change::WholeSession(session))
}

fn lay(shelf: u32, beats: u32, list: &[u32], measures: &Measures) -> Result<Change, u32> {
    if beats > 4096 {
        return Err(6);
    }
    if !list.len().is_multiple_of(4) {
        return Err(7);
    }
    let notes = notes_of_list(list);
    let end = u64::from(beats) * measures.delta;
    if !notes.iter().all(|note| note_in_range(note, end)) || !notes_in_order(&notes) {
        return Err(7);
    }
    record(shelf, beats.into(), &notes, measures)
}

fn record(shelf: u32, beats: u64, notes: &[Note], measures: &Measures) -> Result<Change, u32> {
    let pieces = of_recording(notes, beats, measures.delta);
    let result = words(beats, &pieces, measures).ok_or(8u32)?;
    Ok(Change::Shelves(vec![(shelf, result)]))
}

fn split(take: &Take, beat: u64, shelves: [u32; 2], measures: &Measures) -> Result<Change, u32> {
    if beat > take.beats {
        return Err(5);
    }
    let delta = measures.delta;
    let pieces = of_take(&take.notes, &take.cells, delta);
    let (left, right): (Vec<Piece>, Vec<Piece>) =
        pieces.into_iter().partition(|piece| piece.beat < beat);
    let right: Vec<Piece> =
        right.iter().map(|piece| piece.moved_to(piece.beat - beat, delta)).collect();
    let left = words(beat, &left, measures).ok_or(8u32)?;
    let right = words(take.beats - beat, &right, measures).ok_or(8u32)?;
    Ok(Change::Shelves(vec![(shelves[0], left), (shelves[1], right)]))
}

fn join(first: &Take, second: &Take, result: u32, measures: &Measures) -> Result<Change, u32> {
    let beats = first.beats + second.beats;
    if beats > 4096 {
        return Err(6);
    }
    let delta = measures.delta;
    let mut pieces = of_take(&first.notes, &first.cells, delta);
    let behind = of_take(&second.notes, &second.cells, delta);
    pieces.extend(behind.iter().map(|piece| piece.moved_to(piece.beat + first.beats, delta)));
    let result_words = words(beats, &pieces, measures).ok_or(8u32)?;
    Ok(Change::Shelves(vec![(result, result_words)]))
}
