//! The calls that are timed, by the proved code and by the second
//! implementation, and what they are held against.

use crate::engine;
use crate::recording::{most_file_bytes, Recording};
use reference::random::Random;
use std::hint::black_box;
use std::time::Instant;

/// The names of the rows of one recording.
pub const NAMES: [&str; 6] = ["lay", "split", "join", "load", "write", "300 cuts"];

/// How many cuts a run of cuts has.
const CUTS: usize = 300;

/// What is timed at once.
#[derive(Clone, Copy, Debug)]
pub enum Call {
    Lay,
    Split,
    Join,
    Load,
    Write,
    /// Takes the beats between two out of the recording.
    Cut(u32, u32),
}

impl Call {
    /// What is timed for each row. A run of cuts takes random beats out of the recording, one cut after the other.
    pub fn rows(recording: &Recording) -> [Vec<Call>; 6] {
        let mut random = Random::new(u64::from(recording.beats));
        let cut = |_| {
            let second = random.below(recording.beats + 1);
            Call::Cut(random.below(second + 1), second)
        };
        let cuts = (0..CUTS).map(cut).collect();
        let [lay, split, join, load, write] =
            [Call::Lay, Call::Split, Call::Join, Call::Load, Call::Write].map(|call| vec![call]);
        [lay, split, join, load, write, cuts]
    }

    /// How many calls it makes: a cut is two splits and a join.
    pub fn calls(self) -> usize {
        match self {
            Call::Cut(..) => 3,
            _ => 1,
        }
    }

    /// The shelves that it writes, each with one that it reads or whose notes it gets.
    fn shelves(self) -> &'static [(usize, usize)] {
        match self {
            Call::Lay | Call::Load => &[(0, 3)],
            Call::Split => &[(0, 1), (0, 2)],
            Call::Join => &[(1, 3)],
            Call::Write => &[],
            Call::Cut(..) => &[(0, 1), (0, 2), (1, 3), (1, 4), (3, 5)],
        }
    }
}

/// Who does it.
#[derive(Clone, Copy, PartialEq)]
pub enum Side {
    Proved,
    Second,
    /// Nobody: as many words are copied to where the call writes.
    Copy,
    /// Nobody: the words that the call writes are set to zero.
    Zeros,
}

impl Side {
    pub const ALL: [Side; 4] = [Side::Proved, Side::Second, Side::Copy, Side::Zeros];
}

/// A session and an output of one side.
pub struct Place {
    pub session: Vec<u32>,
    pub output: Vec<u8>,
}

impl Place {
    pub fn new(recording: &Recording) -> Self {
        let output = vec![0; most_file_bytes(&recording.list)];
        Place { session: recording.session.clone(), output }
    }

    /// Carries a call out; every one is accepted.
    fn call(&mut self, call: Call, side: Side, recording: &Recording) {
        let (session, output) = (&mut self.session[..], &mut self.output[..]);
        let half = recording.beats / 2;
        let mut count = 0;
        let number = match (call, side == Side::Proved) {
            (Call::Lay, true) => engine::lay(session, 3, recording.beats, &recording.list),
            (Call::Lay, false) => reference::lay(session, 3, recording.beats, &recording.list),
            (Call::Split, true) => engine::split(session, 0, half, 1, 2),
            (Call::Split, false) => reference::split(session, 0, half, 1, 2),
            (Call::Join, true) => engine::join(session, 1, 2, 3),
            (Call::Join, false) => reference::join(session, 1, 2, 3),
            (Call::Load, true) => engine::load(session, 3, &recording.file),
            (Call::Load, false) => reference::load(session, 3, &recording.file),
            (Call::Write, true) => engine::write(session, 0, output, &mut count),
            (Call::Write, false) => reference::write(session, 0, output, &mut count),
            (Call::Cut(first, second), _) => self.cut(side, first, second),
        };
        assert_eq!(number, 0, "{call:?} is accepted");
    }

    /// Splits at the second beat, splits the left part at the first, and joins; the greatest of their numbers.
    fn cut(&mut self, side: Side, first: u32, second: u32) -> u32 {
        let session = &mut self.session[..];
        let numbers = match side {
            Side::Proved => [
                engine::split(session, 0, second, 1, 2),
                engine::split(session, 1, first, 3, 4),
                engine::join(session, 3, 2, 5),
            ],
            _ => [
                reference::split(session, 0, second, 1, 2),
                reference::split(session, 1, first, 3, 4),
                reference::join(session, 3, 2, 5),
            ],
        };
        numbers.into_iter().fold(0, u32::max)
    }

    /// Sets to zero what a call writes, or copies as many words or bytes there.
    fn fill(&mut self, call: Call, side: Side, recording: &Recording) {
        if let Call::Write = call {
            let output = &mut self.output[..recording.file.len()];
            match side {
                Side::Copy => black_box(output).copy_from_slice(black_box(&recording.file)),
                _ => black_box(output).fill(0),
            }
        }
        let words = recording.shelf_words();
        for &(from, to) in call.shelves() {
            let (read, written) = self.session[4..].split_at_mut(to * words);
            let (read, written) = (&read[from * words..][..words], &mut written[..words]);
            match side {
                Side::Copy => black_box(written).copy_from_slice(black_box(read)),
                _ => black_box(written).fill(0),
            }
        }
    }
}

/// The seconds of so many runs of a call by one side.
pub fn time(call: Call, side: Side, runs: u32, recording: &Recording, place: &mut Place) -> f64 {
    let start = Instant::now();
    for _ in 0..runs {
        match side {
            Side::Proved | Side::Second => place.call(call, side, recording),
            Side::Copy | Side::Zeros => place.fill(call, side, recording),
        }
    }
    start.elapsed().as_secs_f64() / f64::from(runs)
}
