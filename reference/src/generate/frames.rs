//! Lines for the cutter: mostly frames that follow its session, and a share
//! of malformed lines.

use super::calls::{self, Sizes};
use super::notes;
use crate::call::Call;
use crate::cutter::{Cutter, MOST_SESSION_WORDS};
use crate::frame::{print, put_hexadecimal, MOST_DIGITS};
use crate::random::Random;

/// An endless list of lines, the same for the same seed.
pub struct Frames {
    random: Random,
    cutter: Cutter,
    /// Lines until the next open.
    left: u32,
    sizes: Sizes,
    /// Calls that are printed before any other.
    planned: Vec<Call>,
}

impl Frames {
    pub fn new(seed: u64) -> Self {
        let sizes = Sizes { most_beats: 6, most_lanes: 4, odd: 12 };
        let random = Random::new(seed);
        Frames { random, cutter: Cutter::default(), left: 0, sizes, planned: Vec::new() }
    }

    /// A line that holds a call, and the call carried out.
    fn frame(&mut self) -> Vec<u8> {
        let call = self.call();
        let line = print(&call);
        if line.len() <= MOST_DIGITS && self.cutter.perform(&call).0 == 0 && self.random.one_in(2) {
            // The cutter shows a take by its file only.
            let shelves = written_shelves(&call).into_iter();
            self.planned.extend(shelves.map(|shelf| Call::Write { shelf }));
        }
        line
    }

    fn call(&mut self) -> Call {
        let random = &mut self.random;
        if let Some(call) = self.planned.pop() {
            return call;
        }
        if self.cutter.session().is_empty() && random.one_in(20) {
            return Call::Write { shelf: 0 };
        }
        if self.left == 0 || self.cutter.session().is_empty() {
            self.left = random.between(10, 120);
            self.sizes.most_beats = random.pick(&[3, 6, 6, 12, 40]);
            self.sizes.most_lanes = random.pick(&[1, 2, 4, 12]);
            return calls::open(random, MOST_SESSION_WORDS as u32);
        }
        self.left -= 1;
        if self.left == 0 && random.one_in(4) {
            self.planned = long_file(random);
        } else if random.one_in(40) {
            self.planned = apart_and_together(random, self.cutter.session());
        }
        match random.below(60) {
            0 => odd_open(random),
            1 => crowded(random, self.cutter.session()),
            _ => calls::next(random, self.cutter.session(), &self.sizes),
        }
    }
}

impl Iterator for Frames {
    type Item = Vec<u8>;

    fn next(&mut self) -> Option<Vec<u8>> {
        if self.random.one_in(15) {
            return Some(malformed(&mut self.random));
        }
        Some(self.frame())
    }
}

/// An open at or beyond the limits; refused ones keep the session.
fn odd_open(random: &mut Random) -> Call {
    let mut words = [10, 3, 4, 200];
    let at = random.below(4) as usize;
    let limits = [[0, 32_767, 32_768], [0, 10, 11], [0, 40, 65], [2, 2048, 1_048_577]];
    words[at] = match random.below(4) {
        0 => random.next_number() as u32,
        _ => random.pick(&limits[at]),
    };
    let [delta, epsilon, shelves, shelf_words] = words;
    Call::Open { delta, epsilon, shelves, shelf_words }
}

/// A list with as many notes as a line holds, in lanes all over.
fn crowded(random: &mut Random, session: &[u32]) -> Call {
    let measures = notes::Measures { delta: session[0], epsilon: session[1], beats: 3 };
    let mut lanes: Vec<u32> = (0..60).map(|_| random.below(2048)).collect();
    lanes.sort_unstable();
    lanes.dedup();
    let mut list = notes::list(random, &measures, &lanes);
    list.truncate(4 * 123);
    Call::Lay { shelf: random.below(session[2]), beats: 3, notes: list }
}

/// The shelves that an accepted call gives a new take.
fn written_shelves(call: &Call) -> Vec<u32> {
    match *call {
        Call::Lay { shelf, .. } | Call::Load { shelf, .. } => vec![shelf],
        Call::Split { left, right, .. } => vec![left, right],
        Call::Join { result, .. } => vec![result],
        Call::Open { .. } | Call::Write { .. } => vec![],
    }
}

/// Three in the given order, or in any.
fn some_order(random: &mut Random, given: [u32; 3]) -> [u32; 3] {
    let mut order = given;
    for place in [2, 1] {
        order.swap(place, random.below(place as u32 + 1) as usize);
    }
    if random.one_in(2) {
        given
    } else {
        order
    }
}

/// Calls, the last one first, that cut a take of three beats into its beats
/// and join them in some order; in the original order it is healed. They
/// need six shelves, and are refused where there are fewer.
fn apart_and_together(random: &mut Random, session: &[u32]) -> Vec<Call> {
    let measures = notes::Measures { delta: session[0], epsilon: session[1], beats: 3 };
    let lanes = notes::lanes(random, 4);
    let list = notes::list(random, &measures, &lanes);
    let [first, second, third] = some_order(random, [1, 3, 4]);
    let mut calls = vec![
        Call::Lay { shelf: 0, beats: 3, notes: list },
        Call::Split { take: 0, beat: 1, left: 1, right: 2 },
        Call::Split { take: 2, beat: 1, left: 3, right: 4 },
    ];
    calls.extend(match random.one_in(2) {
        true => [
            Call::Join { first, second, result: 5 },
            Call::Join { first: 5, second: third, result: 2 },
        ],
        false => [
            Call::Join { first: second, second: third, result: 5 },
            Call::Join { first, second: 5, result: 2 },
        ],
    });
    calls.extend([0, 1, 3, 4, 5, 2].map(|shelf| Call::Write { shelf }));
    calls.reverse();
    calls
}

/// Calls, the last one first, whose take doubles until its file is about as
/// long as the output.
fn long_file(random: &mut Random) -> Vec<Call> {
    let lanes = random.between(100, 123);
    // Times of one and of two bytes.
    let note = |lane: u32| [lane, 1 + 260 * lane, 1 + 260 * lane + random.pick(&[20, 130]), 9];
    let notes = (0..lanes).flat_map(note);
    let mut calls = vec![
        Call::Open { delta: 32_767, epsilon: 3, shelves: 2, shelf_words: 4094 },
        Call::Lay { shelf: 0, beats: 1, notes: notes.collect() },
    ];
    for (first, result) in [(0, 1), (1, 0), (0, 1)] {
        calls.push(Call::Join { first, second: first, result });
        calls.push(Call::Write { shelf: result });
    }
    calls.reverse();
    calls
}

/// A line that is no frame, of each kind.
fn malformed(random: &mut Random) -> Vec<u8> {
    let mut line = print(&Call::Split { take: 0, beat: 1, left: 1, right: 2 });
    let at = random.below(line.len() as u32) as usize;
    match random.below(10) {
        0 => line.clear(),
        1 => line[at] = random.pick(b"abcdefgGxX /:@`\r\t\0\x7F\x80\xFF"),
        2 => line.truncate(at | 1),
        3 => line[1] = random.pick(b"0789ABCDEF"),
        4 => line.truncate(2 + 2 * random.below(16) as usize),
        5 => put_hexadecimal(&mut line, &[0, 0, 0, 1]),
        6 => line.resize(MOST_DIGITS + random.between(1, 300) as usize, b'0'),
        7 => line = b"0200000000".to_vec(),
        8 => line.push(b'0'),
        _ => line = b"06000000".to_vec(),
    }
    line
}
