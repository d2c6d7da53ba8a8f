//! Calls that follow a session's state, so that most of them are accepted.

use super::files;
use super::notes::{self, Measures};
use crate::call::Call;
use crate::random::Random;

/// Limits of what is generated.
#[derive(Clone, Copy)]
pub struct Sizes {
    pub most_beats: u32,
    pub most_lanes: u32,
    /// One call in so many gets an argument that is wrong or odd.
    pub odd: u32,
}

/// Arguments of an open whose session has at most `most_words` words.
pub fn open(random: &mut Random, most_words: u32) -> Call {
    let delta = match random.below(8) {
        0 => random.pick(&[1, 2, 480, 32_767]),
        _ => random.between(3, 12),
    };
    let epsilon = match random.below(4) {
        0 => random.pick(&[1, delta]),
        _ => random.between(1, delta.min(6)),
    };
    let shelves = random.between(3, 8);
    let most = (most_words - 4) / shelves;
    let shelf_words = match random.below(4) {
        0 => random.between(3, most.min(100)),
        _ => most - random.below(most / 3),
    };
    Call::Open { delta, epsilon, shelves, shelf_words }
}

/// A call for a session that was opened.
pub fn next(random: &mut Random, session: &[u32], sizes: &Sizes) -> Call {
    match random.below(16) {
        0..=2 => lay(random, session, sizes),
        3..=7 => split(random, session, sizes),
        8..=12 => join(random, session, sizes),
        13 => Call::Write { shelf: shelf(random, session, sizes) },
        _ => load(random, session, sizes),
    }
}

fn shelf(random: &mut Random, session: &[u32], sizes: &Sizes) -> u32 {
    match random.one_in(3 * sizes.odd) {
        true => random.pick(&[session[2], 64, u32::MAX]),
        false => random.below(session[2]),
    }
}

/// A shelf's beats; 0 for a shelf number that is none.
fn beats(session: &[u32], shelf: u32) -> u32 {
    let at = 4 + u64::from(shelf) * u64::from(session[3]);
    usize::try_from(at).ok().and_then(|at| session.get(at)).copied().unwrap_or(0)
}

/// Shelves other than the named ones.
fn other_shelf(random: &mut Random, session: &[u32], sizes: &Sizes, named: &[u32]) -> u32 {
    for _ in 0..20 {
        let number = shelf(random, session, sizes);
        if !named.contains(&number) || random.one_in(2 * sizes.odd) {
            return number;
        }
    }
    0
}

fn measures(random: &mut Random, session: &[u32], sizes: &Sizes) -> Measures {
    let beats = random.below(sizes.most_beats + 1);
    Measures { delta: session[0], epsilon: session[1], beats }
}

fn lay(random: &mut Random, session: &[u32], sizes: &Sizes) -> Call {
    let shelf = shelf(random, session, sizes);
    let measures = measures(random, session, sizes);
    let lanes = notes::lanes(random, sizes.most_lanes);
    let mut notes = notes::list(random, &measures, &lanes);
    if random.one_in(sizes.odd) {
        notes::damage(random, &mut notes);
    }
    let beats = match random.one_in(3 * sizes.odd) {
        true => random.pick(&[0, 4096, 4097, u32::MAX, measures.beats + 1]),
        false => measures.beats,
    };
    Call::Lay { shelf, beats, notes }
}

fn split(random: &mut Random, session: &[u32], sizes: &Sizes) -> Call {
    let mut take = shelf(random, session, sizes);
    // Empty takes are split now and then, but not most of the time.
    for _ in 0..4 {
        if beats(session, take) < 2 && !random.one_in(sizes.odd) {
            take = shelf(random, session, sizes);
        }
    }
    let n = beats(session, take).min(u32::MAX - 2);
    let beat = match random.one_in(sizes.odd) {
        true => random.pick(&[0, n, n + 1, u32::MAX]),
        false => random.below(n + 1),
    };
    let left = other_shelf(random, session, sizes, &[take]);
    let right = other_shelf(random, session, sizes, &[take, left]);
    Call::Split { take, beat, left, right }
}

fn join(random: &mut Random, session: &[u32], sizes: &Sizes) -> Call {
    let (mut first, mut second) = (0, 0);
    for _ in 0..6 {
        first = shelf(random, session, sizes);
        second = shelf(random, session, sizes);
        let sum = u64::from(beats(session, first)) + u64::from(beats(session, second));
        // Keeps takes from growing without end.
        if sum > 0 && sum <= 3 * u64::from(sizes.most_beats) {
            break;
        }
    }
    let result = other_shelf(random, session, sizes, &[first, second]);
    Call::Join { first, second, result }
}

fn load(random: &mut Random, session: &[u32], sizes: &Sizes) -> Call {
    let shelf = shelf(random, session, sizes);
    let mut file = match random.one_in(3) {
        true => written(session, random.below(session[2])),
        false => {
            let measures = measures(random, session, sizes);
            let lanes = notes::lanes(random, sizes.most_lanes);
            let mut list = notes::list(random, &measures, &lanes);
            let last_end = list.chunks_exact(4).map(|note| note[2]).max().unwrap_or(0);
            let mut end = random.between(last_end, measures.beats * measures.delta);
            if random.one_in(2 * sizes.odd) {
                end = 4096 * measures.delta + random.below(2);
            }
            if random.one_in(2 * sizes.odd) && !list.is_empty() {
                // The same note twice: its lane is not silent the second time.
                list.extend_from_within(..4);
            }
            files::file(random, measures.delta, &list, end)
        }
    };
    if random.one_in(sizes.odd.min(4)) {
        files::damage(random, &mut file);
    }
    Call::Load { shelf, file }
}

/// A shelf's own file, or no bytes if it is not sound.
fn written(session: &[u32], shelf: u32) -> Vec<u8> {
    let mut file = vec![0; 32 + 16 * session.len()];
    let mut count = 0;
    crate::write(session, shelf, &mut file, &mut count);
    file.truncate(count as usize);
    file
}
