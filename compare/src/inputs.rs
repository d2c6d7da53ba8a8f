//! Arguments of calls: legal ones, ones at the limits, and damaged ones.

use reference::generate::notes::{self, Measures};
use reference::random::Random;

/// δ, ε, K, W, mostly in range.
pub fn header(random: &mut Random) -> [u32; 4] {
    let delta = match random.below(12) {
        0 => random.pick(&[0, 32_767, 32_768, u32::MAX]),
        _ => random.pick(&[1, 2, 3, 10, 96, 480]),
    };
    let epsilon = match random.below(12) {
        0 => random.pick(&[0, delta, delta.wrapping_add(1), u32::MAX]),
        _ => random.between(1, delta.clamp(1, 32_767)),
    };
    let shelves = match random.below(12) {
        0 => random.pick(&[0, 64, 65, u32::MAX]),
        _ => random.between(1, 4),
    };
    let shelf_words = match random.below(12) {
        0 => random.pick(&[0, 2, 3, 1_048_577, u32::MAX]),
        _ => random.between(3, 400),
    };
    [delta, epsilon, shelves, shelf_words]
}

/// A session's length for these words: mostly exact, sometimes that of a
/// product that wraps, sometimes too short for a header. A length that is too
/// large to try is cut.
pub fn length(random: &mut Random, header: [u32; 4]) -> usize {
    let exact = 4 + u64::from(header[2]) * u64::from(header[3]);
    let length = match random.below(16) {
        0 => exact + 1,
        1 => exact - 1,
        2 => u64::from(4u32.wrapping_add(header[2].wrapping_mul(header[3]))),
        3 => u64::from(random.below(6)),
        _ => exact,
    };
    length.min(70_000) as usize
}

pub fn words(random: &mut Random, length: usize) -> Vec<u32> {
    (0..length).map(|_| random.next_number() as u32).collect()
}

pub fn beats(random: &mut Random) -> u32 {
    match random.below(16) {
        0 => random.pick(&[4096, 4097, u32::MAX]),
        _ => random.below(9),
    }
}

/// A note list for these beats: legal, damaged, or any words at all.
pub fn list(random: &mut Random, header: [u32; 4], beats: u32) -> Vec<u32> {
    if random.one_in(12) {
        let length = random.below(13) as usize;
        return words(random, length);
    }
    let delta = header[0].clamp(1, 32_767);
    let measures = Measures { delta, epsilon: header[1].clamp(1, delta), beats: beats.min(40) };
    let lanes = notes::lanes(random, 3);
    let mut list = notes::list(random, &measures, &lanes);
    if random.one_in(3) {
        notes::damage(random, &mut list);
    }
    list
}

/// The words that a legal list takes with its cells, counted line by line.
pub fn words_used(delta: u32, list: &[u32]) -> u32 {
    let cells: u32 = list
        .chunks_exact(4)
        .map(|note| {
            let lines = (0..=note[2] / delta).map(|line| line * delta);
            let sides = |line: u32| {
                u32::from(note[1] < line && line <= note[2])
                    + u32::from(note[1] <= line && line < note[2])
            };
            lines.map(sides).sum::<u32>()
        })
        .sum();
    3 + list.len() as u32 + 6 * cells
}

/// Three shelves for a split, mostly different and below 5.
pub fn shelves(random: &mut Random) -> [u32; 3] {
    let first = random.below(5);
    let mut shelves =
        [first, (first + random.between(1, 2)) % 5, (first + random.between(3, 4)) % 5];
    if random.one_in(8) {
        shelves[random.below(3) as usize] = random.pick(&[0, 1, 2, 3, 4, 5, u32::MAX]);
    }
    shelves
}

/// A place in the session, mostly among the first words of a shelf.
pub fn place(random: &mut Random, header: [u32; 4]) -> usize {
    let shelf = match random.below(8) {
        0 => return random.below(4) as usize,
        1 => header[3],
        _ => header[3].min(40),
    };
    (4 + random.below(5) * header[3] + random.below(shelf)) as usize
}

/// Another word in the place of this one.
pub fn damaged(random: &mut Random, word: u32) -> u32 {
    match random.below(4) {
        0 => word.wrapping_add(1),
        1 => word.wrapping_sub(1),
        2 => random.pick(&[0, 1, 4096, 4097, u32::MAX]),
        _ => random.below(600),
    }
}
