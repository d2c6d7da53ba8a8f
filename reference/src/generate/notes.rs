//! Note lists.

use crate::random::Random;

/// What a list is made for.
#[derive(Clone, Copy)]
pub struct Measures {
    pub delta: u32,
    pub epsilon: u32,
    pub beats: u32,
}

impl Measures {
    fn end(&self) -> u32 {
        self.beats * self.delta
    }

    /// The first line behind a tick.
    fn next_line(&self, tick: u32) -> u32 {
        (tick / self.delta + 1) * self.delta
    }
}

/// A legal list: words of whole notes, in order, in the given lanes.
pub fn list(random: &mut Random, measures: &Measures, lanes: &[u32]) -> Vec<u32> {
    let mut words = Vec::new();
    for &lane in lanes {
        put_lane(random, measures, lane, &mut words);
    }
    words
}

/// Up to `most` different lanes in order. Lane 60 and the outermost lanes
/// come often, so that takes of one session meet in the same lanes.
pub fn lanes(random: &mut Random, most: u32) -> Vec<u32> {
    let count = random.between(1, most);
    let mut lanes: Vec<u32> = (0..count)
        .map(|_| match random.below(4) {
            0 => random.below(2048),
            _ => random.pick(&[0, 60, 61, 127, 128, 2047]),
        })
        .collect();
    lanes.sort_unstable();
    lanes.dedup();
    lanes
}

fn put_lane(random: &mut Random, measures: &Measures, lane: u32, words: &mut Vec<u32>) {
    let end = measures.end();
    let mut tick = 0;
    while tick < end {
        let start = tick + gap(random, measures, tick);
        let stop = (start + length(random, measures, start)).min(end);
        if start < stop {
            words.extend([lane, start, stop, velocity(random)]);
        }
        tick = stop.max(start);
        if random.one_in(6) {
            return;
        }
    }
}

/// Ticks of silence: often none, often up to shortly before or just to a line.
fn gap(random: &mut Random, measures: &Measures, tick: u32) -> u32 {
    let to_line = measures.next_line(tick) - tick;
    match random.below(6) {
        0 | 1 => 0,
        2 => to_line,
        3 | 4 => to_line - random.between(1, measures.epsilon).min(to_line),
        _ => random.below(2 * measures.delta + 1),
    }
}

/// Ticks of a note: often just to a line or shortly behind it, sometimes long.
fn length(random: &mut Random, measures: &Measures, start: u32) -> u32 {
    let to_line = measures.next_line(start) - start;
    match random.below(8) {
        0 => to_line,
        1..=3 => to_line + random.between(1, measures.epsilon),
        4 => to_line + measures.delta * random.below(4),
        5 => to_line + random.below(4 * measures.delta),
        6 => random.between(1, measures.epsilon),
        _ => random.between(1, measures.delta),
    }
}

fn velocity(random: &mut Random) -> u32 {
    match random.below(4) {
        0 => random.pick(&[1, 64, 127]),
        _ => random.between(1, 127),
    }
}

/// Changes a list so that it mostly becomes illegal.
pub fn damage(random: &mut Random, words: &mut Vec<u32>) {
    if words.is_empty() || random.one_in(6) {
        words.push(random.below(130));
        return;
    }
    let at = random.below(words.len() as u32) as usize;
    match random.below(4) {
        0 => words.truncate(at),
        1 => words[at] = random.pick(&[0, 128, 2048, u32::MAX]),
        2 => words[at] = words[at].wrapping_add(random.pick(&[1, 2, u32::MAX])),
        _ => words.swap(at, 0),
    }
}
