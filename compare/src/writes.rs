//! Writes: of takes that lists of calls made, to outputs around the file's
//! length, of takes at the limits, of thousands of notes, also within few ticks,
//! and of shelves with a damaged word.

use crate::inputs;
use crate::pair::{Counts, Pair};
use reference::generate::notes::{self, Measures};
use reference::random::Random;

fn bytes(random: &mut Random, length: usize) -> Vec<u8> {
    (0..length).map(|_| random.next_number() as u8).collect()
}

/// A write to outputs of every length around the file's, and around the length
/// from which no event is counted.
fn around(random: &mut Random, pair: &Pair, shelf: u32, counts: &mut Counts) -> Result<(), String> {
    let [beats, notes] = [0, 1].map(|place| pair.shelf(shelf)[place] as usize);
    let ticks = beats * pair.second[0] as usize;
    let uncounted = 26 + 8 * notes + (ticks / 128).min(3 + 6 * notes);
    let output = bytes(random, 29 + 14 * notes + 40);
    let length = pair.write(shelf, &output, counts)? as usize;
    let rooms =
        [0, 21, 22, length - 1, length, length + 1, uncounted - 1, uncounted, uncounted + 1];
    for room in rooms {
        let count = pair.write(shelf, &output[..room], counts)? as usize;
        let expected = if room < length { 0 } else { length };
        if count != expected {
            return Err(format!("write to {room} bytes: {count}, expected {expected}"));
        }
    }
    Ok(())
}

/// Notes of a few lanes, touching ones among them, written from the shelf that
/// they are laid in and from both halves of a split.
pub fn around_the_length(random: &mut Random, counts: &mut Counts) -> Result<(), String> {
    let delta = random.pick(&[1, 2, 3, 10, 480, 32_767]);
    let header = [delta, random.between(1, delta), 3, 2_000];
    let mut pair = Pair::new(inputs::words(random, 4 + 3 * 2_000));
    pair.open(header, counts)?;
    let beats = random.below(9);
    let measures = Measures { delta, epsilon: header[1], beats };
    let lanes = notes::lanes(random, 6);
    let list = notes::list(random, &measures, &lanes);
    if pair.lay(0, beats, &list, counts)? != 0 {
        return Ok(());
    }
    pair.split(0, random.below(beats + 1), 1, 2, counts)?;
    (0..3).try_for_each(|shelf| around(random, &pair, shelf, counts))
}

/// A note in each of some lanes, at ticks that all lanes share, in a take of
/// so many beats.
fn many_lanes(
    random: &mut Random,
    delta: u32,
    beats: u32,
    lanes: &[u32],
    counts: &mut Counts,
) -> Result<(), String> {
    let end = delta * beats;
    let ticks = [0, end / 3, end / 3 + 1, end - 1, end];
    let mut list = Vec::new();
    for &lane in lanes {
        let first = random.below(4) as usize;
        let last = random.between(first as u32 + 1, 4) as usize;
        if ticks[first] < ticks[last] {
            list.extend([lane, ticks[first], ticks[last], random.between(1, 127)]);
        }
    }
    laid(random, delta, beats, &list, counts)
}

/// All 2,048 lanes; and 4,096 beats of the longest, whose times take four
/// groups.
pub fn at_the_limits(random: &mut Random, counts: &mut Counts) -> Result<(), String> {
    let all: Vec<u32> = (0..2048).collect();
    let beats = random.between(1, 9);
    many_lanes(random, 10, beats, &all, counts)?;
    let few = notes::lanes(random, 3);
    many_lanes(random, 32_767, 4_096, &few, counts)
}

/// Thousands of notes in few lanes or in all, close together, or thick and thin
/// by turns: notes follow at once, or after rests of up to so many ticks.
fn long_list(random: &mut Random, delta: u32) -> Vec<u32> {
    let last = 4_096 * delta;
    let lanes = random.pick(&[1, 7, 88, 700, 2_048]);
    let rests: &[u32] = if random.one_in(2) { &[1, 2, 3, 30] } else { &[1, 3, 30, 3_000, 100_000] };
    let mut list = Vec::new();
    for lane in (0..lanes).map(|lane| lane * (2_048 / lanes)) {
        let mut tick = random.below(delta);
        for _ in 0..random.between(1, 2 * 4_000 / lanes) {
            let rest = random.pick(rests);
            let (start, end) = (tick + random.below(rest), tick + rest + random.below(delta));
            if end < last {
                list.extend([lane, start, end, random.between(1, 127)]);
                tick = end;
            }
        }
    }
    list
}

/// A long list, or as many of its notes as the table for few notes holds and one
/// more, laid and written.
pub fn many_notes(random: &mut Random, counts: &mut Counts) -> Result<(), String> {
    let delta = random.pick(&[40, 480, 32_767]);
    let mut list = long_list(random, delta);
    if random.one_in(2) {
        list.truncate(4 * random.pick(&[1_024, 1_025]));
    }
    let latest = list.chunks(4).map(|note| note[2]).max().unwrap_or(0);
    laid(random, delta, latest.div_ceil(delta), &list, counts)
}

/// Times of about 128 ticks, from which on they take another byte.
pub fn around_a_group(random: &mut Random, counts: &mut Counts) -> Result<(), String> {
    (127..131).try_for_each(|width| one_bucket(random, width, counts))
}

/// Some 1,800 notes in as many lanes, whose events the engine keeps in buckets
/// of so many ticks. One bucket has events at its first and its last tick alone.
fn one_bucket(random: &mut Random, width: u32, counts: &mut Counts) -> Result<(), String> {
    let lanes = random.between(1_793, 1_900);
    let end = (width * lanes).div_ceil(128) - 1;
    let mut list =
        vec![0, 3 * width, 4 * width - 1, 64, 1, 2 * width + width / 2, 3 * width - 1, 64];
    for lane in 2..lanes {
        let [start, end] = [random.below(width), width + random.below(width)];
        list.extend([lane, start, end, random.between(1, 127)]);
    }
    laid(random, end, 1, &list, counts)
}

/// More than 1,024 notes within some 1,000 ticks, whose events the engine puts
/// straight to their places, with about 128 ticks before the first event and
/// between two of them: each time of 128 or more takes another byte.
pub fn within_few_ticks(random: &mut Random, counts: &mut Counts) -> Result<(), String> {
    let end = random.pick(&[600, 1_022, 1_023, 1_024]);
    let first = random.pick(&[0, 1, 127, 128]);
    let late = first + 40 + random.pick(&[1, 126, 127, 128, 129, 300]);
    let mut list = vec![0, first, first + 40, 64, 0, late, late + 60, 64];
    for lane in 1..random.between(1_025, 2_048) {
        let begin = first + random.below(40);
        let stop = random.between(begin + 1, first + 40);
        let held = late + random.below(60);
        match random.below(3) {
            0 => list.extend([lane, begin, held, random.between(1, 127)]),
            1 => list.extend([lane, held, held + 1, random.between(1, 127)]),
            _ => {
                list.extend([lane, begin, stop, random.between(1, 127)]);
                list.extend([lane, held, held + 1, random.between(1, 127)]);
            }
        }
    }
    laid(random, end, 1, &list, counts)
}

/// A list laid in a shelf that it fills, and written.
fn laid(
    random: &mut Random,
    delta: u32,
    beats: u32,
    list: &[u32],
    counts: &mut Counts,
) -> Result<(), String> {
    let words = inputs::words_used(delta, list);
    if words > 1_048_576 {
        return Ok(());
    }
    let mut pair = Pair::new(inputs::words(random, 4 + words as usize));
    pair.open([delta, 1, 1, words], counts)?;
    pair.lay(0, beats, list, counts)?;
    around(random, &pair, 0, counts)
}

/// A shelf of any words, and a laid one with a damaged word.
pub fn damaged(random: &mut Random, counts: &mut Counts) -> Result<(), String> {
    let header = inputs::header(random);
    let length = inputs::length(random, header);
    let mut pair = Pair::new(inputs::words(random, length));
    let output = bytes(random, 600);
    pair.write(random.below(4), &output, counts)?;
    if pair.open(header, counts)? != 0 {
        return Ok(());
    }
    let beats = inputs::beats(random);
    let list = inputs::list(random, header, beats);
    pair.lay(0, beats, &list, counts)?;
    pair.write(random.below(header[2] + 2), &output, counts)?;
    let place = random.below(length as u32) as usize;
    pair.set(place, inputs::damaged(random, pair.second[place]));
    let room = random.below(601) as usize;
    pair.write(0, &output[..room], counts)?;
    Ok(())
}
