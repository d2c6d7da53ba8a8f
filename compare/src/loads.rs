//! Loads: of files with all the liberties that a file has, cut off at every
//! byte, damaged, and of any bytes; of one file for each way to be refused; and
//! of takes that fill their shelf to the last word.

use crate::inputs;
use crate::pair::{Counts, Pair};
use reference::generate::files;
use reference::generate::notes::{self, Measures};
use reference::random::Random;

/// A session's pair, opened.
fn opened(random: &mut Random, header: [u32; 4], counts: &mut Counts) -> Result<Pair, String> {
    let length = 4 + header[2] as usize * header[3] as usize;
    let mut pair = Pair::new(inputs::words(random, length));
    pair.open(header, counts)?;
    Ok(pair)
}

/// A legal note list with the tick that its track ends at.
fn played(random: &mut Random, delta: u32, most_lanes: u32) -> (Vec<u32>, u32) {
    let beats = random.below(9);
    let measures = Measures { delta, epsilon: 1, beats };
    let lanes = notes::lanes(random, most_lanes);
    let list = notes::list(random, &measures, &lanes);
    let last = list.chunks_exact(4).map(|note| note[2]).max().unwrap_or(0);
    (list, random.between(last, beats * delta))
}

/// A file is loaded as its notes are laid; then damaged, and loaded again.
pub fn as_laid(random: &mut Random, counts: &mut Counts) -> Result<(), String> {
    let delta = random.pick(&[1, 2, 3, 10, 480, 32_767]);
    let (list, end) = played(random, delta, 6);
    let mut file = files::file(random, delta, &list, end);
    let epsilon = random.between(1, delta);
    let mut pair = opened(random, [delta, epsilon, 3, 2_000], counts)?;
    let laid = pair.lay(1, end.div_ceil(delta), &list, counts)?;
    if pair.load(0, &file, counts)? != laid || laid == 0 && pair.shelf(0) != pair.shelf(1) {
        return Err(format!("load of {list:?} to {end}: not as laid"));
    }
    for _ in 0..4 {
        files::damage(random, &mut file);
        pair.load(random.below(4), &file, counts)?;
    }
    Ok(())
}

/// In a shelf that the take fills to the last word, and in one that is a word
/// too small.
pub fn just_fitting(random: &mut Random, counts: &mut Counts) -> Result<(), String> {
    let delta = random.pick(&[1, 2, 3, 10, 480]);
    let (list, end) = played(random, delta, 4);
    let file = files::file(random, delta, &list, end);
    let used = inputs::words_used(delta, &list);
    for (shelf_words, number) in [(used, 0), (used - 1, 8)] {
        if shelf_words < 3 {
            continue;
        }
        let mut pair = opened(random, [delta, 1, 3, shelf_words], counts)?;
        if pair.load(random.below(3), &file, counts)? != number {
            return Err(format!("load of {used} words in {shelf_words}: not {number}"));
        }
    }
    Ok(())
}

/// A file cut off at every byte.
pub fn cut_off(random: &mut Random, counts: &mut Counts) -> Result<(), String> {
    let delta = random.pick(&[1, 10, 480]);
    let (list, end) = played(random, delta, 2);
    let file = files::file(random, delta, &list, end);
    let mut pair = opened(random, [delta, 1, 1, 400], counts)?;
    (0..file.len()).try_for_each(|length| pair.load(0, &file[..length], counts).map(drop))
}

/// Any bytes as a track, as what follows a header, and as a file; in any
/// session.
pub fn any_bytes(random: &mut Random, counts: &mut Counts) -> Result<(), String> {
    let header = inputs::header(random);
    let length = inputs::length(random, header);
    let mut pair = Pair::new(inputs::words(random, length));
    pair.open(header, counts)?;
    let count = random.below(40) as usize;
    let any: Vec<u8> = (0..count).map(|_| random.next_number() as u8).collect();
    let events: Vec<u8> = (0..count).map(|_| likely(random)).collect();
    let shelf = random.below(header[2].clamp(1, 64) + 1);
    for bytes in [any.clone(), chunks(header[0], &any), track(header[0], &events)] {
        pair.load(shelf, &bytes, counts)?;
    }
    Ok(())
}

/// A byte that is likely to make events.
fn likely(random: &mut Random) -> u8 {
    match random.below(3) {
        0 => random.pick(&[0x80, 0x90, 0x91, 0xC0, 0xFF, 0xF0]),
        1 => random.pick(&[0x00, 0x01, 0x2F, 0x3C, 0x40]),
        _ => random.below(4) as u8,
    }
}

/// A header of division δ with these bytes behind it.
fn chunks(delta: u32, bytes: &[u8]) -> Vec<u8> {
    let mut file = b"MThd\0\0\0\x06\0\0\0\x01".to_vec();
    file.extend((delta as u16).to_be_bytes());
    file.extend(bytes);
    file
}

/// A file of one track with these bytes.
fn track(delta: u32, bytes: &[u8]) -> Vec<u8> {
    let mut chunk = b"MTrk".to_vec();
    chunk.extend((bytes.len() as u32).to_be_bytes());
    chunk.extend(bytes);
    chunks(delta, &chunk)
}

/// Tracks for δ 10 with the number that each gives.
const TRACKS: [(u32, &[u8]); 41] = [
    (0, &[0, 0xFF, 0x2F, 0]),
    (0, &[0, 0xFF, 0x2F, 0x80, 0]),
    (0, &[0, 0xFF, 0x2F, 0x80, 0x80, 0x80, 0]),
    (0, &[0x80, 0x80, 0x80, 0, 0xFF, 0x2F, 0]),
    (0, &[0, 0x90, 60, 100, 5, 60, 0, 5, 0xFF, 0x2F, 0]),
    (0, &[0, 0x90, 60, 100, 5, 0x80, 60, 0, 5, 0xFF, 0x2F, 0]),
    (0, &[0, 0x90, 60, 100, 11, 0xFF, 0x2F, 0]),
    (0, &[0, 0x90, 60, 100, 0, 60, 0, 1, 60, 9, 2, 0xFF, 0x2F, 0]),
    (0, &[0, 0x80, 60, 100, 0, 0x9F, 127, 0, 0, 0xFF, 0x2F, 0]),
    (0, &[0, 0xA0, 1, 2, 0, 0xB1, 1, 2, 0, 0xE2, 1, 2, 0, 0xFF, 0x2F, 0]),
    (0, &[0, 0xC0, 1, 0, 2, 0, 0xD0, 3, 0, 4, 0, 0xFF, 0x2F, 0]),
    (0, &[0, 0xF0, 2, 0xFF, 0x80, 0, 0xF7, 0x80, 1, 0xF7, 0, 0xFF, 0x2F, 0]),
    (0, &[0, 0xFF, 0, 0, 0, 0xFF, 0x7F, 1, 0x90, 0, 0xFF, 0x2F, 0]),
    (0, &[0x82, 0xC0, 0, 0xFF, 0x2F, 0]),
    (12, &[]),
    (12, &[0]),
    (12, &[0, 0x90, 60, 100]),
    (12, &[0, 60, 100, 0, 0xFF, 0x2F, 0]),
    (12, &[0, 0x90, 60, 100, 0, 0xFF, 1, 0, 0, 60, 0, 0, 0xFF, 0x2F, 0]),
    (12, &[0, 0x90, 60, 100, 0, 0xF0, 0, 0, 60, 0, 0, 0xFF, 0x2F, 0]),
    (12, &[0, 0x90, 60, 100, 0, 0xF7, 0, 0, 60, 0, 0, 0xFF, 0x2F, 0]),
    (12, &[0x80, 0x80, 0x80, 0x80, 0, 0xFF, 0x2F, 0]),
    (12, &[0, 0xFF, 1, 0x80, 0x80, 0x80, 0x80, 0, 0, 0xFF, 0x2F, 0]),
    (12, &[0, 0xF1, 0, 0xFF, 0x2F, 0]),
    (12, &[0, 0xF6, 0, 0xFF, 0x2F, 0]),
    (12, &[0, 0xF8, 0, 0xFF, 0x2F, 0]),
    (12, &[0, 0xFE, 0, 0xFF, 0x2F, 0]),
    (12, &[0, 0x90, 0x80, 100, 0, 0xFF, 0x2F, 0]),
    (12, &[0, 0x90, 60, 0x80, 0, 0xFF, 0x2F, 0]),
    (12, &[0, 0xFF, 0x80, 0, 0, 0xFF, 0x2F, 0]),
    (12, &[0, 0xFF, 1, 9, 0, 0xFF, 0x2F, 0]),
    (12, &[0, 0xFF, 0x2F, 1, 0]),
    (12, &[0, 0xFF, 0x2F, 0, 0]),
    (12, &[0, 0xFF, 0x2F, 0, 0, 0xFF, 0x2F, 0]),
    (13, &[0x82, 0xC0, 1, 0xFF, 0x2F, 0]),
    (13, &[0x82, 0xC0, 1, 0xFF, 1, 0, 0, 0xF1]),
    (13, &[0x82, 0xC0, 0, 0x90, 60, 100, 1, 60, 100]),
    (14, &[0, 0x90, 60, 100, 0, 60, 100, 0, 0xFF, 0x2F, 0]),
    (14, &[0, 0x90, 60, 100, 3, 60, 1, 0, 0xF1]),
    (14, &[0, 0x9F, 127, 1, 0, 0x9F, 127, 1, 0x82, 0xC0, 1, 0xF1]),
    (12, &[0, 0x90, 60, 100, 0, 0xF1, 0, 60, 100, 0, 0xFF, 0x2F, 0]),
];

/// Damaged headers and chunks for δ 10: the place of a byte in the file of an
/// empty track, the byte, and the number that it gives.
const HEADERS: [(usize, u8, u32); 14] = [
    (0, b'm', 9),
    (3, b'k', 9),
    (4, 1, 9),
    (7, 5, 9),
    (7, 19, 9),
    (7, 7, 11),
    (9, 1, 10),
    (11, 0, 10),
    (11, 2, 10),
    (12, 0x80, 10),
    (13, 11, 10),
    (14, b'm', 11),
    (21, 5, 11),
    (21, 3, 12),
];

/// One file for each way to be refused, and a file of each kind of event.
pub fn each_number(random: &mut Random, counts: &mut Counts) -> Result<(), String> {
    let mut pair = opened(random, [10, 3, 2, 40], counts)?;
    for (number, bytes) in TRACKS {
        if pair.load(random.below(2), &track(10, bytes), counts)? != number {
            return Err(format!("load of track {bytes:X?}: not {number}"));
        }
    }
    for (place, byte, number) in HEADERS {
        let mut file = track(10, &[0, 0xFF, 0x2F, 0]);
        file[place] = byte;
        if pair.load(random.below(2), &file, counts)? != number {
            return Err(format!("load of {file:X?}: not {number}"));
        }
    }
    Ok(())
}

/// A note in every lane, left sounding; and 4,096 beats of the longest.
pub fn at_the_limits(random: &mut Random, counts: &mut Counts) -> Result<(), String> {
    let all: Vec<u32> = (0..2048).rev().flat_map(|lane| [lane, 0, 20, 1 + lane % 127]).collect();
    let file = files::file(random, 10, &all, 20);
    let mut pair = opened(random, [10, 1, 1, inputs::words_used(10, &all)], counts)?;
    if pair.load(0, &file, counts)? != 0 {
        return Err("load of every lane: refused".to_string());
    }
    let end = 4_096 * 32_767;
    let long = [random.below(2048), random.below(9), end, 127];
    let file = files::file(random, 32_767, &long, end);
    let mut pair = opened(random, [32_767, 1, 1, inputs::words_used(32_767, &long)], counts)?;
    match pair.load(0, &file, counts)? {
        0 => Ok(()),
        number => Err(format!("load of the longest note: {number}")),
    }
}

/// A file of some megabytes: 30,000 notes, and a long chunk before the track.
pub fn large(random: &mut Random, counts: &mut Counts) -> Result<(), String> {
    let mut list = Vec::new();
    for lane in 0..50 {
        for turn in 0..600 {
            let start = 3_000 * turn + random.below(1_000);
            list.extend([lane, start, start + random.between(1, 2_000), random.between(1, 127)]);
        }
    }
    let end = 3_000 * 600;
    let mut file = files::file(random, 480, &list, end);
    let header = 8 + u32::from_be_bytes([file[4], file[5], file[6], file[7]]) as usize;
    let mut chunk = b"long\0\x20\0\0".to_vec();
    chunk.resize(8 + 0x20_0000, 0xFF);
    file.splice(header..header, chunk);
    let mut pair = opened(random, [480, 60, 2, 1_048_576], counts)?;
    let laid = pair.lay(1, end / 480, &list, counts)?;
    if laid != 0 || pair.load(0, &file, counts)? != 0 || pair.shelf(0) != pair.shelf(1) {
        return Err(format!("load of {} bytes: not as laid", file.len()));
    }
    let place = random.below(file.len() as u32) as usize;
    file[place] ^= 0x80;
    pair.load(0, &file, counts)?;
    Ok(())
}
