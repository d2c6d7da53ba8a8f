//! The recording that is timed.

use reference::random::Random;

pub const DELTA: u32 = 480;
pub const EPSILON: u32 = 60;

/// Shelves of a session: the recording, its parts, and a place for results.
pub const SHELVES: u32 = 6;

/// Words of the largest shelf.
pub const MOST_SHELF_WORDS: u32 = 1_048_576;

/// What is timed: a recording of so many notes in so many lanes.
#[derive(Clone, Copy, PartialEq)]
pub struct Size {
    pub notes: u32,
    pub lanes: u32,
    /// Are the shelves as large as they can be, or as small as the recording allows?
    pub wide: bool,
}

/// A recording, and a session with it in its first shelf.
pub struct Recording {
    pub beats: u32,
    pub list: Vec<u32>,
    pub session: Vec<u32>,
    pub file: Vec<u8>,
}

impl Recording {
    pub fn new(size: Size) -> Self {
        let (beats, list) = notes(&mut Random::new(u64::from(size.notes)), size);
        let words = if size.wide { MOST_SHELF_WORDS } else { words_used(&list) };
        let mut session = vec![0; 4 + SHELVES as usize * words as usize];
        assert_eq!(reference::open(&mut session, DELTA, EPSILON, SHELVES, words), 0);
        assert_eq!(reference::lay(&mut session, 0, beats, &list), 0);
        let mut file = vec![0; most_file_bytes(&list)];
        let mut count = 0;
        assert_eq!(reference::write(&session, 0, &mut file, &mut count), 0);
        file.truncate(count as usize);
        Recording { beats, list, session, file }
    }

    pub fn shelf_words(&self) -> usize {
        self.session[3] as usize
    }
}

/// No file of these notes is longer.
pub fn most_file_bytes(list: &[u32]) -> usize {
    29 + 14 * (list.len() / 4)
}

/// A legal list of notes: in each lane some of a tick to a beat, with rests
/// between them. Returns the beats and the list.
fn notes(random: &mut Random, size: Size) -> (u32, Vec<u32>) {
    let per_lane = size.notes.div_ceil(size.lanes).max(1);
    let most = (4_096 * DELTA / per_lane).min(2 * DELTA);
    let mut list = Vec::with_capacity(4 * size.notes as usize);
    let (mut left, mut latest) = (size.notes, 0);
    for lane in 0..size.lanes.min(size.notes) {
        let mut tick = random.below(most / 4 + 1);
        for _ in 0..per_lane.min(left) {
            let length = random.between(1, (most / 2).max(1));
            list.extend([lane, tick, tick + length, random.between(1, 127)]);
            latest = latest.max(tick + length);
            tick += length + random.below(most / 2 + 1);
        }
        left -= per_lane.min(left);
    }
    (latest.div_ceil(DELTA), list)
}

/// The words of a shelf that the list fills: two cells for each line inside a
/// note, one for each that it starts or ends on.
fn words_used(list: &[u32]) -> u32 {
    let cells = |note: &[u32]| {
        let (start, end) = (note[1], note[2]);
        (end / DELTA - start / DELTA) + (end.div_ceil(DELTA) - start.div_ceil(DELTA))
    };
    list.chunks(4).map(|note| 4 + 6 * cells(note)).sum::<u32>() + 3
}
