//! Files.

use crate::random::Random;

/// A legal file of a note list, ending at a tick, with all the liberties
/// that a file has: running status, long times, other events and chunks.
pub fn file(random: &mut Random, delta: u32, list: &[u32], end: u32) -> Vec<u8> {
    let mut file = b"MThd".to_vec();
    let excess = if random.one_in(4) { random.below(4) } else { 0 };
    file.extend((6 + excess).to_be_bytes());
    file.extend([0, 0, 0, 1]);
    file.extend((delta as u16).to_be_bytes());
    put_random(random, &mut file, excess);
    while random.one_in(4) {
        put_chunk(random, &mut file);
    }
    let track = Track::events(random, list, end);
    file.extend(b"MTrk");
    file.extend((track.len() as u32).to_be_bytes());
    file.extend(track);
    if random.one_in(4) {
        let behind = random.below(12);
        put_random(random, &mut file, behind);
    }
    file
}

fn put_random(random: &mut Random, bytes: &mut Vec<u8>, count: u32) {
    bytes.extend((0..count).map(|_| random.below(256) as u8));
}

/// A chunk to pass over; a second MThd is one.
fn put_chunk(random: &mut Random, file: &mut Vec<u8>) {
    file.extend(random.pick(&[*b"MThd", *b"MTrq", *b"XFIH"]));
    let length = random.below(9);
    file.extend(length.to_be_bytes());
    put_random(random, file, length);
}

/// A time or length in groups of seven bits, sometimes longer than needed.
pub fn put_groups(random: &mut Random, bytes: &mut Vec<u8>, value: u32) {
    let fewest = (1..=4).find(|&groups| value >> (7 * groups) == 0).unwrap_or(4);
    let count = if random.one_in(5) { random.between(fewest, 4) } else { fewest };
    for place in (0..count).rev() {
        let group = (value >> (7 * place)) as u8 & 0x7F;
        bytes.push(if place > 0 { group | 0x80 } else { group });
    }
}

struct Track {
    bytes: Vec<u8>,
    now: u32,
    running: Option<u8>,
}

impl Track {
    /// The bytes of a whole track.
    fn events(random: &mut Random, list: &[u32], end: u32) -> Vec<u8> {
        let mut track = Track { bytes: Vec::new(), now: 0, running: None };
        for (tick, starts, lane, velocity) in note_events(random, list, end) {
            if random.one_in(5) {
                track.put_other(random, tick);
            }
            track.put_time(random, tick);
            track.put_note_event(random, starts, lane, velocity);
        }
        if random.one_in(3) {
            track.put_other(random, end);
        }
        track.put_time(random, end);
        track.bytes.extend([0xFF, 0x2F]);
        put_groups(random, &mut track.bytes, 0);
        track.bytes
    }

    fn put_time(&mut self, random: &mut Random, tick: u32) {
        put_groups(random, &mut self.bytes, tick - self.now);
        self.now = tick;
    }

    /// A status byte, left out at times where it is in force already.
    fn put_status(&mut self, random: &mut Random, status: u8) {
        if self.running != Some(status) || random.one_in(3) {
            self.bytes.push(status);
        }
        self.running = Some(status);
    }

    fn put_note_event(&mut self, random: &mut Random, starts: bool, lane: u32, velocity: u32) {
        let (channel, key) = ((lane >> 7) as u8, lane as u8 & 0x7F);
        let by_velocity_0 = random.one_in(2);
        let (kind, velocity) = match (starts, by_velocity_0) {
            (true, _) => (0x90, velocity as u8),
            (false, true) => (0x90, 0),
            (false, false) => (0x80, random.below(128) as u8),
        };
        self.put_status(random, kind | channel);
        self.bytes.extend([key, velocity]);
    }

    /// An event that is read over, somewhere up to a tick.
    fn put_other(&mut self, random: &mut Random, latest: u32) {
        let tick = random.between(self.now, latest);
        self.put_time(random, tick);
        match random.below(7) {
            0 => self.put_long(random, &[0xF0]),
            1 => self.put_long(random, &[0xF7]),
            2 | 3 => {
                let kind = random.pick(&[0x00, 0x01, 0x03, 0x20, 0x2E, 0x30, 0x51, 0x7F]);
                self.put_long(random, &[0xFF, kind]);
            }
            _ => {
                let kind = random.pick(&[0xA0, 0xB0, 0xC0, 0xD0, 0xE0]);
                let channel = random.below(16) as u8;
                self.put_status(random, kind | channel);
                let count = if kind == 0xC0 || kind == 0xD0 { 1 } else { 2 };
                self.bytes.extend((0..count).map(|_| random.below(128) as u8));
            }
        }
    }

    fn put_long(&mut self, random: &mut Random, status: &[u8]) {
        self.bytes.extend(status);
        let length = random.below(6);
        put_groups(random, &mut self.bytes, length);
        put_random(random, &mut self.bytes, length);
        self.running = None;
    }
}

/// Tick, whether a note starts, lane and velocity. Ends come before starts.
/// Notes that end with the track may be left sounding, and some silent lanes
/// get an end.
fn note_events(random: &mut Random, list: &[u32], end: u32) -> Vec<(u32, bool, u32, u32)> {
    let mut events = Vec::new();
    for note in list.chunks_exact(4) {
        events.push((note[1], true, note[0], note[3]));
        if note[2] < end || random.one_in(2) {
            events.push((note[2], false, note[0], 0));
        }
        if random.one_in(8) {
            // Behind this end the lane is silent until it starts again.
            events.push((note[2], false, note[0], 0));
        }
    }
    events.sort();
    events
}

/// Changes, drops or adds bytes. The result may still be legal.
pub fn damage(random: &mut Random, file: &mut Vec<u8>) {
    for _ in 0..random.between(1, 2) {
        let at = random.below(file.len() as u32 + 1) as usize;
        let byte = match random.below(3) {
            0 => random.below(256) as u8,
            1 => random.pick(&[0x00, 0x2F, 0x40, 0x7F, 0x80, 0x81, 0x90, 0xFF]),
            _ => random.pick(&[0xC0, 0xE5, 0xEF, 0xF0, 0xF1, 0xF6, 0xF7, 0xF8, 0xFE]),
        };
        match random.below(5) {
            0 => file.truncate(at),
            1 => file.insert(at, byte),
            2 if at < file.len() => drop(file.remove(at)),
            _ if at < file.len() => file[at] = byte,
            _ => file.push(byte),
        }
    }
}
