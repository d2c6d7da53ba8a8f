//! Reading and writing a file, byte by byte, with nothing done to be fast.

use super::piece::Note;
use std::collections::BTreeMap;

/// A file's beats and notes, in the order of notes, or a question's number.
pub fn read(file: &[u8], delta: u64) -> Result<(u64, Vec<Note>), u32> {
    let (from, to) = track_place(file, delta)?;
    let mut reading = Reading {
        track: file[from..to].to_vec(),
        position: 0,
        running: None,
        now: 0,
        limit: 4096 * delta,
        sounding: BTreeMap::new(),
        notes: Vec::new(),
    };
    while !reading.event()? {}
    for (channel, key) in reading.sounding.keys().copied().collect::<Vec<_>>() {
        reading.end_note(channel, key);
    }
    reading.notes.sort();
    Ok((reading.now.div_ceil(delta), reading.notes))
}

fn big_endian(bytes: &[u8]) -> usize {
    bytes.iter().fold(0, |value, &byte| value * 256 + usize::from(byte))
}

/// Where the first chunk behind a right header begins.
fn header_end(file: &[u8], delta: u64) -> Result<usize, u32> {
    if file.len() < 8 || &file[..4] != b"MThd" {
        return Err(9);
    }
    let header_length = big_endian(&file[4..8]);
    if header_length < 6 || 8 + header_length > file.len() {
        return Err(9);
    }
    let format = big_endian(&file[8..10]);
    let tracks = big_endian(&file[10..12]);
    let division = big_endian(&file[12..14]) as u64;
    if format != 0 || tracks != 1 || division != delta {
        return Err(10);
    }
    Ok(8 + header_length)
}

/// Where the first MTrk's events begin and end.
fn track_place(file: &[u8], delta: u64) -> Result<(usize, usize), u32> {
    let mut at = header_end(file, delta)?;
    loop {
        if at + 8 > file.len() {
            return Err(11);
        }
        let (from, to) = (at + 8, at + 8 + big_endian(&file[at + 4..at + 8]));
        if to > file.len() {
            return Err(11);
        }
        if &file[at..at + 4] == b"MTrk" {
            return Ok((from, to));
        }
        at = to;
    }
}

struct Reading {
    track: Vec<u8>,
    position: usize,
    running: Option<u8>,
    now: u64,
    limit: u64,
    /// Channel and key to start and velocity.
    sounding: BTreeMap<(u64, u64), (u64, u64)>,
    notes: Vec<Note>,
}

impl Reading {
    fn byte(&mut self) -> Result<u8, u32> {
        let byte = self.track.get(self.position).copied().ok_or(12u32);
        self.position += 1;
        byte
    }

    fn byte_below_80(&mut self) -> Result<u64, u32> {
        let byte = self.byte()?;
        if byte < 0x80 {
            Ok(byte.into())
        } else {
            Err(12)
        }
    }

    fn groups(&mut self) -> Result<u64, u32> {
        let mut value = 0;
        let mut count = 0;
        loop {
            let byte = self.byte()?;
            count += 1;
            value = value * 128 + u64::from(byte % 128);
            if byte < 128 {
                return Ok(value);
            }
            if count == 4 {
                return Err(12);
            }
        }
    }

    /// Reads one event, with questions 12 to 14; says whether it ends the track.
    fn event(&mut self) -> Result<bool, u32> {
        let time = self.now + self.groups()?;
        let status = self.status()?;
        let mut channel_data = (0, 0);
        let mut ends = false;
        match status {
            0xFF => {
                let kind = self.byte_below_80()?;
                ends = kind == 0x2F;
                self.counted_bytes(ends)?;
            }
            0xF0 | 0xF7 => self.counted_bytes(false)?,
            0xC0..=0xDF => channel_data.0 = self.byte_below_80()?,
            _ => {
                channel_data.0 = self.byte_below_80()?;
                channel_data.1 = self.byte_below_80()?;
            }
        }
        if time > self.limit {
            return Err(13);
        }
        self.now = time;
        self.play(status, channel_data)?;
        Ok(ends)
    }

    /// The event's status: its own or the running one.
    fn status(&mut self) -> Result<u8, u32> {
        let byte = self.byte()?;
        match byte {
            0x00..=0x7F => {
                self.position -= 1;
                self.running.ok_or(12)
            }
            0x80..=0xEF => {
                self.running = Some(byte);
                Ok(byte)
            }
            0xF0 | 0xF7 | 0xFF => {
                self.running = None;
                Ok(byte)
            }
            0xF1..=0xF6 | 0xF8..=0xFE => Err(12),
        }
    }

    /// A length and the bytes counted by it.
    fn counted_bytes(&mut self, ends: bool) -> Result<(), u32> {
        let length = self.groups()?;
        for _ in 0..length {
            self.byte()?;
        }
        let at_last_byte = self.position == self.track.len();
        if ends && !(length == 0 && at_last_byte) {
            Err(12)
        } else {
            Ok(())
        }
    }

    fn play(&mut self, status: u8, (key, velocity): (u64, u64)) -> Result<(), u32> {
        let channel = u64::from(status % 16);
        if status / 16 == 9 && velocity > 0 {
            if self.sounding.contains_key(&(channel, key)) {
                return Err(14);
            }
            self.sounding.insert((channel, key), (self.now, velocity));
        } else if status / 16 == 8 || status / 16 == 9 {
            self.end_note(channel, key);
        }
        Ok(())
    }

    fn end_note(&mut self, channel: u64, key: u64) {
        if let Some((start, velocity)) = self.sounding.remove(&(channel, key)) {
            if start < self.now {
                let lane = channel * 128 + key;
                self.notes.push(Note { lane, start, end: self.now, velocity });
            }
        }
    }
}

/// The one file of a take.
pub fn written(beats: u64, notes: &[Note], delta: u64) -> Vec<u8> {
    // Tick, 0 for an end or 1 for a start, lane, velocity.
    let mut events: Vec<(u64, u64, u64, u64)> = Vec::new();
    for note in notes {
        events.push((note.start, 1, note.lane, note.velocity));
        events.push((note.end, 0, note.lane, 64));
    }
    events.sort();
    let mut track = Vec::new();
    let mut now = 0;
    for (tick, start, lane, velocity) in events {
        track.extend(fewest_groups(tick - now));
        let status = if start == 1 { 0x90 } else { 0x80 } + lane / 128;
        track.extend([status as u8, (lane % 128) as u8, velocity as u8]);
        now = tick;
    }
    track.extend(fewest_groups(beats * delta - now));
    track.extend([0xFF, 0x2F, 0x00]);
    let mut file = b"MThd\x00\x00\x00\x06\x00\x00\x00\x01".to_vec();
    file.extend([(delta / 256) as u8, (delta % 256) as u8]);
    file.extend(b"MTrk");
    file.extend((track.len() as u32).to_be_bytes());
    file.extend(track);
    file
}

fn fewest_groups(time: u64) -> Vec<u8> {
    let mut groups = vec![(time % 128) as u8];
    let mut rest = time / 128;
    while rest > 0 {
        groups.insert(0, (128 + rest % 128) as u8);
        rest /= 128;
    }
    groups
}
