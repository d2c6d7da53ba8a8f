//! Reading a file's chunks, and the events of its track one by one.

use crate::question;

/// What an event means for the notes.
pub enum Event {
    Start {
        lane: u32,
        velocity: u8,
    },
    End {
        lane: u32,
    },
    EndOfTrack,
    /// Read over.
    Other,
}

/// Questions 9 to 11: the bytes of the file's first MTrk.
pub fn find(file: &[u8], delta: u32) -> Result<&[u8], u32> {
    let (name, header, mut rest) = chunk(file).ok_or(question::FILE_HEADER)?;
    let fields = header.first_chunk::<6>().ok_or(question::FILE_HEADER)?;
    if name != b"MThd" {
        return Err(question::FILE_HEADER);
    }
    let [division_high, division_low] = (delta as u16).to_be_bytes();
    if *fields != [0, 0, 0, 1, division_high, division_low] {
        return Err(question::FORMAT);
    }
    loop {
        let (name, data, behind) = chunk(rest).ok_or(question::TRACK)?;
        if name == b"MTrk" {
            return Ok(data);
        }
        rest = behind;
    }
}

/// A complete chunk's name and data, and what lies behind it.
fn chunk(bytes: &[u8]) -> Option<(&[u8; 4], &[u8], &[u8])> {
    let (name, bytes) = bytes.split_first_chunk::<4>()?;
    let (length, bytes) = bytes.split_first_chunk::<4>()?;
    let length = usize::try_from(u32::from_be_bytes(*length)).ok()?;
    let (data, behind) = bytes.split_at_checked(length)?;
    Some((name, data, behind))
}

/// The part of a track that is not read yet, and the running status.
pub struct Cursor<'a> {
    unread: &'a [u8],
    /// 0 when no status is in force.
    running: u8,
}

impl<'a> Cursor<'a> {
    pub fn new(track: &'a [u8]) -> Self {
        Cursor { unread: track, running: 0 }
    }

    /// Question 12: the next event and the ticks before it, if legal and
    /// inside the track.
    #[inline]
    pub fn event(&mut self) -> Option<(u32, Event)> {
        let ticks = self.number()?;
        let first = *self.unread.first()?;
        let event = match first {
            0x00..=0x7F if self.running == 0 => return None,
            0x00..=0x7F => self.channel_event()?,
            0x80..=0xEF => {
                self.running = first;
                self.unread = &self.unread[1..];
                self.channel_event()?
            }
            0xF0 | 0xF7 | 0xFF => {
                self.running = 0;
                self.unread = &self.unread[1..];
                self.long_event(first == 0xFF)?
            }
            _ => return None,
        };
        Some((ticks, event))
    }

    /// The data of a channel event whose status is in force.
    fn channel_event(&mut self) -> Option<Event> {
        let key = self.data_byte()?;
        let kind = self.running >> 4;
        if kind == 0xC || kind == 0xD {
            return Some(Event::Other);
        }
        let velocity = self.data_byte()?;
        let lane = u32::from(self.running & 0x0F) << 7 | u32::from(key);
        Some(match (kind, velocity) {
            (9, 1..) => Event::Start { lane, velocity },
            (8 | 9, _) => Event::End { lane },
            _ => Event::Other,
        })
    }

    /// A meta event's type, or none for F0 and F7; then a length and so many
    /// bytes. An end of track is empty and ends the track.
    fn long_event(&mut self, meta: bool) -> Option<Event> {
        let ends = meta && self.data_byte()? == 0x2F;
        let length = self.number()? as usize;
        if ends {
            return (length == 0 && self.unread.is_empty()).then_some(Event::EndOfTrack);
        }
        self.unread = self.unread.get(length..)?;
        Some(Event::Other)
    }

    /// A number in one to four groups of seven bits.
    #[inline]
    fn number(&mut self) -> Option<u32> {
        let mut value = 0;
        for _ in 0..4 {
            let (&byte, behind) = self.unread.split_first()?;
            self.unread = behind;
            value = value << 7 | u32::from(byte & 0x7F);
            if byte < 0x80 {
                return Some(value);
            }
        }
        None
    }

    /// A byte below 80.
    #[inline]
    fn data_byte(&mut self) -> Option<u8> {
        let (&byte, behind) = self.unread.split_first()?;
        self.unread = behind;
        (byte < 0x80).then_some(byte)
    }
}
