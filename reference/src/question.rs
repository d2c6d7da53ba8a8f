//! The numbers of the paper's questions, named by what each one asks.

/// 1: the four header words are in range and the session's length is exact.
pub const SESSION: u32 = 1;
/// 2: the shelf numbers are below K.
pub const SHELF_NUMBERS: u32 = 2;
/// 3: each written shelf differs from the other named ones.
pub const WRITTEN_SHELVES: u32 = 3;
/// 4: the shelves read are sound.
pub const SOUND: u32 = 4;
/// 5: the beat to split at is at most n.
pub const SPLIT_BEAT: u32 = 5;
/// 6: the result has at most 4,096 beats.
pub const BEATS: u32 = 6;
/// 7: the list is whole notes, in range, in order and without overlap.
pub const NOTE_LIST: u32 = 7;
/// 8: each result fits W words.
pub const ROOM: u32 = 8;
/// 9: MThd is there, its length 6 or more and all inside the file.
pub const FILE_HEADER: u32 = 9;
/// 10: format 0, one track, division equal to δ.
pub const FORMAT: u32 = 10;
/// 11: a complete MTrk is reached through complete chunks.
pub const TRACK: u32 = 11;
/// 12: the event's time, status and data are legal and inside the track.
pub const EVENT: u32 = 12;
/// 13: the event's time is at most 4,096 × δ.
pub const EVENT_TIME: u32 = 13;
/// 14: the lane is silent when a note starts.
pub const SILENT_LANE: u32 = 14;
/// 15: the file fits the output.
pub const OUTPUT_ROOM: u32 = 15;

/// The number that a call returns: 0 when every question was answered yes.
pub(crate) fn number(result: Result<(), u32>) -> u32 {
    result.err().unwrap_or(0)
}
