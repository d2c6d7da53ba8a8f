//! Load: every kind of event, and everything that makes a file refused.

mod common;

use common::{cells, compared, fresh, notes, shelf};
use reference::call::Call;
use reference::generate::files;
use reference::generate::notes::{self as note_lists, Measures};
use reference::random::Random;

/// A file of δ 10 with one track.
fn with_track(track: &[u8]) -> Vec<u8> {
    let mut file = b"MThd\0\0\0\x06\0\0\0\x01\0\x0AMTrk".to_vec();
    file.extend((track.len() as u32).to_be_bytes());
    file.extend(track);
    file
}

/// Loads a file in δ 10, ε 3, compared with the literal load.
fn loaded(file: &[u8]) -> Result<(u32, Vec<[u32; 4]>), u32> {
    let mut session = fresh(10, 3, 2, 2000);
    let call = Call::Load { shelf: 1, file: file.to_vec() };
    match compared(&call, &mut session, &mut [], "load") {
        0 => Ok((shelf(&session, 1)[0], notes(&session, 1))),
        number => Err(number),
    }
}

/// The answer for a track that has these events before its end at 20.
fn events(bytes: &[u8]) -> Result<Vec<[u32; 4]>, u32> {
    loaded(&with_track(&[bytes, &[0x00, 0xFF, 0x2F, 0x00]].concat())).map(|(_, notes)| notes)
}

const NOTE: [u32; 4] = [60, 5, 8, 9];

#[test]
fn note_events() {
    let note = Ok(vec![NOTE]);
    assert_eq!(events(&[5, 0x90, 60, 9, 3, 0x80, 60, 64]), note);
    assert_eq!(events(&[5, 0x90, 60, 9, 3, 0x80, 60, 0]), note);
    assert_eq!(events(&[5, 0x90, 60, 9, 3, 0x90, 60, 0]), note);
    // Left sounding: the end of track ends it.
    assert_eq!(events(&[5, 0x90, 60, 9, 3, 0xC0, 1]), note);
    // Ends in silent lanes, and a second end.
    assert_eq!(events(&[0, 0x80, 60, 1, 5, 0x90, 60, 9, 3, 0x80, 60, 64, 1, 0x80, 60, 64]), note);
    assert_eq!(events(&[0, 0x90, 61, 0, 5, 0x90, 60, 9, 3, 0x80, 60, 64]), note);
    // Every channel and the outermost keys.
    for channel in 0..16u8 {
        for key in [0, 127] {
            let lane = u32::from(channel) * 128 + u32::from(key);
            let played = events(&[5, 0x90 | channel, key, 127, 3, 0x80 | channel, key, 64]);
            assert_eq!(played, Ok(vec![[lane, 5, 8, 127]]));
        }
    }
}

#[test]
fn notes_of_length_0() {
    assert_eq!(events(&[5, 0x90, 60, 9, 0, 0x80, 60, 64]), Ok(vec![]));
    assert_eq!(events(&[5, 0x90, 60, 9]), Ok(vec![]));
    // It sounds until it ends, and its lane is silent behind that.
    assert_eq!(events(&[5, 0x90, 60, 9, 0, 0x90, 60, 9]), Err(14));
    let again = events(&[5, 0x90, 60, 7, 0, 0x80, 60, 0, 0, 0x90, 60, 9, 3, 0x80, 60, 64]);
    assert_eq!(again, Ok(vec![NOTE]));
}

#[test]
fn running_status() {
    let note = Ok(vec![NOTE]);
    assert_eq!(events(&[5, 0x90, 60, 9, 3, 60, 0]), note);
    // Carried on through other channel events, each with its own.
    assert_eq!(events(&[0, 0xB0, 7, 100, 0, 8, 100, 5, 0x90, 60, 9, 3, 60, 0]), note);
    assert_eq!(events(&[0, 0xC5, 7, 0, 8, 5, 0x90, 60, 9, 3, 60, 0]), note);
    for ending in [&[0xFF, 0x01, 0][..], &[0xF0, 0], &[0xF7, 0]] {
        let broken = [&[5, 0x90, 60, 9, 0], ending, &[3, 60, 0]].concat();
        assert_eq!(events(&broken), Err(12), "{ending:?}");
        let right = [&[5, 0x90, 60, 9, 0], ending, &[3, 0x90, 60, 0]].concat();
        assert_eq!(events(&right), note, "{ending:?}");
    }
    assert_eq!(events(&[5, 60, 9]), Err(12));
    // An end of track after running status has its own FF.
    assert_eq!(loaded(&with_track(&[5, 0x90, 60, 9, 3, 0x2F, 0])), Err(12));
}

#[test]
fn events_that_are_read_over() {
    let around = |event: &[u8]| {
        events(&[&[0], event, &[5, 0x90, 60, 9, 0], event, &[3, 0x80, 60, 64, 0], event].concat())
    };
    for status in 0xA0..=0xEF {
        let two = [status, 60, 1];
        let count = if (0xC0..=0xDF).contains(&status) { 2 } else { 3 };
        assert_eq!(around(&two[..count]), Ok(vec![NOTE]), "{status:02X}");
    }
    for kind in (0..=0x7F).filter(|&kind| kind != 0x2F) {
        assert_eq!(around(&[0xFF, kind, 0]), Ok(vec![NOTE]), "meta {kind:02X}");
        assert_eq!(around(&[0xFF, kind, 3, 0xFF, 0x2F, 0x00]), Ok(vec![NOTE]), "meta {kind:02X}");
    }
    for status in [0xF0, 0xF7] {
        assert_eq!(around(&[status, 0]), Ok(vec![NOTE]));
        assert_eq!(around(&[status, 4, 0xF7, 0x90, 60, 0xFF]), Ok(vec![NOTE]));
        assert_eq!(around(&[status, 0x80, 0x80, 0x80, 1, 0x95]), Ok(vec![NOTE]));
        let long = [&[status, 0x81, 0x00][..], &[0xEE; 128]].concat();
        assert_eq!(around(&long), Ok(vec![NOTE]));
    }
}

#[test]
fn illegal_statuses_and_data() {
    for status in (0xF1..=0xFE).filter(|&status| status != 0xF7) {
        assert_eq!(events(&[0, status, 0, 0]), Err(12), "{status:02X}");
    }
    for status in 0x80..=0xEF {
        assert_eq!(events(&[0, status, 0x80, 0]), Err(12), "{status:02X}");
        // With one data byte, 80 00 would be the next event's time.
        if !(0xC0..=0xDF).contains(&status) {
            assert_eq!(events(&[0, status, 60, 0x80]), Err(12), "{status:02X}");
        }
    }
    for kind in 0x80..=0xFF {
        assert_eq!(events(&[0, 0xFF, kind, 0]), Err(12), "meta {kind:02X}");
    }
}

#[test]
fn times_in_groups() {
    for time in [&[5][..], &[0x80, 5], &[0x80, 0x80, 5], &[0x80, 0x80, 0x80, 5]] {
        let bytes = [time, &[0x90, 60, 9, 3, 0x80, 60, 64]].concat();
        assert_eq!(events(&bytes), Ok(vec![NOTE]), "{time:?}");
    }
    assert_eq!(events(&[0x80, 0x80, 0x80, 0x80, 5, 0x90, 60, 9]), Err(12));
    let two_groups = events(&[0x81, 0x05, 0x90, 60, 9, 3, 60, 0]);
    assert_eq!(two_groups, Ok(vec![[60, 133, 136, 9]]));
    assert_eq!(events(&[0, 0xF0, 0x80, 0x80, 0x80, 0x80, 0]), Err(12));
    assert_eq!(events(&[0, 0xFF, 1, 0x80, 0x80, 0x80, 0x80, 0]), Err(12));
}

#[test]
fn the_end_of_track() {
    assert_eq!(loaded(&with_track(&[0, 0xFF, 0x2F, 0])), Ok((0, vec![])));
    for length in [&[0x80, 0][..], &[0x80, 0x80, 0], &[0x80, 0x80, 0x80, 0]] {
        let track = [&[0, 0xFF, 0x2F], length].concat();
        assert_eq!(loaded(&with_track(&track)), Ok((0, vec![])), "{length:?}");
    }
    for (time, beats) in [(1, 1), (9, 1), (10, 1), (11, 2), (20, 2), (21, 3)] {
        assert_eq!(loaded(&with_track(&[time, 0xFF, 0x2F, 0])), Ok((beats, vec![])), "{time}");
    }
    // Sounding notes end at the end's tick, not at the last line.
    let sounding = loaded(&with_track(&[5, 0x90, 60, 9, 8, 0xFF, 0x2F, 0]));
    assert_eq!(sounding, Ok((2, vec![[60, 5, 13, 9]])));
}

#[test]
fn a_wrong_end_of_track() {
    for track in [
        &[][..],
        &[0],
        &[0, 0xFF],
        &[0, 0xFF, 0x2F],
        &[0, 0xFF, 0x2F, 0x80],
        &[0, 0xFF, 0x2F, 0x80, 0x80, 0x80, 0x80, 0],
        &[0, 0xFF, 0x2F, 1],
        &[0, 0xFF, 0x2F, 1, 0],
        &[0, 0xFF, 0x2F, 0, 0],
        &[0, 0xFF, 0x2F, 0, 0, 0xFF, 0x2F, 0],
        &[0, 0x90, 60, 9],
        &[0, 0xFF, 0x01, 0],
    ] {
        assert_eq!(loaded(&with_track(track)), Err(12), "{track:?}");
    }
}

#[test]
fn every_shorter_track_is_refused_by_12() {
    let track = [
        5, 0x90, 60, 9, 0x80, 3, 60, 0, 0, 0xFF, 1, 2, 7, 7, 0, 0xF0, 0x80, 1, 0xF7, 0, 0xC0, 5, 1,
        0xFF, 0x2F, 0,
    ];
    assert_eq!(loaded(&with_track(&track)), Ok((1, vec![NOTE])));
    for length in 0..track.len() {
        assert_eq!(loaded(&with_track(&track[..length])), Err(12), "{length} bytes");
    }
    // The bytes behind a track that is too short do not help.
    let mut file = with_track(&track);
    file[21] -= 1;
    assert_eq!(loaded(&file), Err(12));
}

#[test]
fn the_time_limit() {
    // 40,960 is 4,096 × δ: 82 C0 00 in groups.
    let limit = [0x82, 0xC0, 0x00];
    let over = [0x82, 0xC0, 0x01];
    let end = [0xFF, 0x2F, 0];
    assert_eq!(loaded(&with_track(&[&limit[..], &end].concat())), Ok((4096, vec![])));
    assert_eq!(loaded(&with_track(&[&over[..], &end].concat())), Err(13));
    for event in [&[0x90, 60, 9][..], &[0x80, 60, 9], &[0xC0, 1], &[0xFF, 1, 0], &[0xF0, 0]] {
        let at = |time: &[u8]| loaded(&with_track(&[time, event, &[0], &end].concat()));
        assert_eq!(at(&limit), Ok((4096, vec![])), "{event:?}");
        assert_eq!(at(&over), Err(13), "{event:?}");
        assert_eq!(at(&[0xFF, 0xFF, 0xFF, 0x7F]), Err(13), "{event:?}");
    }
    let two_times = [&limit[..], &[0xC0, 1, 1], &end].concat();
    assert_eq!(loaded(&with_track(&two_times)), Err(13));
}

#[test]
fn headers() {
    let right = with_track(&[0, 0xFF, 0x2F, 0]);
    assert_eq!(loaded(&right), Ok((0, vec![])));
    for length in 0..14 {
        assert_eq!(loaded(&right[..length]), Err(9), "{length} bytes");
    }
    let changed = |place: usize, byte: u8| {
        let mut file = right.clone();
        file[place] = byte;
        loaded(&file)
    };
    for place in 0..4 {
        assert_eq!(changed(place, b'x'), Err(9));
    }
    for (place, byte) in [(7, 5), (7, 0), (4, 1), (5, 1), (6, 1), (4, 0xFF), (7, 19)] {
        assert_eq!(changed(place, byte), Err(9), "byte {place} is {byte}");
    }
    for (place, byte) in
        [(8, 1), (9, 1), (9, 2), (10, 1), (11, 0), (11, 2), (12, 1), (12, 0x80), (13, 9), (13, 11)]
    {
        assert_eq!(changed(place, byte), Err(10), "byte {place} is {byte}");
    }
    // A header as long as the file: no chunk follows.
    assert_eq!(changed(7, 18), Err(11));
}

#[test]
fn the_excess_of_a_longer_header_is_passed_over() {
    for excess in 0..4 {
        let mut file = with_track(&[0, 0xFF, 0x2F, 0]);
        file[7] += excess;
        for _ in 0..excess {
            file.insert(14, 0x4D);
        }
        assert_eq!(loaded(&file), Ok((0, vec![])), "{excess} more");
    }
}

#[test]
fn chunks() {
    let head = b"MThd\0\0\0\x06\0\0\0\x01\0\x0A";
    let track = b"MTrk\0\0\0\x04\x00\xFF\x2F\x00";
    let after = |middle: &[u8]| loaded(&[&head[..], middle, track].concat());
    assert_eq!(after(b""), Ok((0, vec![])));
    assert_eq!(after(b"Xtra\0\0\0\0"), Ok((0, vec![])));
    assert_eq!(after(b"Xtra\0\0\0\x03abcMThd\0\0\0\x01z"), Ok((0, vec![])));
    assert_eq!(after(b"Mtrk\0\0\0\x04\0\0\0\0"), Ok((0, vec![])));
    // Chunks that reach past the file, or just to its end.
    assert_eq!(after(b"Xtra\0\0\0\x0C"), Err(11));
    assert_eq!(after(b"Xtra\0\0\0\x0D"), Err(11));
    assert_eq!(after(b"Xtra\xFF\xFF\xFF\xFF"), Err(11));
    assert_eq!(after(b"Xtra\0\0\0\x05"), Err(11));
    let whole = [&head[..], track].concat();
    for length in 14..whole.len() {
        assert_eq!(loaded(&whole[..length]), Err(11), "{length} bytes");
    }
    // Bytes behind the first track are not read, a second track neither.
    for behind in [&b"M"[..], b"MTrk\xFF\xFF\xFF\xFF", b"MTrk\0\0\0\x01\xF1"] {
        assert_eq!(loaded(&[&whole[..], behind].concat()), Ok((0, vec![])));
    }
    let first_is_wrong = [&head[..], b"MTrk\0\0\0\x01\xF1", track].concat();
    assert_eq!(loaded(&first_is_wrong), Err(12));
}

#[test]
fn cells_of_a_loaded_take() {
    let mut session = fresh(10, 3, 2, 100);
    let file = with_track(&[5, 0x91, 60, 9, 17, 60, 0, 8, 0xFF, 0x2F, 0]);
    assert_eq!(reference::load(&mut session, 0, &file), 0);
    assert_eq!(notes(&session, 0), [[188, 5, 22, 9]]);
    let expected = [
        [188, 0, 1, 5, 12, 9],
        [188, 1, 0, 5, 12, 9],
        [188, 1, 1, 15, 2, 9],
        [188, 2, 0, 15, 2, 9],
    ];
    assert_eq!(cells(&session, 0), expected);
}

#[test]
fn damaged_files() {
    let mut numbers = [0u32; 16];
    for seed in 0..3000 {
        let mut random = Random::new(10_000_000 + seed);
        let m = Measures { delta: 10, epsilon: 3, beats: random.between(0, 8) };
        let lanes = note_lists::lanes(&mut random, 3);
        let list = note_lists::list(&mut random, &m, &lanes);
        let whole = files::file(&mut random, 10, &list, 10 * m.beats);
        for _ in 0..20 {
            let mut file = whole.clone();
            files::damage(&mut random, &mut file);
            numbers[loaded(&file).err().unwrap_or(0) as usize] += 1;
        }
    }
    for number in [0, 9, 10, 11, 12, 13, 14] {
        assert!(numbers[number] > 50, "{number}: {numbers:?}");
    }
}

#[test]
fn random_bytes() {
    for seed in 0..30_000 {
        let mut random = Random::new(11_000_000 + seed);
        let length = random.below(60);
        let common =
            [0, 0, 1, 2, 0x2F, 60, 60, 61, 0x80, 0x90, 0x90, 0x9F, 0xB0, 0xC0, 0xF0, 0xF7, 0xFF];
        let mut bytes: Vec<u8> = (0..length)
            .map(|_| if random.one_in(6) { random.below(256) as u8 } else { random.pick(&common) })
            .collect();
        if random.one_in(2) {
            bytes.extend([0, 0xFF, 0x2F, 0]);
        }
        let _ = loaded(&with_track(&bytes));
        let _ = loaded(&bytes);
        let _ = loaded(&[b"MThd\0\0\0\x06\0\0\0\x01\0\x0A", &bytes[..]].concat());
    }
}
