//! Write: the one file of a take, and files that are loaded again.

mod common;

use common::{compared, file, fresh, notes, shelf};
use reference::call::Call;
use reference::generate::notes::{self as note_lists, Measures};
use reference::generate::{calls, files};
use reference::plain;
use reference::random::Random;

#[test]
fn the_order_of_written_events() {
    let mut session = fresh(10, 3, 2, 200);
    let list = [[3, 0, 10, 1], [3, 10, 20, 2], [5, 4, 10, 3], [200, 10, 12, 4], [2047, 2, 10, 127]];
    assert_eq!(reference::lay(&mut session, 0, 30, list.as_flattened()), 0);
    let track = [
        &[0, 0x90, 3, 1, 2, 0x9F, 127, 127, 2, 0x90, 5, 3, 6, 0x80, 3, 64][..],
        &[0, 0x80, 5, 64, 0, 0x8F, 127, 64, 0, 0x90, 3, 2, 0, 0x91, 72, 4],
        &[2, 0x81, 72, 64, 8, 0x80, 3, 64, 0x82, 0x18, 0xFF, 0x2F, 0],
    ];
    let head = b"MThd\0\0\0\x06\0\0\0\x01\0\x0AMTrk\0\0\0\x2D";
    assert_eq!(file(&session, 0), [&head[..], &track.concat()].concat());
}

#[test]
fn written_times_take_the_fewest_groups() {
    for (ticks, groups) in [
        (127, &[0x7F][..]),
        (128, &[0x81, 0]),
        (16_383, &[0xFF, 0x7F]),
        (16_384, &[0x81, 0x80, 0]),
        (2_097_151, &[0xFF, 0xFF, 0x7F]),
        (2_097_152, &[0x81, 0x80, 0x80, 0]),
        (134_213_631, &[0xBF, 0xFF, 0xDF, 0x7F]),
    ] {
        let mut session = fresh(32_767, 3, 1, 30_000);
        assert_eq!(reference::lay(&mut session, 0, 4096, &[7, ticks, ticks + 1, 9]), 0);
        let written = file(&session, 0);
        assert_eq!(written[22..22 + groups.len()], *groups, "{ticks} ticks");
        assert_eq!(written[22 + groups.len()..][..3], [0x90, 7, 9], "{ticks} ticks");
    }
}

#[test]
fn all_sizes_of_output_around_a_file() {
    let mut session = fresh(10, 3, 1, 200);
    let list = [[60, 5, 25, 100], [61, 8, 12, 80]];
    assert_eq!(reference::lay(&mut session, 0, 30, list.as_flattened()), 0);
    let length = file(&session, 0).len();
    for size in 0..length + 20 {
        let mut output: Vec<u8> = (0..size).map(|place| place as u8 ^ 0x5A).collect();
        let call = Call::Write { shelf: 0 };
        let number = compared(&call, &mut session, &mut output, &format!("{size} bytes"));
        assert_eq!(number, if size < length { 15 } else { 0 }, "{size} bytes of {length}");
    }
}

/// A recording with anything from no notes to several hundred.
fn random_recording(random: &mut Random) -> (Vec<u32>, Measures) {
    let delta = random.pick(&[1, 2, 7, 10, 96, 480, 32_767]);
    let m = Measures { delta, epsilon: random.between(1, delta), beats: random.between(0, 40) };
    let most = random.pick(&[1, 6, 60]);
    let lanes = note_lists::lanes(random, most);
    (note_lists::list(random, &m, &lanes), m)
}

#[test]
fn written_then_loaded() {
    for seed in 0..1500 {
        let mut random = Random::new(8_000_000 + seed);
        let (list, m) = random_recording(&mut random);
        let mut session = fresh(m.delta, m.epsilon, 3, 60_000);
        assert_eq!(reference::lay(&mut session, 0, m.beats, &list), 0, "seed {seed}");
        let written = file(&session, 0);
        let own = plain::machine::notes_of_list(&list);
        let literal = plain::file::written(m.beats.into(), &own, m.delta.into());
        assert!(written == literal, "seed {seed}");
        assert_eq!(reference::load(&mut session, 1, &written), 0, "seed {seed}");
        assert!(shelf(&session, 0) == shelf(&session, 1), "seed {seed}");
        // The same list through a file with all liberties.
        let free = files::file(&mut random, m.delta, &list, m.beats * m.delta);
        assert_eq!(reference::load(&mut session, 2, &free), 0, "seed {seed}: {free:02X?}");
        assert!(shelf(&session, 0) == shelf(&session, 2), "seed {seed}");
    }
}

#[test]
fn written_after_cuts_then_loaded() {
    let sizes = calls::Sizes { most_beats: 6, most_lanes: 4, odd: 1000 };
    for seed in 0..300 {
        let mut random = Random::new(9_000_000 + seed);
        let delta = random.between(2, 12);
        let mut session = fresh(delta, random.between(1, delta), 6, 600);
        for _ in 0..40 {
            let call = calls::next(&mut random, &session, &sizes);
            reference::call::perform(&call, &mut session, &mut []);
        }
        for number in 0..5 {
            let written = file(&session, number);
            // Hidden pieces may have more cells than the notes of the file.
            if reference::load(&mut session, 5, &written) == 0 {
                assert_eq!(shelf(&session, 5)[0], shelf(&session, number)[0], "seed {seed}");
                assert_eq!(notes(&session, 5), notes(&session, number), "seed {seed}");
            }
        }
    }
}

#[test]
fn many_events_far_apart() {
    for seed in 0..20 {
        let mut random = Random::new(12_000_000 + seed);
        let delta = random.pick(&[2, 40, 1000, 32_767]);
        let mut list = Vec::new();
        for lane in 0..300 {
            let beat = random.below(4096);
            let start = beat * delta + random.below(delta);
            list.extend([lane * 6, start, start + 1, random.between(1, 127)]);
        }
        let mut session = fresh(delta, 1, 1, 6000);
        assert_eq!(reference::lay(&mut session, 0, 4096, &list), 0, "seed {seed}");
        let own = plain::machine::notes_of_list(&list);
        let literal = plain::file::written(4096, &own, delta.into());
        assert!(file(&session, 0) == literal, "seed {seed}");
    }
}
