//! Every question of every call, alone and together with a later one, and
//! that a refusal changes nothing.

mod common;

use common::{compared, fresh, shelf_mut};
use reference::call::Call;
use reference::lay;

/// A call on a session with an output.
#[derive(Clone)]
struct Situation {
    session: Vec<u32>,
    call: Call,
    output: Vec<u8>,
}

/// A question's number and a change after which its answer is no.
type Spoiler = (u32, fn(&mut Situation));

/// Without a change the call is accepted; with one, its number is returned;
/// with two, the one that is printed first. Later questions are spoiled
/// first, because an earlier one's change may hide what a later one needs.
fn check_all(name: &str, accepted: &Situation, spoilers: &[Spoiler]) {
    check(name, accepted.clone(), 0);
    for (place, &(number, spoil)) in spoilers.iter().enumerate() {
        let mut once = accepted.clone();
        spoil(&mut once);
        check(name, once, number);
        for &(_, spoil_later) in &spoilers[place + 1..] {
            let mut twice = accepted.clone();
            spoil_later(&mut twice);
            spoil(&mut twice);
            check(name, twice, number);
        }
    }
    let mut all = accepted.clone();
    for (_, spoil) in spoilers.iter().rev() {
        spoil(&mut all);
    }
    check(name, all, spoilers[0].0);
}

fn check(name: &str, mut situation: Situation, expected: u32) {
    let before = situation.clone();
    let Situation { session, call, output } = &mut situation;
    let number = compared(call, session, output, name);
    assert_eq!(number, expected, "{name}: {call:?}");
    if number > 0 {
        assert!(*session == before.session && *output == before.output, "{name}: {call:?}");
    }
}

/// Shelves 0 and 1 hold takes of two beats.
fn session() -> Vec<u32> {
    let mut session = fresh(10, 3, 4, 90);
    assert_eq!(lay(&mut session, 0, 2, &[60, 8, 12, 100]), 0);
    assert_eq!(lay(&mut session, 1, 2, &[60, 0, 20, 50]), 0);
    session
}

fn situation(call: Call) -> Situation {
    Situation { session: session(), call, output: vec![0xEE; 60] }
}

fn spoil_header(situation: &mut Situation) {
    situation.session[1] = 11;
}

/// Not sound: a word behind the cells.
fn spoil_shelf_0(situation: &mut Situation) {
    shelf_mut(&mut situation.session, 0)[89] = 1;
}

/// A take in shelf 0 that fills more than half a shelf.
fn crowd_shelf_0(situation: &mut Situation) {
    let list: Vec<u32> = (0..14).flat_map(|lane| [lane, 3, 5, 9]).collect();
    assert_eq!(lay(&mut situation.session, 0, 2, &list), 0);
}

/// The shelf, beats and list of a lay.
fn laid(situation: &mut Situation) -> (&mut u32, &mut u32, &mut Vec<u32>) {
    match &mut situation.call {
        Call::Lay { shelf, beats, notes } => (shelf, beats, notes),
        call => panic!("no lay: {call:?}"),
    }
}

#[test]
fn lay_asks_1_2_6_7_8() {
    let call = Call::Lay { shelf: 2, beats: 2, notes: vec![60, 8, 12, 100] };
    check_all(
        "lay",
        &situation(call),
        &[
            (1, spoil_header),
            (2, |s| *laid(s).0 = 4),
            (6, |s| *laid(s).1 = 4097),
            (7, |s| laid(s).2.push(0)),
            (8, |s| *laid(s).2 = (0..22).flat_map(|lane| [lane, 3, 5, 9]).collect()),
        ],
    );
}

#[test]
fn split_asks_1_2_3_4_5() {
    check_all(
        "split",
        &situation(Call::Split { take: 0, beat: 1, left: 2, right: 3 }),
        &[
            (1, spoil_header),
            (2, |s| {
                if let Call::Split { right, .. } = &mut s.call {
                    *right = 4
                }
            }),
            (3, |s| {
                if let Call::Split { left, .. } = &mut s.call {
                    *left = 0
                }
            }),
            (4, spoil_shelf_0),
            (5, |s| {
                if let Call::Split { beat, .. } = &mut s.call {
                    *beat = 3
                }
            }),
        ],
    );
}

#[test]
fn split_shelf_numbers() {
    for numbers in 0..5 * 5 * 5 {
        let (take, left, right) = (numbers / 25, numbers / 5 % 5, numbers % 5);
        let expected = if [take, left, right].contains(&4) {
            2
        } else if take == left || take == right || left == right {
            3
        } else {
            0
        };
        check("split", situation(Call::Split { take, beat: 0, left, right }), expected);
    }
}

/// The shelves of a join.
fn joined(situation: &mut Situation) -> (&mut u32, &mut u32, &mut u32) {
    match &mut situation.call {
        Call::Join { first, second, result } => (first, second, result),
        call => panic!("no join: {call:?}"),
    }
}

#[test]
fn join_asks_1_2_3_4_6_8() {
    check_all(
        "join",
        &situation(Call::Join { first: 0, second: 1, result: 2 }),
        &[
            (1, spoil_header),
            (2, |s| *joined(s).1 = u32::MAX),
            (3, |s| *joined(s).2 = 0),
            (4, spoil_shelf_0),
            // Beats of silence behind the notes.
            (6, |s| shelf_mut(&mut s.session, 0)[0] = 4095),
            (8, |s| {
                crowd_shelf_0(s);
                s.call = Call::Join { first: 0, second: 0, result: 2 };
            }),
        ],
    );
}

#[test]
fn join_shelf_numbers() {
    for numbers in 0..5 * 5 * 5 {
        let (first, second, result) = (numbers / 25, numbers / 5 % 5, numbers % 5);
        let expected = if [first, second, result].contains(&4) {
            2
        } else if result == first || result == second {
            3
        } else {
            0
        };
        check("join", situation(Call::Join { first, second, result }), expected);
    }
}

#[test]
fn join_reads_both_shelves() {
    for (first, second) in [(0, 1), (1, 0), (0, 0), (1, 1)] {
        let mut unsound = situation(Call::Join { first, second, result: 2 });
        spoil_shelf_0(&mut unsound);
        let expected = if (first, second) == (1, 1) { 0 } else { 4 };
        check("join", unsound, expected);
    }
    // A written shelf need not be sound.
    let mut overwritten = situation(Call::Join { first: 1, second: 1, result: 0 });
    spoil_shelf_0(&mut overwritten);
    check("join", overwritten, 0);
    let mut overwritten = situation(Call::Split { take: 1, beat: 1, left: 0, right: 2 });
    spoil_shelf_0(&mut overwritten);
    check("split", overwritten, 0);
}

#[test]
fn write_asks_1_2_4_15() {
    check_all(
        "write",
        &situation(Call::Write { shelf: 0 }),
        &[
            (1, spoil_header),
            (2, |s| s.call = Call::Write { shelf: 4 }),
            (4, spoil_shelf_0),
            (15, |s| s.output.truncate(33)),
        ],
    );
}

/// A file of a header, a chunk and a track of two starts and an end of track.
fn small_file() -> Vec<u8> {
    let mut file = b"MThd\0\0\0\x06\0\0\0\x01\0\x0AXtra\0\0\0\x01\x55MTrk\0\0\0\x0C".to_vec();
    file.extend([0x05, 0x90, 60, 9, 0x01, 0x90, 61, 9, 0x03, 0xFF, 0x2F, 0x00]);
    file
}

/// Where the track's events begin in that file.
const EVENTS: usize = 31;

fn file_of(situation: &mut Situation) -> &mut Vec<u8> {
    match &mut situation.call {
        Call::Load { file, .. } => file,
        call => panic!("{call:?}"),
    }
}

#[test]
fn load_asks_1_2_9_10_11_12() {
    check_all(
        "load",
        &situation(Call::Load { shelf: 2, file: small_file() }),
        &[
            (1, spoil_header),
            (2, |s| {
                if let Call::Load { shelf, .. } = &mut s.call {
                    *shelf = 4
                }
            }),
            (9, |s| file_of(s)[3] = b'D'),
            (10, |s| file_of(s)[9] = 1),
            (11, |s| file_of(s)[26] = b'K'),
            (12, |s| file_of(s)[EVENTS + 6] = 0x80),
        ],
    );
}

/// A load of a changed file.
fn with(change: fn(&mut Vec<u8>)) -> Situation {
    let mut file = small_file();
    change(&mut file);
    situation(Call::Load { shelf: 2, file })
}

#[test]
fn load_asks_13_and_14() {
    // 13 and 14 alone, and each with the other and 12 in one event.
    check("13", with(|file| set_time(file, 4, 40_960)), 13);
    check("14", with(|file| file[EVENTS + 6] = 60), 14);
    let both = with(|file| {
        file[EVENTS + 6] = 60;
        set_time(file, 4, 40_960);
    });
    check("13 before 14", both, 13);
    let all = with(|file| {
        file[EVENTS + 6] = 60;
        file[EVENTS + 7] = 0x80;
        set_time(file, 4, 40_960);
    });
    check("12 before 13", all, 12);
}

#[test]
fn load_asks_event_by_event() {
    // An earlier event's 13 or 14 comes before a later event's 12.
    let late_damage = with(|file| {
        file[EVENTS + 6] = 60;
        file[EVENTS + 10] = 0xF1;
    });
    check("14 before a later 12", late_damage, 14);
    let late_damage = with(|file| {
        file[EVENTS + 9] = 0xF1;
        set_time(file, 4, 40_960);
    });
    check("13 before a later 12", late_damage, 13);
}

/// Puts a time of three bytes in the place of the byte at an event's start.
fn set_time(file: &mut Vec<u8>, event: usize, ticks: u32) {
    let groups = [ticks >> 14 | 0x80, ticks >> 7 & 0x7F | 0x80, ticks & 0x7F];
    file.splice(EVENTS + event..EVENTS + event + 1, groups.map(|group| group as u8));
    file[EVENTS - 1] += 2;
}

#[test]
fn load_asks_8_behind_the_events() {
    let mut events = Vec::new();
    for key in 0..22 {
        events.extend([0, 0x90, key, 9]);
    }
    let last = events.len();
    events.extend([0x03, 0xFF, 0x2F, 0x00]);
    for (place, byte, expected) in
        [(last, 0x03, 8), (last + 3, 0x01, 12), (last - 2, 20, 14), (last + 1, 0x90, 12)]
    {
        let mut file = b"MThd\0\0\0\x06\0\0\0\x01\0\x0AMTrk\0\0\0".to_vec();
        file.push(events.len() as u8);
        file.extend(&events);
        file[22 + place] = byte;
        check("8 last", situation(Call::Load { shelf: 2, file }), expected);
    }
}
