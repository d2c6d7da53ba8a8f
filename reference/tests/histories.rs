//! Random lists of calls against the plain machine and the literal calls.

mod common;

use common::{compared, fresh, shelf};
use reference::call::{perform, Call};
use reference::generate::calls::{self, Sizes};
use reference::generate::notes::{self, Measures};
use reference::plain::machine::Machine;
use reference::random::Random;

fn opened(call: &Call) -> (Vec<u32>, Machine) {
    let Call::Open { delta, epsilon, shelves, shelf_words } = *call else {
        panic!("not an open: {call:?}");
    };
    (
        fresh(delta, epsilon, shelves, shelf_words),
        Machine::new(delta, epsilon, shelves, shelf_words),
    )
}

/// All words of all shelves are those that the histories give.
fn assert_histories(machine: &Machine, session: &[u32], context: &str) {
    for number in 0..session[2] {
        let given = machine.words(number as usize);
        assert!(
            shelf(session, number) == given,
            "{context}: shelf {number}\nhas   {:?}\ngiven {given:?}",
            shelf(session, number)
        );
    }
}

/// A shelf that holds all beats of one recording in order holds its words.
fn assert_whole_recordings(machine: &Machine, session: &[u32], context: &str) -> u32 {
    let mut found = 0;
    for (number, history) in (0..).zip(&machine.histories) {
        let Some(&(recording, _)) = history.first() else { continue };
        let whole = &machine.recordings[recording];
        if *history != (0..whole.beats).map(|beat| (recording, beat)).collect::<Vec<_>>() {
            continue;
        }
        let notes = common::notes(session, number);
        let own: Vec<[u32; 4]> = whole
            .notes
            .iter()
            .map(|note| [note.lane, note.start, note.end, note.velocity].map(|word| word as u32))
            .collect();
        assert_eq!(notes, own, "{context}: shelf {number} is recording {recording}");
        found += 1;
    }
    found
}

fn some_sizes(random: &mut Random) -> Sizes {
    Sizes {
        most_beats: random.pick(&[2, 4, 7]),
        most_lanes: random.pick(&[1, 2, 4]),
        odd: random.pick(&[8, 20]),
    }
}

#[test]
fn random_lists_of_calls() {
    let mut counts = [0u32; 16];
    let mut whole = 0;
    for seed in 0..5000 {
        let mut random = Random::new(seed);
        let sizes = some_sizes(&mut random);
        let (mut session, mut machine) = opened(&calls::open(&mut random, 2500));
        let mut output = vec![0xA5; random.pick(&[40, 100, 600])];
        for step in 0..50 {
            let call = calls::next(&mut random, &session, &sizes);
            let context = format!("seed {seed}, call {step}");
            let number = compared(&call, &mut session, &mut output, &context);
            machine.follow(&call, number);
            assert_histories(&machine, &session, &format!("{context}, {call:?}"));
            whole += assert_whole_recordings(&machine, &session, &context);
            counts[number as usize] += 1;
        }
    }
    // The lists reach every number that calls can give on a sound session.
    for number in [0, 2, 3, 5, 6, 7, 8, 9, 10, 11, 12, 13, 14, 15] {
        assert!(counts[number] > 20, "number {number} occurs only {} times", counts[number]);
    }
    assert!(counts[0] > 160_000 && whole > 20_000, "{counts:?}, {whole}");
}

/// A session whose recording lies cut beat by beat in the shelves from 1 on.
fn cut_into_beats(random: &mut Random, beats: u32) -> (Vec<u32>, Machine) {
    let delta = random.between(1, 10);
    let epsilon = random.between(1, delta);
    let (mut session, mut machine) =
        opened(&Call::Open { delta, epsilon, shelves: beats + 4, shelf_words: 900 });
    let lanes = notes::lanes(random, 3);
    let list = notes::list(random, &Measures { delta, epsilon, beats }, &lanes);
    let mut calls = vec![Call::Lay { shelf: 0, beats, notes: list }];
    // The rest goes to and fro between two spare shelves.
    let spare = [beats + 1, beats + 2];
    for beat in 0..beats {
        let (take, right) = match beat {
            0 => (0, spare[0]),
            _ => (spare[(beat as usize - 1) % 2], spare[beat as usize % 2]),
        };
        calls.push(Call::Split { take, beat: 1, left: beat + 1, right });
    }
    for call in calls {
        let (number, _) = perform(&call, &mut session, &mut []);
        assert_eq!(number, 0, "{call:?}");
        machine.follow(&call, number);
    }
    (session, machine)
}

/// Joins neighbours in a list of shelves until one is left, in random order.
fn join_all(
    random: &mut Random,
    mut shelves: Vec<u32>,
    session: &mut [u32],
    machine: &mut Machine,
    context: &str,
) -> u32 {
    let mut free = session[2] - 1;
    while shelves.len() > 1 {
        let at = random.below(shelves.len() as u32 - 1) as usize;
        let call = Call::Join { first: shelves[at], second: shelves[at + 1], result: free };
        let number = compared(&call, session, &mut [], context);
        assert_eq!(number, 0, "{context}, {call:?}");
        machine.follow(&call, number);
        assert_histories(machine, session, context);
        free = std::mem::replace(&mut shelves[at], free);
        shelves.remove(at + 1);
    }
    shelves[0]
}

#[test]
fn cut_into_beats_and_joined_in_order() {
    for seed in 0..400 {
        let mut random = Random::new(1_000_000 + seed);
        let beats = random.between(1, 12);
        let (mut session, mut machine) = cut_into_beats(&mut random, beats);
        let whole = shelf(&session, 0).to_vec();
        let context = format!("seed {seed}");
        let order = (1..=beats).collect();
        let last = join_all(&mut random, order, &mut session, &mut machine, &context);
        assert_eq!(shelf(&session, last), whole, "{context}");
    }
}

#[test]
fn cut_into_beats_and_joined_in_any_order() {
    for seed in 0..400 {
        let mut random = Random::new(2_000_000 + seed);
        let beats = random.between(2, 12);
        let (mut session, mut machine) = cut_into_beats(&mut random, beats);
        let mut order: Vec<u32> = (1..=beats).collect();
        for at in (1..order.len()).rev() {
            order.swap(at, random.below(at as u32 + 1) as usize);
        }
        join_all(&mut random, order, &mut session, &mut machine, &format!("seed {seed}"));
    }
}

/// A call that is accepted, and the words that the histories then give.
fn follow_accepted(call: &Call, session: &mut [u32], machine: &mut Machine, context: &str) {
    let (number, _) = perform(call, session, &mut []);
    assert_eq!(number, 0, "{context}, {call:?}");
    machine.follow(call, number);
    assert_histories(machine, session, context);
}

#[test]
fn all_lanes() {
    for seed in 0..6 {
        let mut random = Random::new(3_000_000 + seed);
        let (delta, epsilon, beats) = (6, 3, 3);
        let open = Call::Open { delta, epsilon, shelves: 5, shelf_words: 300_000 };
        let (mut session, mut machine) = opened(&open);
        let lanes: Vec<u32> = (0..2048).collect();
        let list = notes::list(&mut random, &Measures { delta, epsilon, beats }, &lanes);
        let calls = [
            Call::Lay { shelf: 0, beats, notes: list },
            Call::Split { take: 0, beat: 1, left: 1, right: 2 },
            Call::Join { first: 1, second: 2, result: 3 },
            Call::Join { first: 2, second: 1, result: 4 },
            Call::Split { take: 4, beat: 1, left: 1, right: 2 },
            Call::Join { first: 2, second: 2, result: 4 },
        ];
        let context = format!("seed {seed}, all lanes");
        for call in &calls {
            follow_accepted(call, &mut session, &mut machine, &context);
            let occurring = common::cells(&session, 0).chunk_by(|a, b| a[0] == b[0]).count();
            assert!(occurring > 1700, "{context}: {occurring} lanes");
        }
    }
}

#[test]
fn takes_of_4096_beats() {
    for seed in 0..4 {
        let mut random = Random::new(4_000_000 + seed);
        let (delta, epsilon) = random.pick(&[(1, 1), (3, 2), (32_767, 9)]);
        let open = Call::Open { delta, epsilon, shelves: 4, shelf_words: 160_000 };
        let (mut session, mut machine) = opened(&open);
        let end = 4096 * delta;
        // Neighbouring lanes: the last beat of one comes before the next's first.
        let list = vec![5, 0, end, 9, 6, 0, end - delta, 8, 6, end - delta, end, 7];
        let cut = random.between(1, 4095);
        let calls = [
            Call::Lay { shelf: 0, beats: 4096, notes: list },
            Call::Split { take: 0, beat: cut, left: 1, right: 2 },
            Call::Join { first: 1, second: 2, result: 3 },
            Call::Join { first: 2, second: 1, result: 0 },
            Call::Split { take: 0, beat: 4096, left: 1, right: 2 },
        ];
        for call in &calls {
            follow_accepted(call, &mut session, &mut machine, &format!("seed {seed}, 4096 beats"));
        }
        let too_long = Call::Join { first: 1, second: 3, result: 2 };
        assert_eq!(perform(&too_long, &mut session, &mut []).0, 6, "seed {seed}");
    }
}
