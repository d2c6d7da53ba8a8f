//! Question 4 on random words: the fast check against the literal one on
//! damaged shelves and random sessions, and calls on sound shelves that no
//! list of calls led to.

mod common;

use common::{compared, fresh, measures, shelf, shelf_mut};
use reference::call::Call;
use reference::generate::calls::{self, Sizes};
use reference::generate::takes;
use reference::plain::sound::broken;
use reference::random::Random;
use reference::{header, sound};

/// A session after some random calls, for damage.
fn random_session(random: &mut Random) -> Vec<u32> {
    let Call::Open { delta, epsilon, shelves, .. } = calls::open(random, 2000) else {
        panic!("not an open");
    };
    let mut session = fresh(delta, epsilon, shelves, 150);
    let sizes = Sizes { most_beats: 3, most_lanes: 2, odd: 1000 };
    for _ in 0..12 {
        let call = calls::next(random, &session, &sizes);
        reference::call::perform(&call, &mut session, &mut []);
    }
    session
}

/// Changes one word a little or altogether.
fn damage_word(random: &mut Random, words: &mut [u32]) {
    let used = 3 + 4 * words[1] as u64 + 6 * words[2] as u64;
    let near = used.min(words.len() as u64) as u32;
    let place = match random.one_in(20) {
        true => random.below(words.len() as u32),
        false => random.below(near),
    } as usize;
    words[place] = match random.below(6) {
        0 => random.next_number() as u32,
        1 => random.pick(&[0, 1, 2, 128, 2048, 4096, u32::MAX]),
        2 => random.pick(words),
        _ => words[place].wrapping_add(random.pick(&[1, 2, 3, u32::MAX, u32::MAX - 1])),
    };
}

#[test]
fn random_damage() {
    let (mut sound_ones, mut all) = (0, 0);
    for seed in 0..6000 {
        let mut random = Random::new(5_000_000 + seed);
        let session = random_session(&mut random);
        for number in 0..session[2] {
            for _ in 0..12 {
                let mut words = shelf(&session, number).to_vec();
                for _ in 0..random.pick(&[1, 1, 1, 2, 4]) {
                    damage_word(&mut random, &mut words);
                }
                let header = header::read(&session).unwrap();
                let clauses = broken(&words, &measures(&session));
                let fast = sound::read(&words, &header).is_some();
                assert_eq!(fast, clauses.is_empty(), "seed {seed}: {clauses:?}, {words:?}");
                sound_ones += u32::from(fast);
                all += 1;
            }
        }
    }
    assert!(all > 300_000 && sound_ones > 40_000, "{sound_ones} of {all} are sound");
}

#[test]
fn sessions_of_random_words() {
    for seed in 0..20_000 {
        let mut random = Random::new(6_000_000 + seed);
        let shelf_words = random.between(3, 40);
        let mut session = vec![random.between(1, 9), 1, 3, shelf_words];
        session[1] = random.between(1, session[0]);
        let small = random.pick(&[2, 4, 16]);
        for _ in 0..3 * shelf_words {
            let word = match random.one_in(20) {
                true => random.next_number() as u32,
                false => random.below(small),
            };
            session.push(word);
        }
        let sizes = Sizes { most_beats: 3, most_lanes: 2, odd: 10 };
        for step in 0..6 {
            let call = calls::next(&mut random, &session, &sizes);
            let context = format!("random words, seed {seed}, call {step}");
            compared(&call, &mut session, &mut [1; 90], &context);
        }
    }
}

/// Fills a shelf with free cells and the notes that the rules give from them.
fn put_free_take(random: &mut Random, session: &mut [u32], number: u32) {
    let words = takes::shelf_words(random, session).expect("it fits");
    shelf_mut(session, number).copy_from_slice(&words);
}

#[test]
fn calls_on_free_sound_shelves() {
    for seed in 0..20_000 {
        let mut random = Random::new(7_000_000 + seed);
        let delta = random.between(1, 9);
        let epsilon = random.between(1, delta);
        let mut session = fresh(delta, epsilon, 4, 400);
        put_free_take(&mut random, &mut session, 0);
        put_free_take(&mut random, &mut session, 1);
        for (number, step) in [(0, "first"), (1, "second")] {
            let clauses = broken(shelf(&session, number), &measures(&session));
            assert_eq!(clauses, [], "seed {seed}, {step} take");
        }
        let beat = random.below(shelf(&session, 0)[0] + 1);
        for call in [
            Call::Split { take: 0, beat, left: 2, right: 3 },
            Call::Join { first: 0, second: 1, result: 2 },
            Call::Join { first: 1, second: 0, result: 3 },
            Call::Join { first: 2, second: 2, result: 3 },
            Call::Split { take: 2, beat, left: 0, right: 1 },
            Call::Write { shelf: 2 },
        ] {
            let number = compared(&call, &mut session, &mut [0; 4000], &format!("seed {seed}"));
            assert!(number == 0 || number == 8, "seed {seed}: {number}, {call:?}");
        }
    }
}
