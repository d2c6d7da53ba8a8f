//! Joins, and the splits around them: on takes that lists of calls made, on
//! takes chosen freely, on shelves of which clauses are broken, and on any
//! words.

use crate::inputs;
use crate::pair::{Counts, Pair};
use reference::generate::calls::{self, Sizes};
use reference::generate::takes;
use reference::plain::rules;
use reference::plain::sound::{broken, Clause};
use reference::random::Random;

/// Which clauses were broken alone, and which two together, in shelves that
/// joins refused.
#[derive(Default)]
pub struct Broken {
    pub alone: Vec<Clause>,
    pub pairs: Vec<[Clause; 2]>,
}

impl Broken {
    fn note(&mut self, clauses: &[Clause]) {
        match *clauses {
            [one] if !self.alone.contains(&one) => self.alone.push(one),
            [one, other] if !self.pairs.contains(&[one, other]) => self.pairs.push([one, other]),
            _ => {}
        }
    }
}

fn measures(session: &[u32]) -> rules::Measures {
    rules::Measures {
        delta: session[0].into(),
        epsilon: session[1].into(),
        shelf_words: session[3].into(),
    }
}

fn fresh(
    random: &mut Random,
    shelves: u32,
    shelf_words: u32,
    counts: &mut Counts,
) -> Result<Pair, String> {
    let delta = random.pick(&[1, 2, 3, 10, 480]);
    let header = [delta, random.between(1, delta), shelves, shelf_words];
    let length = 4 + (shelves * shelf_words) as usize;
    let mut pair = Pair::new(inputs::words(random, length));
    pair.open(header, counts)?;
    Ok(pair)
}

/// Some hundreds of lays, splits and joins over many shelves.
pub fn long_list(random: &mut Random, counts: &mut Counts) -> Result<(), String> {
    let (shelves, shelf_words) = (random.between(3, 12), random.between(30, 600));
    let mut pair = fresh(random, shelves, shelf_words, counts)?;
    let sizes = Sizes { most_beats: 6, most_lanes: 3, odd: 30 };
    perform_some(random, &mut pair, 400, &sizes, counts)
}

/// So many random calls.
fn perform_some(
    random: &mut Random,
    pair: &mut Pair,
    calls: u32,
    sizes: &Sizes,
    counts: &mut Counts,
) -> Result<(), String> {
    for _ in 0..calls {
        let call = calls::next(random, &pair.second, sizes);
        pair.perform(&call, counts)?;
    }
    Ok(())
}

/// Two takes that a list of calls made, joined into a shelf that the result
/// fills to the last word, and into one that is a word too small.
pub fn just_fitting(random: &mut Random, counts: &mut Counts) -> Result<(), String> {
    let mut pair = fresh(random, 6, 900, counts)?;
    let sizes = Sizes { most_beats: 4, most_lanes: 3, odd: 1000 };
    perform_some(random, &mut pair, 16, &sizes, counts)?;
    let takes = [random.below(6), random.below(6)];
    let result = (0..6).find(|shelf| !takes.contains(shelf)).unwrap_or(0);
    if pair.join(takes[0], takes[1], result, counts)? != 0 {
        return Ok(());
    }
    let [first, second, joined] = [takes[0], takes[1], result].map(|shelf| pair.shelf(shelf));
    let [first_used, second_used, used] = [first, second, joined].map(|shelf| used(shelf) as usize);
    let least = first_used.max(second_used).max(3);
    let holds_both = |&(words, _): &(usize, u32)| words >= least;
    for (words, number) in [(used, 0), (used - 1, 8)].into_iter().filter(holds_both) {
        let header = [pair.second[0], pair.second[1], 3, words as u32];
        let mut small = Pair::new(inputs::words(random, 4 + 3 * words));
        small.open(header, counts)?;
        small.put_shelf(0, &first[..words]);
        small.put_shelf(1, &second[..words]);
        if small.join(0, 1, 2, counts)? != number {
            return Err(format!("join of {used} words in {words}: not {number}"));
        }
    }
    Ok(())
}

/// The words that a shelf's counts take.
fn used(shelf: &[u32]) -> u64 {
    3 + 4 * u64::from(shelf[1]) + 6 * u64::from(shelf[2])
}

/// A shelf of freely chosen cells and the notes that the rules give from them.
fn put_free_take(random: &mut Random, pair: &mut Pair, shelf: u32) {
    if let Some(words) = takes::shelf_words(random, &pair.second) {
        pair.put_shelf(shelf, &words);
    }
}

/// Joins and splits of freely chosen takes, and of what comes of them.
pub fn free_takes(random: &mut Random, counts: &mut Counts) -> Result<(), String> {
    let mut pair = fresh(random, 4, 400, counts)?;
    put_free_take(random, &mut pair, 0);
    put_free_take(random, &mut pair, 1);
    for (first, second, result) in [(0, 1, 2), (1, 0, 3), (2, 2, 3), (3, 1, 2)] {
        pair.join(first, second, result, counts)?;
    }
    let beat = random.below(pair.shelf(2)[0] + 1);
    pair.split(2, beat, 0, 1, counts)?;
    pair.join(0, 1, 3, counts)?;
    match pair.shelf(3) == pair.shelf(2) {
        true => Ok(()),
        false => Err(String::from("a take split and joined is another")),
    }
}

/// Changes a word of a shelf a little or altogether, mostly one that is used.
fn damage(random: &mut Random, words: &mut [u32]) {
    let near = used(words).min(words.len() as u64) as u32;
    let place = match random.one_in(12) {
        true => random.below(words.len() as u32),
        false => random.below(near),
    } as usize;
    words[place] = match random.below(6) {
        0 => random.next_number() as u32,
        1 => random.pick(&[0, 1, 2, 128, 2048, 4096, 4097, u32::MAX]),
        2 => random.pick(words),
        _ => words[place].wrapping_add(random.pick(&[1, 2, 3, u32::MAX, u32::MAX - 1])),
    };
}

/// Leaves a cell out, if there is one.
fn leave_out_cell(random: &mut Random, words: &mut [u32]) {
    let (used, all) = (used(words), words.len());
    if words[2] == 0 || used > all as u64 {
        return;
    }
    let cell = used as usize - 6 * random.between(1, words[2]) as usize;
    words.copy_within(cell + 6.., cell);
    words[all - 6..].fill(0);
    words[2] -= 1;
}

/// Shelves with one or two words changed, or without a cell, joined as first, second and both:
/// refused with 4 where the plain rules find a clause broken, and only there.
pub fn broken_shelves(
    random: &mut Random,
    counts: &mut Counts,
    seen: &mut Broken,
) -> Result<(), String> {
    let mut pair = fresh(random, 4, 400, counts)?;
    put_free_take(random, &mut pair, 0);
    put_free_take(random, &mut pair, 1);
    let whole = pair.shelf(1).to_vec();
    for _ in 0..6 {
        let mut words = whole.clone();
        match random.below(8) {
            0 => leave_out_cell(random, &mut words),
            changes => (0..=changes % 2).for_each(|_| damage(random, &mut words)),
        }
        let clauses = broken(&words, &measures(&pair.second));
        pair.put_shelf(1, &words);
        for (first, second) in [(0, 1), (1, 0), (1, 1)] {
            let number = pair.join(first, second, 2, counts)?;
            if (number == 4) == clauses.is_empty() {
                return Err(format!("join {first} {second}: {number} with {clauses:?} broken"));
            }
        }
        seen.note(&clauses);
    }
    Ok(())
}

/// Splits and joins in a session of random words, mostly small ones.
pub fn random_words(random: &mut Random, counts: &mut Counts) -> Result<(), String> {
    let delta = random.between(1, 9);
    let header = [delta, random.between(1, delta), 4, random.between(3, 40)];
    let small = random.pick(&[2, 4, 16]);
    let mut session = header.to_vec();
    for _ in 0..4 * header[3] {
        session.push(match random.one_in(20) {
            true => random.next_number() as u32,
            false => random.below(small),
        });
    }
    let mut pair = Pair::new(session);
    for _ in 0..6 {
        let [a, b, c] = inputs::shelves(random);
        pair.join(a, b, c, counts)?;
        pair.split(a, random.below(4), b, c, counts)?;
    }
    Ok(())
}
