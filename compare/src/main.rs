//! Puts the same inputs through the proved calls and the second
//! implementation, and compares numbers and all words; guard words stand
//! around every buffer. `compare [ROUNDS]` prints a count, or fails at the
//! first difference.

mod engine;
mod guarded;
mod inputs;
mod joins;
mod loads;
mod pair;
mod writes;

use joins::Broken;
use pair::{Counts, Pair};
use reference::random::Random;
use std::process::ExitCode;

/// How many rounds there are where none are named.
const ROUNDS: u64 = 20_000;

/// The clauses that make a shelf sound.
const CLAUSES: usize = 13;

/// An open on any words, then lays, with the header damaged now and then.
fn any_session(random: &mut Random, counts: &mut Counts) -> Result<(), String> {
    let header = inputs::header(random);
    let length = inputs::length(random, header);
    let mut pair = Pair::new(inputs::words(random, length));
    pair.open(header, counts)?;
    for _ in 0..4 {
        let place = random.below(4) as usize;
        let damaged = (length >= 4 && random.one_in(8)).then(|| pair.second[place]);
        if damaged.is_some() {
            pair.set(place, random.below(600));
        }
        let beats = inputs::beats(random);
        let list = inputs::list(random, header, beats);
        let shelf = match random.below(10) {
            0 => random.pick(&[header[2], u32::MAX]),
            _ => random.below(header[2].clamp(1, 64)),
        };
        pair.lay(shelf, beats, &list, counts)?;
        if let Some(word) = damaged {
            pair.set(place, word);
        }
    }
    Ok(())
}

/// A legal list in a shelf that it fills to the last word, and in one that is
/// a word too small.
fn just_fitting(random: &mut Random, counts: &mut Counts) -> Result<(), String> {
    let delta = random.pick(&[1, 2, 3, 10, 480]);
    let beats = random.below(9);
    let epsilon = random.between(1, delta);
    let measures = reference::generate::notes::Measures { delta, epsilon, beats };
    let lanes = reference::generate::notes::lanes(random, 4);
    let list = reference::generate::notes::list(random, &measures, &lanes);
    let used = inputs::words_used(delta, &list);
    for (shelf_words, number) in [(used, 0), (used - 1, 8)] {
        if shelf_words < 3 {
            continue;
        }
        let header = [delta, epsilon, 3, shelf_words];
        let mut pair = Pair::new(inputs::words(random, 4 + 3 * shelf_words as usize));
        pair.open(header, counts)?;
        if pair.lay(random.below(3), beats, &list, counts)? != number {
            return Err(format!("lay of {used} words in {shelf_words}: not {number}"));
        }
    }
    Ok(())
}

/// A join, or a split.
fn cut(random: &mut Random, pair: &mut Pair, kind: u32, counts: &mut Counts) -> Result<(), String> {
    let [take, left, right] = inputs::shelves(random);
    if kind == 1 {
        let second = if random.one_in(4) { take } else { left };
        pair.join(take, second, right, counts)?;
        return Ok(());
    }
    let first = 4 + u64::from(take) * u64::from(pair.second[3]);
    let beats = pair.second.get(first as usize).copied().unwrap_or(0);
    let beat = random.below(beats.min(40) + 2);
    pair.split(take, beat, left, right, counts)?;
    Ok(())
}

/// The same with any word of the session damaged, which is put right again.
fn cut_damaged(
    random: &mut Random,
    pair: &mut Pair,
    kind: u32,
    counts: &mut Counts,
) -> Result<(), String> {
    let header = std::array::from_fn(|place| pair.second[place]);
    let place = inputs::place(random, header);
    let word = pair.second[place];
    pair.set(place, inputs::damaged(random, word));
    cut(random, pair, kind, counts)?;
    pair.set(place, word);
    Ok(())
}

/// Lays, joins and splits in one session, any of its words damaged now and
/// then for one join or split.
fn cuts(random: &mut Random, counts: &mut Counts) -> Result<(), String> {
    let delta = random.pick(&[1, 2, 3, 10, 480]);
    let header = [delta, random.between(1, delta), 5, random.between(3, 500)];
    let length = 4 + 5 * header[3] as usize;
    let mut pair = Pair::new(inputs::words(random, length));
    pair.open(header, counts)?;
    for _ in 0..16 {
        match random.below(4) {
            0 => {
                let beats = random.below(9);
                let list = inputs::list(random, header, beats);
                pair.lay(random.below(5), beats, &list, counts)?;
            }
            kind if random.one_in(4) => cut_damaged(random, &mut pair, kind, counts)?,
            kind => cut(random, &mut pair, kind, counts)?,
        }
    }
    Ok(())
}

/// One round of each kind; the long ones now and then.
fn one_round(round: u64, counts: &mut Counts, seen: &mut Broken) -> Result<(), String> {
    let random = &mut Random::new(round);
    any_session(random, counts)?;
    just_fitting(random, counts)?;
    cuts(random, counts)?;
    joins::just_fitting(random, counts)?;
    joins::free_takes(random, counts)?;
    joins::broken_shelves(random, counts, seen)?;
    joins::random_words(random, counts)?;
    loads::as_laid(random, counts)?;
    loads::just_fitting(random, counts)?;
    loads::any_bytes(random, counts)?;
    writes::around_the_length(random, counts)?;
    writes::damaged(random, counts)?;
    long_round(round, random, counts)
}

/// The long lists of calls in every fiftieth round, the largest takes more rarely.
fn long_round(round: u64, random: &mut Random, counts: &mut Counts) -> Result<(), String> {
    if round.is_multiple_of(500) {
        loads::each_number(random, counts)?;
        loads::at_the_limits(random, counts)?;
        writes::at_the_limits(random, counts)?;
    }
    if round.is_multiple_of(5_000) {
        loads::large(random, counts)?;
    }
    if round.is_multiple_of(50) {
        loads::cut_off(random, counts)?;
        joins::long_list(random, counts)?;
        writes::many_notes(random, counts)?;
        writes::around_a_group(random, counts)?;
        writes::within_few_ticks(random, counts)?;
    }
    Ok(())
}

fn compare(rounds: u64) -> Result<(Counts, Broken), String> {
    let (mut counts, mut seen) = (Counts::default(), Broken::default());
    for round in 0..rounds {
        one_round(round, &mut counts, &mut seen)
            .map_err(|what| format!("round {round}: {what}"))?;
    }
    Ok((counts, seen))
}

/// What all rounds must have met: joins, loads and writes with every number
/// that they can give, and each clause of soundness broken alone.
fn has_met_all(counts: &Counts, seen: &Broken) -> bool {
    let joins = [0, 1, 2, 3, 4, 6, 8];
    let loads = [0, 1, 2, 8, 9, 10, 11, 12, 13, 14];
    let writes = [0, 1, 2, 4, 15];
    joins.iter().all(|&number| counts.join[number] > 0)
        && loads.iter().all(|&number| counts.load[number] > 0)
        && writes.iter().all(|&number| counts.write[number] > 0)
        && seen.alone.len() == CLAUSES
}

/// Prints what was met.
fn report(counts: &Counts, seen: &Broken) {
    let Counts { open, lay, split, join, load, write } = counts;
    let beats = open.iter().chain(lay).chain(split).chain(join);
    let calls: u64 = beats.chain(load).chain(write).sum();
    println!("{calls} calls agree; by number: open {open:?}, lay {lay:?}, split {split:?}, join {join:?}, load {load:?}, write {write:?}");
    let (alone, pairs) = (seen.alone.len(), seen.pairs.len());
    println!("joins refused for {alone} clauses broken alone and {pairs} pairs of them");
}

fn main() -> ExitCode {
    let rounds = match std::env::args().nth(1).map(|word| word.parse()) {
        None => ROUNDS,
        Some(Ok(rounds)) => rounds,
        Some(Err(_)) => {
            eprintln!("usage: compare [ROUNDS]");
            return ExitCode::FAILURE;
        }
    };
    match compare(rounds) {
        Ok((counts, seen)) if rounds >= ROUNDS && !has_met_all(&counts, &seen) => {
            eprintln!("too little was met: joins {:?}, alone {:?}", counts.join, seen.alone);
            ExitCode::FAILURE
        }
        Ok((counts, seen)) => {
            report(&counts, &seen);
            ExitCode::SUCCESS
        }
        Err(what) => {
            eprintln!("difference in {what}");
            ExitCode::FAILURE
        }
    }
}
