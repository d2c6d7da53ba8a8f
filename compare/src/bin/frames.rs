//! Puts the same random frames through the program `cutter` and through the
//! second implementation's, and compares every line of answer.
//! `frames [SEED]` takes some fixed seeds and a fresh one, which it prints, or
//! the seed that it is given. It fails at the first difference.

use reference::generate::frames::Frames;
use reference::random::Random;
use std::io::{self, Read, Write};
use std::process::{Child, Command, ExitCode, Stdio};
use std::time::{SystemTime, UNIX_EPOCH};

/// The program, as `make cutter` builds it.
const CUTTER: &str = concat!(env!("CARGO_MANIFEST_DIR"), "/../crates/cutter/out/cutter");

/// Seeds that are tried in every run.
const SEEDS: [u64; 4] = [1, 2, 3, 4];

/// Frames for a seed.
const FRAMES: usize = 4_000;

/// Frames of the one long input: more than fit any buffer of the program.
const LONG: usize = 1_000_000;

/// Most memory that the program may take for any input, in kilobytes.
const MOST_MEMORY: u64 = 8_192;

/// Lines of random frames; the last one may lack its line feed.
fn input(seed: u64, count: usize) -> Vec<u8> {
    let mut lines: Vec<u8> = Vec::new();
    for line in Frames::new(seed).take(count) {
        lines.extend(line);
        lines.push(b'\n');
    }
    if Random::new(seed).one_in(2) {
        lines.pop();
    }
    lines
}

/// Hands the input over in pieces of any length, so that lines are cut
/// wherever a block of it may end.
fn feed(mut to: impl Write, input: &[u8], seed: u64) -> io::Result<()> {
    let mut random = Random::new(seed);
    let mut left = input;
    while !left.is_empty() {
        let length = random.between(1, 40_000).min(left.len() as u32) as usize;
        let (piece, rest) = left.split_at(length);
        to.write_all(piece)?;
        left = rest;
    }
    Ok(())
}

/// The most memory that a running program has taken, in kilobytes.
fn most_memory(child: &Child) -> Option<u64> {
    let status = std::fs::read_to_string(format!("/proc/{}/status", child.id())).ok()?;
    let line = status.lines().find_map(|line| line.strip_prefix("VmHWM:"))?;
    line.split_whitespace().next()?.parse().ok()
}

/// What the program answers, and the most memory that it has taken, read
/// before it is told that the input ends.
fn answered(input: &[u8], seed: u64) -> io::Result<(Vec<u8>, u64)> {
    let mut child = Command::new(CUTTER).stdin(Stdio::piped()).stdout(Stdio::piped()).spawn()?;
    let mut stdin = child.stdin.take().expect("standard input is a pipe");
    let mut stdout = child.stdout.take().expect("standard output is a pipe");
    let reader = std::thread::spawn(move || {
        let mut all = Vec::new();
        stdout.read_to_end(&mut all).map(|_| all)
    });
    feed(&mut stdin, input, seed)?;
    let memory = most_memory(&child).unwrap_or(0);
    drop(stdin);
    let answers = reader.join().expect("the reader ends")?;
    match child.wait()?.success() {
        true => Ok((answers, memory)),
        false => Err(io::Error::other("the program failed")),
    }
}

/// The first line that differs, counted from 1, with both answers.
fn difference(first: &[u8], second: &[u8]) -> Option<String> {
    let text =
        |line: Option<&[u8]>| String::from_utf8_lossy(line.unwrap_or(b"nothing")).into_owned();
    let mut lines = (first.split(|&byte| byte == b'\n'), second.split(|&byte| byte == b'\n'));
    for number in 1.. {
        match (lines.0.next(), lines.1.next()) {
            (None, None) => break,
            (a, b) if a == b => {}
            (a, b) => return Some(format!("line {number}: {} and {}", text(a), text(b))),
        }
    }
    None
}

/// Compares the answers to the frames of a seed. Gives the memory taken.
fn compare(seed: u64, count: usize) -> Result<u64, String> {
    let input = input(seed, count);
    let (first, memory) = answered(&input, seed).map_err(|error| format!("{CUTTER}: {error}"))?;
    let mut second = Vec::new();
    reference::cutter::run(&input[..], &mut second).map_err(|error| error.to_string())?;
    match difference(&first, &second) {
        None => Ok(memory),
        Some(what) => Err(format!("seed {seed}, {what}")),
    }
}

/// A seed that differs from run to run.
fn fresh() -> u64 {
    let now = SystemTime::now().duration_since(UNIX_EPOCH);
    now.map_or(0, |time| Random::new(time.as_nanos() as u64).next_number())
}

fn all(seeds: &[u64]) -> Result<u64, String> {
    for &seed in seeds {
        println!("seed {seed}: {FRAMES} frames");
        compare(seed, FRAMES)?;
    }
    let memory = compare(0, LONG)?;
    println!("seed 0: {LONG} frames, {memory} KB of memory");
    match memory <= MOST_MEMORY {
        true => Ok(memory),
        false => Err(format!("{memory} KB of memory")),
    }
}

fn main() -> ExitCode {
    let seeds = match std::env::args().nth(1).map(|word| word.parse()) {
        None => [&SEEDS[..], &[fresh()]].concat(),
        Some(Ok(seed)) => vec![seed],
        Some(Err(_)) => {
            eprintln!("usage: frames [SEED]");
            return ExitCode::FAILURE;
        }
    };
    match all(&seeds) {
        Ok(_) => {
            println!("{} inputs agree", seeds.len() + 1);
            ExitCode::SUCCESS
        }
        Err(what) => {
            eprintln!("difference: {what}");
            ExitCode::FAILURE
        }
    }
}
