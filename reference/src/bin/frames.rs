//! `frames SEED N` prints N random lines for the cutter.

use reference::generate::frames::Frames;
use std::io::{stdout, BufWriter, Write};
use std::process::ExitCode;

fn main() -> ExitCode {
    let numbers: Vec<Option<u64>> =
        std::env::args().skip(1).map(|word| word.parse().ok()).collect();
    let [Some(seed), Some(count)] = numbers[..] else {
        eprintln!("frames SEED N: two numbers");
        return ExitCode::FAILURE;
    };
    let mut output = BufWriter::new(stdout().lock());
    let lines = Frames::new(seed).take(count as usize);
    let mut written =
        lines.map(|line| output.write_all(&line).and_then(|()| output.write_all(b"\n")));
    match written.find(|result| result.is_err()) {
        Some(Err(error)) => {
            eprintln!("frames: {error}");
            ExitCode::FAILURE
        }
        _ => ExitCode::SUCCESS,
    }
}
