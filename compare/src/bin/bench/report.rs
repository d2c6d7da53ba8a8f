//! The table as text for the terminal, and as the document.

use crate::calls::NAMES;
use crate::row::{Row, COLUMNS};
use std::fmt::Write;

/// One line of the terminal's table.
pub fn line<T: AsRef<str>>(cells: &[T]) -> String {
    let widths = [7, 6, 6, 9, 15, 15, 6, 7, 7, 8];
    let mut line = String::new();
    for (cell, width) in cells.iter().zip(widths) {
        write!(line, "{:>width$} ", cell.as_ref()).expect("a string takes all");
    }
    line.trim_end().into()
}

/// The least and the greatest ratio of a call from 1,000 notes on.
fn ratios(rows: &[Row], name: &str) -> (f64, f64) {
    let of_call = rows.iter().filter(|row| row.name == name && row.size.notes >= 1_000);
    of_call.fold((f64::MAX, 0.0), |(low, high), row| (low.min(row.ratio()), row.ratio().max(high)))
}

/// The document: what was measured, the picture, the ratios of each call, the
/// whole table.
pub fn document(rows: &[Row], machine: &str) -> String {
    let mut text = String::from(HEAD);
    writeln!(text, "Measured on {machine}.\n").expect("a string takes all");
    text.push_str("![nanoseconds for each note](pictures/benchmark.svg)\n\n");
    text.push_str("| Call | least ratio | greatest ratio |\n|---|---:|---:|\n");
    for name in NAMES {
        let (low, high) = ratios(rows, name);
        writeln!(text, "| {name} | {low:.2} | {high:.2} |").expect("a string takes all");
    }
    text.push_str(TABLE);
    writeln!(text, "| {} |", COLUMNS.join(" | ")).expect("a string takes all");
    text.push_str("|---:|---:|---|---|---:|---:|---:|---:|---:|---:|\n");
    for row in rows {
        writeln!(text, "| {} |", row.cells(rows).join(" | ")).expect("a string takes all");
    }
    text
}

const HEAD: &str = "# Benchmark

`make bench` times the proved calls against the second implementation of `reference/`, which puts the same questions
and is compiled at its best, and against `memcpy` and `memset`. All four work in the same memory, in turn, in one run,
and the best time of each counts. It prints the table and writes this page and its picture anew.

A recording has so many notes in so many lanes, 480 ticks to the beat, notes of a tick to a beat with rests between
them. W is tight, just what the recording takes, or the most that a shelf may have, 1,048,576 words. Split cuts the
recording in the middle, join puts the halves together again. Load reads the recording's file as write gives it; write
is lent an output that every file of so many notes fits. The 300 cuts each take random beats out of the recording: two
splits and a join, given here for one of the 900 calls; of each cut the best time counts.

- ratio: the proved call's time over the second implementation's
- growth: the proved call's time for each note over that at 1,000 notes
- × copy, × zeros: the proved call's time over that of `memcpy` and `memset` of all the words or bytes that it writes

";

const TABLE: &str = "\nThese are the ratios from 1,000 to 100,000 notes. The whole table:\n\n";
