//! Times the proved calls against the second implementation, and against
//! copying and zeroing as many words. `bench [FOLDER]` prints a table; with a
//! folder it also writes BENCHMARK.md and pictures/benchmark.svg there.

mod calls;
#[path = "../../engine.rs"]
#[allow(dead_code)]
mod engine;
mod picture;
mod recording;
mod report;
mod row;

use calls::{Call, Place, NAMES};
use recording::{Recording, Size};
use row::{Row, COLUMNS};
use std::path::Path;
use std::process::ExitCode;

/// The machine: its processor, and how many of its cores there are.
fn machine() -> String {
    let text = std::fs::read_to_string("/proc/cpuinfo").unwrap_or_default();
    let name = text.lines().find_map(|line| line.strip_prefix("model name")?.split_once(": "));
    let name = name.map_or("an unnamed processor", |(_, name)| name);
    let cores = std::thread::available_parallelism().map_or(1, usize::from);
    format!("{name}, {cores} cores, {}", std::env::consts::ARCH)
}

/// The toolchain that built the proved side, as `rt version` says it.
fn kit() -> String {
    let said = std::process::Command::new("rt").arg("version").output();
    let text = said.map_or_else(|_| Vec::new(), |said| said.stdout);
    let line = String::from_utf8_lossy(&text).lines().next().unwrap_or_default().to_string();
    if line.is_empty() {
        "an unnamed toolchain".into()
    } else {
        line
    }
}

/// Times all calls on one recording; both sides must leave the same words.
fn measure(size: Size, rows: &mut Vec<Row>) {
    let recording = Recording::new(size);
    let mut places = [(); 3].map(|()| Place::new(&recording));
    for (name, calls) in NAMES.into_iter().zip(Call::rows(&recording)) {
        rows.push(Row::measure(size, name, &calls, &recording, &mut places));
        if let Some(row) = rows.last() {
            println!("{}", report::line(&row.cells(rows)));
        }
    }
    let [proved, second, ..] = &places;
    assert!(proved.session == second.session, "both leave the same words");
    assert!(proved.output == second.output, "both write the same bytes");
}

/// How many notes the recordings have: 1,000 first, since the growth is over these. In the largest shelves memory is
/// most of the time, so that fewer sizes do.
fn sizes(wide: bool) -> &'static [u32] {
    if wide {
        &[1_000, 100, 10_000, 100_000]
    } else {
        &[1_000, 100, 1_500, 3_000, 10_000, 30_000, 100_000]
    }
}

fn write(folder: &Path, rows: &[Row]) -> std::io::Result<()> {
    std::fs::create_dir_all(folder.join("pictures"))?;
    std::fs::write(
        folder.join("BENCHMARK.md"),
        report::document(rows, &format!("{}, with {}", machine(), kit())),
    )?;
    std::fs::write(folder.join("pictures/benchmark.svg"), picture::picture(rows))
}

fn main() -> ExitCode {
    println!("{}", report::line(&COLUMNS));
    let mut rows = Vec::new();
    for wide in [false, true] {
        for lanes in [88, 2_048] {
            for &notes in sizes(wide) {
                measure(Size { notes, lanes, wide }, &mut rows);
            }
        }
    }
    let Some(folder) = std::env::args().nth(1) else {
        return ExitCode::SUCCESS;
    };
    rows.sort_by_key(|row| (row.size.wide, row.size.lanes, row.size.notes));
    match write(Path::new(&folder), &rows) {
        Ok(()) => ExitCode::SUCCESS,
        Err(error) => {
            eprintln!("bench: {folder}: {error}");
            ExitCode::FAILURE
        }
    }
}
