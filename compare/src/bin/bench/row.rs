//! One row of the table.

use crate::calls::{time, Call, Place, Side};
use crate::recording::{Recording, Size};

/// The best times of a row's calls, in nanoseconds for each note.
pub struct Row {
    pub size: Size,
    pub name: &'static str,
    pub proved: f64,
    pub second: f64,
    copy: f64,
    zeros: f64,
}

/// Seconds that the rounds of one row take, about.
const ROW_SECONDS: f64 = 2.0;

/// At least so many pairs of rounds, and at most.
const PAIRS: [f64; 2] = [3.0, 400.0];

/// Seconds that one measured time has at least, about.
const LEAST_SECONDS: f64 = 50e-6;

/// The place where all sides are timed, since where memory lies decides more than who uses it. In the two others each
/// implementation's words can be compared.
const TIMED: usize = 2;

/// Who comes when, in the one round of a pair and in the other: each implementation once behind zeroing and once
/// behind the other implementation, since it finds in the cache what the one before it left. A call comes last, so
/// that its words are there for the next row.
const TURNS: [[usize; 4]; 2] = [[2, 3, 0, 1], [2, 3, 1, 0]];

/// What the columns are called.
pub const COLUMNS: [&str; 10] = [
    "notes",
    "lanes",
    "W",
    "call",
    "proved ns/note",
    "second ns/note",
    "ratio",
    "growth",
    "× copy",
    "× zeros",
];

/// The best seconds of each side, call by call, in pairs of rounds of all four sides in one place.
fn best_of(
    calls: &[Call],
    pairs: usize,
    runs: u32,
    recording: &Recording,
    place: &mut Place,
) -> [f64; 4] {
    let mut best = vec![[f64::MAX; 4]; calls.len()];
    for turns in (0..pairs).flat_map(|_| TURNS) {
        for (&call, best) in calls.iter().zip(&mut best) {
            for which in turns {
                let seconds = time(call, Side::ALL[which], runs, recording, place);
                best[which] = best[which].min(seconds);
            }
        }
    }
    [0, 1, 2, 3].map(|which| best.iter().map(|best| best[which]).sum())
}

impl Row {
    /// Times a row's calls by all sides in turn; the best times of the calls are added. Each side does them once in
    /// a place of its own first, where what it leaves can be compared.
    pub fn measure(
        size: Size,
        name: &'static str,
        calls: &[Call],
        recording: &Recording,
        places: &mut [Place; 3],
    ) -> Row {
        let mut once = 0.0;
        for (which, side) in Side::ALL.into_iter().enumerate() {
            for &call in calls {
                once += time(call, side, 1, recording, &mut places[which.min(TIMED)]);
            }
        }
        let runs = (4.0 * LEAST_SECONDS / once).clamp(1.0, 1_000.0) as u32;
        let pairs = ROW_SECONDS / (2.0 * once * f64::from(runs));
        let pairs = pairs.clamp(PAIRS[0], PAIRS[1]) as usize;
        let best = best_of(calls, pairs, runs, recording, &mut places[TIMED]);
        // A run of cuts is given for one of its calls.
        let count: usize = calls.iter().map(|call| call.calls()).sum();
        let [proved, second, copy, zeros] =
            best.map(|seconds| seconds * 1e9 / f64::from(size.notes) / count as f64);
        Row { size, name, proved, second, copy, zeros }
    }

    pub fn ratio(&self) -> f64 {
        self.proved / self.second
    }

    /// Its cells; the growth is over the same call at 1,000 notes.
    pub fn cells(&self, rows: &[Row]) -> [String; 10] {
        let base = Size { notes: 1_000, ..self.size };
        let growth = rows
            .iter()
            .find(|row| row.size == base && row.name == self.name)
            .map_or(String::new(), |row| format!("{:.2}", self.proved / row.proved));
        [
            self.size.notes.to_string(),
            self.size.lanes.to_string(),
            if self.size.wide { "most".into() } else { "tight".into() },
            self.name.into(),
            format!("{:.1}", self.proved),
            format!("{:.1}", self.second),
            format!("{:.2}", self.ratio()),
            growth,
            format!("{:.1}", self.proved / self.copy),
            format!("{:.1}", self.proved / self.zeros),
        ]
    }
}
