//! The table as a picture: for each call the nanoseconds for each note over
//! the number of notes, both on logarithmic axes, in shelves without spare words.

use crate::calls::NAMES;
use crate::row::Row;
use std::fmt::Write;

/// A panel's width and height, and the space around its axes.
const PANEL: [f64; 2] = [275.0, 200.0];
const LEFT: f64 = 40.0;
const TOP: f64 = 30.0;
const AXES: [f64; 2] = [200.0, 130.0];

/// The decades of the two axes.
const NOTES: [f64; 2] = [2.0, 5.0];
const TIMES: [f64; 2] = [0.0, 2.3];

/// The four lines of a panel: lanes, whose time, how it is drawn.
const LINES: [(u32, bool, &str, &str); 4] = [
    (88, true, "#1b4f8a", ""),
    (88, false, "#1b4f8a", " stroke-dasharray=\"4 3\""),
    (2_048, true, "#b5541c", ""),
    (2_048, false, "#b5541c", " stroke-dasharray=\"4 3\""),
];

fn place(notes: f64, time: f64) -> (f64, f64) {
    let x = (notes.log10() - NOTES[0]) / (NOTES[1] - NOTES[0]);
    let y = (time.max(1.0).log10() - TIMES[0]) / (TIMES[1] - TIMES[0]);
    (LEFT + x * AXES[0], TOP + AXES[1] - y * AXES[1])
}

/// One curve: the points of a call in so many lanes.
fn curve(rows: &[Row], name: &str, line: (u32, bool, &str, &str)) -> String {
    let (lanes, proved, colour, dash) = line;
    let of_line =
        rows.iter().filter(|row| row.name == name && row.size.lanes == lanes && !row.size.wide);
    let points: Vec<String> = of_line
        .map(|row| {
            let time = if proved { row.proved } else { row.second };
            let (x, y) = place(f64::from(row.size.notes), time);
            format!("{x:.1},{y:.1}")
        })
        .collect();
    format!(
        "<polyline points=\"{}\" fill=\"none\" stroke=\"{colour}\" stroke-width=\"1.6\"{dash}/>\n",
        points.join(" ")
    )
}

/// The axes with a line for each decade.
fn axes() -> String {
    let mut text = String::new();
    for (label, notes) in [("100", 1e2), ("1,000", 1e3), ("10,000", 1e4), ("100,000", 1e5)] {
        let ((x, low), (_, high)) = (place(notes, 1.0), place(notes, 200.0));
        let _ = writeln!(text, "<line x1=\"{x:.1}\" y1=\"{low:.1}\" x2=\"{x:.1}\" y2=\"{high:.1}\" stroke=\"#ddd\"/><text x=\"{x:.1}\" y=\"{:.1}\" text-anchor=\"middle\">{label}</text>", low + 14.0);
    }
    for (label, time) in [("1", 1.0), ("10", 1e1), ("100", 1e2)] {
        let ((left, y), (right, _)) = (place(1e2, time), place(1e5, time));
        let _ = writeln!(text, "<line x1=\"{left:.1}\" y1=\"{y:.1}\" x2=\"{right:.1}\" y2=\"{y:.1}\" stroke=\"#ddd\"/><text x=\"{:.1}\" y=\"{:.1}\" text-anchor=\"end\">{label}</text>", left - 5.0, y + 4.0);
    }
    text
}

/// What the lines mean, below the panels.
fn legend(y: f64) -> String {
    let mut text = String::new();
    for (which, (lanes, proved, colour, dash)) in LINES.into_iter().enumerate() {
        let x = LEFT + 185.0 * which as f64;
        let who = if proved { "proved" } else { "second" };
        let _ = writeln!(text, "<line x1=\"{x}\" y1=\"{y}\" x2=\"{}\" y2=\"{y}\" stroke=\"{colour}\" stroke-width=\"1.6\"{dash}/><text x=\"{}\" y=\"{}\">{who}, {lanes} lanes</text>", x + 30.0, x + 36.0, y + 4.0);
    }
    text
}

pub fn picture(rows: &[Row]) -> String {
    let (width, height) = (3.0 * PANEL[0], 2.0 * PANEL[1] + 30.0);
    let mut text = format!("<svg xmlns=\"http://www.w3.org/2000/svg\" viewBox=\"0 0 {width} {height}\" font-family=\"sans-serif\" font-size=\"11\" fill=\"#222\">\n<title>Nanoseconds for each note</title>\n<desc>For each call the time for each note from 100 to 100,000 notes, of the proved code and of the second implementation.</desc>\n<rect width=\"{width}\" height=\"{height}\" fill=\"#fff\"/>\n");
    for (which, name) in NAMES.into_iter().enumerate() {
        let (x, y) = ((which % 3) as f64 * PANEL[0], (which / 3) as f64 * PANEL[1]);
        let _ = writeln!(text, "<g transform=\"translate({x} {y})\"><text x=\"{LEFT}\" y=\"18\" font-weight=\"bold\">{name} (ns/note)</text>");
        text.push_str(&axes());
        for line in LINES {
            text.push_str(&curve(rows, name, line));
        }
        text.push_str("</g>\n");
    }
    text.push_str(&legend(height - 15.0));
    text.push_str("</svg>\n");
    text
}
