//! Prints the paper's table of cases: δ 10, ε 3, lane 60, each take with its
//! notes and cells as the calls make it.

use reference::{join, lay, open, split};

/// A session of the table, with shelves handed out one after the other.
struct Table {
    session: Vec<u32>,
    next: u32,
}

const SHELVES: u32 = 64;
const WORDS: u32 = 64;

impl Table {
    fn new() -> Self {
        let mut session = vec![0; (4 + SHELVES * WORDS) as usize];
        assert_eq!(open(&mut session, 10, 3, SHELVES, WORDS), 0);
        Table { session, next: 0 }
    }

    fn shelf(&mut self) -> u32 {
        self.next += 1;
        self.next - 1
    }

    fn lay(&mut self, beats: u32, notes: &[[u32; 2]]) -> u32 {
        let shelf = self.shelf();
        let words: Vec<u32> = notes.iter().flat_map(|&[s, e]| [60, s, e, 100]).collect();
        assert_eq!(lay(&mut self.session, shelf, beats, &words), 0);
        shelf
    }

    fn split(&mut self, take: u32, beat: u32) -> [u32; 2] {
        let halves = [self.shelf(), self.shelf()];
        assert_eq!(split(&mut self.session, take, beat, halves[0], halves[1]), 0);
        halves
    }

    /// The halves of one note in two beats.
    fn halves(&mut self, note: [u32; 2]) -> [u32; 2] {
        let take = self.lay(2, &[note]);
        self.split(take, 1)
    }

    fn join(&mut self, first: u32, second: u32) -> u32 {
        let shelf = self.shelf();
        assert_eq!(join(&mut self.session, first, second, shelf), 0);
        shelf
    }

    fn show(&self, case: &str, what: &str, shelf: u32) {
        let words = &self.session[(4 + shelf * WORDS) as usize..][..WORDS as usize];
        let (notes, rest) = words[3..].split_at(4 * words[1] as usize);
        let cells = &rest[..6 * words[2] as usize];
        let notes: Vec<String> = notes.chunks(4).map(|n| format!("[{},{}]", n[1], n[2])).collect();
        let cells: Vec<String> =
            cells.chunks(6).map(|c| format!("{}.{}({},{})", c[1], c[2], c[3], c[4])).collect();
        let notes = if notes.is_empty() { "-".into() } else { notes.join(" ") };
        println!("{case:2} {what:46} {notes:16} {}", cells.join(" "));
    }
}

fn main() {
    println!("{:2} {:46} {:16} cells beat.side(before,after)", "", "take", "notes");
    let mut table = Table::new();
    short_notes(&mut table);
    long_note(&mut table);
    meetings(&mut table);
}

/// A to C.
fn short_notes(t: &mut Table) {
    let [left, right] = t.halves([8, 12]);
    t.show("A", "[8,12] split at 1, left", left);
    t.show("A", "[8,12] split at 1, right", right);
    let healed = t.join(left, right);
    t.show("B", "joined", healed);
    let [left, right] = t.halves([7, 13]);
    t.show("C", "[7,13] split at 1, left", left);
    t.show("C", "[7,13] split at 1, right", right);
}

/// D and E.
fn long_note(t: &mut Table) {
    let take = t.lay(3, &[[5, 25]]);
    let [first, rest] = t.split(take, 1);
    let [middle, last] = t.split(rest, 1);
    let rest = t.join(middle, last);
    let healed = t.join(first, rest);
    t.show("D", "[5,25] split at 1 and 2, joined again", healed);
    let silent = t.lay(1, &[]);
    let head = t.join(silent, middle);
    let pasted = t.join(head, last);
    t.show("E", "a silent beat, D's middle, D's last", pasted);
    let [left, _] = t.split(pasted, 2);
    t.show("E", "split at 2, left", left);
}

/// F to K.
fn meetings(t: &mut Table) {
    let [nine, _] = t.halves([9, 11]);
    let [_, eight] = t.halves([8, 12]);
    let joined = t.join(nine, eight);
    t.show("F", "left of [9,11] with right of [8,12]", joined);
    let [_, shorter] = t.halves([8, 11]);
    let joined = t.join(nine, shorter);
    t.show("G", "left of [9,11] with right of [8,11]", joined);
    let take = t.lay(2, &[[4, 10], [10, 12]]);
    let [left, right] = t.split(take, 1);
    let joined = t.join(left, right);
    t.show("H", "[4,10], [10,12] split and joined at 1", joined);
    let [left, _] = t.halves([8, 10]);
    t.show("I", "[8,10] split at 1, left", left);
    let grace = t.lay(1, &[[0, 1]]);
    let joined = t.join(nine, grace);
    t.show("J", "left of [9,11] with a beat of [0,1]", joined);
    let take = t.lay(2, &[[8, 12]]);
    let [left, right] = t.split(take, 0);
    t.show("K", "[8,12] split at 0, left", left);
    t.show("K", "[8,12] split at 0, right", right);
}
