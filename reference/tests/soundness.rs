//! Question 4: each clause of soundness broken alone.

mod common;

use common::{compared, fresh, measures, shelf, shelf_mut};
use reference::call::Call;
use reference::plain::sound::{broken, Clause};

/// A take as lists, to change one thing in it.
#[derive(Clone)]
struct Lists {
    beats: u32,
    notes: Vec<[u32; 4]>,
    cells: Vec<[u32; 6]>,
}

impl Lists {
    fn put(&self, session: &mut [u32], number: u32) {
        let shelf = shelf_mut(session, number);
        let mut words = vec![self.beats, self.notes.len() as u32, self.cells.len() as u32];
        words.extend(self.notes.iter().flatten());
        words.extend(self.cells.iter().flatten());
        words.resize(shelf.len(), 0);
        shelf.copy_from_slice(&words);
    }
}

const WORDS: u32 = 300;

/// Four beats in δ 10, ε 3, made by calls: in lane 60 a note over two lines
/// and one inside a beat; in lane 61 a hidden piece at either outer line, a
/// note inside a beat and one that fills a beat.
fn made_by_calls() -> (Vec<u32>, Lists) {
    let mut session = fresh(10, 3, 4, WORDS);
    let list = [
        [60, 15, 35, 100],
        [60, 37, 39, 90],
        [61, 8, 12, 80],
        [61, 22, 24, 70],
        [61, 30, 40, 60],
        [61, 48, 52, 50],
    ];
    assert_eq!(reference::lay(&mut session, 0, 6, list.as_flattened()), 0);
    assert_eq!(reference::split(&mut session, 0, 1, 1, 2), 0);
    assert_eq!(reference::split(&mut session, 2, 4, 0, 1), 0);
    let lists =
        Lists { beats: 4, notes: common::notes(&session, 0), cells: common::cells(&session, 0) };
    assert_eq!(
        lists.notes,
        [[60, 5, 25, 100], [60, 27, 29, 90], [61, 12, 14, 70], [61, 20, 30, 60]]
    );
    assert_eq!(
        lists.cells[4..],
        [[61, 0, 0, 2, 2, 80], [61, 2, 0, 0, 10, 60], [61, 2, 1, 10, 0, 60], [61, 3, 1, 2, 2, 50]]
    );
    (session, lists)
}

/// The change breaks just the clauses named, and every reading call says 4.
fn assert_breaks(clauses: &[Clause], change: impl FnOnce(&mut Lists)) {
    let (mut session, mut lists) = made_by_calls();
    change(&mut lists);
    lists.put(&mut session, 0);
    assert_four(clauses, session);
}

fn assert_four(clauses: &[Clause], session: Vec<u32>) {
    assert_eq!(broken(shelf(&session, 0), &measures(&session)), clauses);
    let expected = if clauses.is_empty() { 0 } else { 4 };
    for call in [
        Call::Write { shelf: 0 },
        Call::Split { take: 0, beat: 1, left: 1, right: 2 },
        Call::Join { first: 0, second: 3, result: 2 },
        Call::Join { first: 3, second: 0, result: 2 },
        Call::Join { first: 0, second: 0, result: 2 },
    ] {
        let number = compared(&call, &mut session.clone(), &mut [0; 200], "one clause");
        assert_eq!(number, expected, "{clauses:?}: {call:?}");
    }
}

#[test]
fn unchanged_is_sound() {
    assert_breaks(&[], |_| {});
}

#[test]
fn layout() {
    assert_breaks(&[Clause::Beats], |lists| lists.beats = 4097);
    assert_breaks(&[Clause::Beats], |lists| lists.beats = u32::MAX);
    let (session, lists) = made_by_calls();
    let used = 3 + 4 * lists.notes.len() + 6 * lists.cells.len();
    for place in [used, used + 1, WORDS as usize - 1] {
        let mut session = session.clone();
        shelf_mut(&mut session, 0)[place] = 1;
        assert_four(&[Clause::Zeros], session);
    }
    for (word, count) in
        [(1, 70), (1, u32::MAX), (1, 1 << 30), (2, 50), (2, u32::MAX), (2, 0x2AAA_AAAB)]
    {
        let mut session = session.clone();
        shelf_mut(&mut session, 0)[word] = count;
        assert_four(&[Clause::Counts], session);
    }
}

#[test]
fn note_ranges() {
    for velocity in [0, 128, u32::MAX] {
        assert_breaks(&[Clause::NoteRange], |lists| lists.notes[1][3] = velocity);
    }
    for note in [
        [2048, 31, 32, 9],
        [u32::MAX, 31, 32, 9],
        [61, 41, 42, 9],
        [61, 35, 35, 9],
        [61, 36, 35, 9],
    ] {
        assert_breaks(&[Clause::NoteRange], |lists| lists.notes.push(note));
    }
    assert_breaks(&[], |lists| lists.notes.push([2047, 31, 32, 9]));
}

#[test]
fn note_order() {
    assert_breaks(&[Clause::NoteOrder], |lists| lists.notes.swap(0, 1));
    assert_breaks(&[Clause::NoteOrder], |lists| lists.notes.swap(1, 2));
    assert_breaks(&[Clause::NoteOrder], |lists| lists.notes.insert(2, [59, 1, 2, 9]));
    assert_breaks(&[], |lists| lists.notes.insert(0, [59, 1, 2, 9]));
    // Overlapping notes inside a beat break the clause on pieces as well.
    let both = [Clause::NoteOrder, Clause::Overlap];
    assert_breaks(&both, |lists| lists.notes.insert(2, [60, 28, 29, 9]));
    assert_breaks(&both, |lists| lists.notes.insert(2, [60, 27, 29, 90]));
}

#[test]
fn cell_ranges() {
    // The last cell is that of a hidden piece: no note depends on it.
    for (word, values) in
        [(0, [2048, u32::MAX]), (1, [4, u32::MAX]), (2, [2, u32::MAX]), (5, [128, u32::MAX])]
    {
        for value in values {
            assert_breaks(&[Clause::CellRange], |lists| lists.cells[7][word] = value);
        }
    }
    assert_breaks(&[Clause::CellRange], |lists| lists.cells[7][5] = 0);
    assert_breaks(&[], |lists| lists.cells[7][0] = 2047);
    assert_breaks(&[], |lists| lists.cells[7][5] = 127);
}

#[test]
fn cell_order() {
    assert_breaks(&[Clause::CellOrder], |lists| lists.cells.swap(0, 1));
    assert_breaks(&[Clause::CellOrder], |lists| lists.cells.swap(1, 2));
    assert_breaks(&[Clause::CellOrder], |lists| lists.cells.swap(4, 7));
    assert_breaks(&[Clause::CellOrder], |lists| lists.cells.insert(0, [61, 0, 1, 2, 2, 9]));
    let twice = [Clause::CellOrder, Clause::Overlap];
    assert_breaks(&twice, |lists| lists.cells.push(lists.cells[7]));
}

#[test]
fn memory_has_a_limit() {
    let far = |after| move |lists: &mut Lists| lists.cells[7][4] = after;
    assert_breaks(&[], far(40_958));
    assert_breaks(&[Clause::Memory], far(40_959));
    assert_breaks(&[Clause::Memory], far(u32::MAX));
    // The 32-bit sum of these two would be 1.
    assert_breaks(&[Clause::Memory], far(u32::MAX - 1));
    let opening = |before| move |lists: &mut Lists| lists.cells[4][3] = before;
    assert_breaks(&[], opening(40_958));
    assert_breaks(&[Clause::Memory], opening(40_959));
    assert_breaks(&[Clause::Memory], opening(u32::MAX));
}

#[test]
fn empty_pieces() {
    assert_breaks(&[Clause::EmptyPiece], |lists| lists.cells[4][4] = 0);
    assert_breaks(&[Clause::EmptyPiece], |lists| lists.cells[7][3] = 0);
    assert_breaks(&[Clause::EmptyPiece], |lists| lists.cells.push([70, 0, 0, 5, 0, 9]));
    assert_breaks(&[Clause::EmptyPiece], |lists| lists.cells.push([70, 0, 1, 0, 5, 9]));
}

#[test]
fn overlaps() {
    // Notes inside beats against the hidden pieces [0,2] and [38,40].
    assert_breaks(&[Clause::Overlap], |lists| lists.notes.insert(2, [61, 1, 3, 9]));
    assert_breaks(&[], |lists| lists.notes.insert(2, [61, 2, 3, 9]));
    assert_breaks(&[Clause::Overlap], |lists| lists.notes.push([61, 37, 39, 9]));
    assert_breaks(&[], |lists| lists.notes.push([61, 37, 38, 9]));
    // The hidden piece [38,40] against one from the beat's other line.
    let other = |after: u32| {
        move |lists: &mut Lists| {
            lists.cells[6][4] = 1;
            lists.cells[5][4] = 11;
            lists.cells.insert(7, [61, 3, 0, 4, after, 9]);
            lists.notes[3][2] = 30 + after;
        }
    };
    assert_breaks(&[], other(8));
    assert_breaks(&[Clause::Overlap], other(9));
    // A note inside a beat that a piece fills is an overlap of notes too.
    let both = [Clause::NoteOrder, Clause::Overlap];
    assert_breaks(&both, |lists| lists.notes.push([61, 23, 24, 9]));
}

#[test]
fn partners() {
    // Cells 5 and 6 are those of the filled beat 2 in lane 61.
    assert_breaks(&[Clause::OpeningPartner], |lists| {
        lists.cells.remove(6);
    });
    assert_breaks(&[Clause::ClosingPartner], |lists| {
        lists.cells.remove(5);
    });
    let both = [Clause::OpeningPartner, Clause::ClosingPartner];
    assert_breaks(&both, |lists| lists.cells[6][5] = 61);
    assert_breaks(&both, |lists| lists.cells[6][3] = 11);
    assert_breaks(&both, |lists| lists.cells[5][4] = 11);
    assert_breaks(&both, |lists| {
        lists.cells[5][3] = 1;
        lists.cells[6][4] = 1;
    });
    assert_breaks(&[], |lists| {
        lists.cells[5] = [61, 2, 0, 7, 18, 60];
        lists.cells[6] = [61, 2, 1, 17, 8, 60];
    });
}

#[test]
fn partners_that_are_missing() {
    // The last cell of all lacks its partner.
    assert_breaks(&[Clause::OpeningPartner], |lists| {
        lists.cells.push([90, 3, 0, 0, 10, 9]);
        lists.notes.push([90, 30, 40, 9]);
    });
    // The first cell of all lacks its partner.
    assert_breaks(&[Clause::ClosingPartner], |lists| {
        lists.cells.insert(0, [5, 3, 1, 10, 0, 9]);
        lists.notes.insert(0, [5, 30, 40, 9]);
    });
    // Beats and lanes next to each other are not partners.
    assert_breaks(&[Clause::OpeningPartner, Clause::ClosingPartner], |lists| {
        lists.cells[6][1] = 3;
        lists.cells.remove(7);
        lists.notes.push([61, 30, 40, 60]);
    });
}

#[test]
fn notes_at_lines() {
    let clause = [Clause::NotesAtLines];
    assert_breaks(&clause, |lists| {
        lists.notes.remove(0);
    });
    assert_breaks(&clause, |lists| {
        lists.notes.remove(3);
    });
    assert_breaks(&clause, |lists| lists.notes[0][1] = 6);
    assert_breaks(&clause, |lists| lists.notes[0][2] = 24);
    assert_breaks(&clause, |lists| lists.notes[0][3] = 99);
    assert_breaks(&clause, |lists| lists.notes[3][3] = 61);
    // A hidden piece is no note.
    assert_breaks(&clause, |lists| lists.notes.push([61, 38, 40, 50]));
    assert_breaks(&clause, |lists| lists.notes.insert(2, [61, 0, 2, 80]));
}

#[test]
fn notes_at_lines_that_no_cells_give() {
    let clause = [Clause::NotesAtLines];
    // Notes at lines without cells.
    assert_breaks(&clause, |lists| lists.notes.push([62, 0, 5, 50]));
    assert_breaks(&clause, |lists| lists.notes.push([62, 5, 10, 50]));
    assert_breaks(&clause, |lists| lists.notes.push([62, 5, 15, 50]));
    // One run in two notes, and two runs in one.
    assert_breaks(&clause, |lists| {
        lists.notes[0][2] = 20;
        lists.notes.insert(1, [60, 20, 25, 100]);
    });
    // Cells that are no longer bound: the one note becomes two.
    assert_breaks(&clause, |lists| lists.cells[0][4] = 0);
}
