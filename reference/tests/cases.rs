//! The table of cases A to K of the paper, with their cells, and what the
//! paper calls tempting.

mod common;

use common::{cells, file, fresh, notes};
use reference::{join, lay, split};

const LANE: u32 = 60;

/// δ 10, ε 3, eight shelves, as in the table.
fn session() -> Vec<u32> {
    fresh(10, 3, 8, 100)
}

/// Lays notes [start, end] of velocity 100 in lane 60.
fn lay_notes(session: &mut [u32], shelf: u32, beats: u32, list: &[[u32; 2]]) {
    let words: Vec<u32> = list.iter().flat_map(|&[s, e]| [LANE, s, e, 100]).collect();
    assert_eq!(lay(session, shelf, beats, &words), 0);
}

/// A shelf's notes as [start, end], all in lane 60.
fn spans(session: &[u32], shelf: u32) -> Vec<[u32; 2]> {
    notes(session, shelf)
        .into_iter()
        .map(|[lane, start, end, _]| {
            assert_eq!(lane, LANE);
            [start, end]
        })
        .collect()
}

/// A shelf's cells as [beat, side, before, after].
fn memory(session: &[u32], shelf: u32) -> Vec<[u32; 4]> {
    cells(session, shelf).into_iter().map(|[_, beat, side, b, a, _]| [beat, side, b, a]).collect()
}

#[test]
fn a_and_b_a_short_note_is_hidden_and_healed() {
    let mut s = session();
    lay_notes(&mut s, 0, 2, &[[8, 12]]);
    assert_eq!(split(&mut s, 0, 1, 1, 2), 0);
    assert!(spans(&s, 1).is_empty() && spans(&s, 2).is_empty());
    assert_eq!(memory(&s, 1), [[0, 1, 2, 2]]);
    assert_eq!(memory(&s, 2), [[0, 0, 2, 2]]);
    assert_eq!(join(&mut s, 1, 2, 3), 0);
    assert_eq!(spans(&s, 3), [[8, 12]]);
    assert_eq!(memory(&s, 3), [[0, 1, 2, 2], [1, 0, 2, 2]]);
    assert_eq!(common::shelf(&s, 3), common::shelf(&s, 0));
}

#[test]
fn c_long_enough_halves_are_kept() {
    let mut s = session();
    lay_notes(&mut s, 0, 2, &[[7, 13]]);
    assert_eq!(split(&mut s, 0, 1, 1, 2), 0);
    assert_eq!(spans(&s, 1), [[7, 10]]);
    assert_eq!(spans(&s, 2), [[0, 3]]);
    assert_eq!(memory(&s, 1), [[0, 1, 3, 3]]);
    assert_eq!(memory(&s, 2), [[0, 0, 3, 3]]);
}

/// Shelves 1, 4 and 5 get the beats of [5,25].
fn three_beats() -> Vec<u32> {
    let mut s = session();
    lay_notes(&mut s, 0, 3, &[[5, 25]]);
    assert_eq!(split(&mut s, 0, 1, 1, 2), 0);
    assert_eq!(split(&mut s, 2, 1, 4, 5), 0);
    s
}

#[test]
fn d_three_beats_joined_again() {
    let mut s = three_beats();
    assert_eq!(memory(&s, 1), [[0, 1, 5, 15]]);
    assert_eq!(memory(&s, 4), [[0, 0, 5, 15], [0, 1, 15, 5]]);
    assert_eq!(memory(&s, 5), [[0, 0, 15, 5]]);
    assert_eq!(join(&mut s, 4, 5, 6), 0);
    assert_eq!(spans(&s, 6), [[0, 15]]);
    assert_eq!(join(&mut s, 1, 6, 7), 0);
    assert_eq!(spans(&s, 7), [[5, 25]]);
    assert_eq!(common::shelf(&s, 7), common::shelf(&s, 0));
}

#[test]
fn e_a_note_behind_silence_is_not_stretched() {
    let mut s = three_beats();
    lay_notes(&mut s, 0, 1, &[]);
    assert_eq!(join(&mut s, 0, 4, 6), 0);
    assert_eq!(spans(&s, 6), [[10, 20]]);
    assert_eq!(join(&mut s, 6, 5, 7), 0);
    assert_eq!(spans(&s, 7), [[10, 25]]);
    assert_eq!(split(&mut s, 7, 2, 1, 2), 0);
    assert_eq!(spans(&s, 1), [[10, 20]]);
    assert_eq!(spans(&s, 2), [[0, 5]]);
    assert_eq!(memory(&s, 1), [[1, 0, 5, 15], [1, 1, 15, 5]]);
    assert_eq!(memory(&s, 2), [[0, 0, 15, 5]]);
}

/// The left beat of one note joined with the right beat of another, in 4.
fn left_with_right(left: [u32; 2], right: [u32; 2]) -> Vec<u32> {
    let mut s = session();
    lay_notes(&mut s, 0, 2, &[left]);
    assert_eq!(split(&mut s, 0, 1, 1, 2), 0);
    lay_notes(&mut s, 0, 2, &[right]);
    assert_eq!(split(&mut s, 0, 1, 2, 3), 0);
    assert_eq!(join(&mut s, 1, 3, 4), 0);
    s
}

#[test]
fn f_two_short_pieces_long_enough_together() {
    let s = left_with_right([9, 11], [8, 12]);
    assert_eq!(spans(&s, 4), [[9, 12]]);
    assert_eq!(memory(&s, 4), [[0, 1, 1, 1], [1, 0, 2, 2]]);
}

#[test]
fn g_two_short_pieces_too_short_together() {
    let s = left_with_right([9, 11], [8, 11]);
    assert!(spans(&s, 4).is_empty());
    assert_eq!(memory(&s, 4), [[0, 1, 1, 1], [1, 0, 2, 1]]);
}

#[test]
fn h_touching_notes_stay_two() {
    let mut s = session();
    lay_notes(&mut s, 0, 2, &[[4, 10], [10, 12]]);
    assert_eq!(memory(&s, 0), [[0, 1, 6, 0], [1, 0, 0, 2]]);
    assert_eq!(split(&mut s, 0, 1, 1, 2), 0);
    assert_eq!((spans(&s, 1), spans(&s, 2)), (vec![[4, 10]], vec![[0, 2]]));
    assert_eq!(join(&mut s, 1, 2, 3), 0);
    assert_eq!(spans(&s, 3), [[4, 10], [10, 12]]);
    assert_eq!(common::shelf(&s, 3), common::shelf(&s, 0));
}

#[test]
fn i_a_short_note_that_ends_on_the_line_is_kept() {
    let mut s = session();
    lay_notes(&mut s, 0, 2, &[[8, 10]]);
    assert_eq!(split(&mut s, 0, 1, 1, 2), 0);
    assert_eq!(spans(&s, 1), [[8, 10]]);
    assert_eq!(memory(&s, 1), [[0, 1, 2, 0]]);
    assert!(spans(&s, 2).is_empty() && memory(&s, 2).is_empty());
}

#[test]
fn j_just_one_stands_alone() {
    let mut s = session();
    lay_notes(&mut s, 0, 2, &[[9, 11]]);
    assert_eq!(split(&mut s, 0, 1, 1, 2), 0);
    lay_notes(&mut s, 3, 1, &[[0, 1]]);
    assert_eq!(join(&mut s, 1, 3, 4), 0);
    assert_eq!(spans(&s, 4), [[9, 11]]);
    assert_eq!(memory(&s, 4), [[0, 1, 1, 1], [1, 0, 0, 1]]);
}

#[test]
fn j_the_other_way_round() {
    let mut s = session();
    lay_notes(&mut s, 0, 2, &[[8, 12]]);
    assert_eq!(split(&mut s, 0, 1, 1, 2), 0);
    lay_notes(&mut s, 3, 1, &[[5, 10]]);
    assert_eq!(join(&mut s, 3, 2, 4), 0);
    assert_eq!(spans(&s, 4), [[5, 12]]);
    assert_eq!(memory(&s, 4), [[0, 1, 5, 0], [1, 0, 2, 2]]);
}

#[test]
fn k_split_at_the_ends() {
    let mut s = session();
    lay_notes(&mut s, 0, 2, &[[8, 12]]);
    assert_eq!(split(&mut s, 0, 0, 1, 2), 0);
    assert!(common::shelf(&s, 1).iter().all(|&word| word == 0));
    assert_eq!(common::shelf(&s, 2), common::shelf(&s, 0));
    assert_eq!(split(&mut s, 0, 2, 2, 1), 0);
    assert!(common::shelf(&s, 1).iter().all(|&word| word == 0));
    assert_eq!(common::shelf(&s, 2), common::shelf(&s, 0));
}

/// Left half of a note of velocity 20, right half of one of velocity 90.
fn two_velocities(left: [u32; 2], right: [u32; 2]) -> Vec<u32> {
    let mut s = session();
    assert_eq!(lay(&mut s, 0, 2, &[LANE, left[0], left[1], 20]), 0);
    assert_eq!(split(&mut s, 0, 1, 1, 2), 0);
    assert_eq!(lay(&mut s, 0, 2, &[LANE, right[0], right[1], 90]), 0);
    assert_eq!(split(&mut s, 0, 1, 2, 3), 0);
    assert_eq!(join(&mut s, 1, 3, 4), 0);
    s
}

#[test]
fn a_merged_note_has_the_velocity_of_its_first_piece() {
    // Both shown, both hidden, only the left hidden, only the right hidden.
    for (left, right) in
        [([4, 16], [3, 18]), ([9, 11], [8, 12]), ([9, 11], [5, 16]), ([4, 15], [8, 12])]
    {
        let s = two_velocities(left, right);
        assert_eq!(notes(&s, 4), [[LANE, left[0], right[1], 20]], "{left:?} {right:?}");
        let velocities: Vec<u32> = cells(&s, 4).iter().map(|cell| cell[5]).collect();
        assert_eq!(velocities, [20, 90]);
    }
}

#[test]
fn the_right_half_of_a_merged_note_has_its_own_velocity() {
    let mut s = two_velocities([4, 16], [3, 18]);
    assert_eq!(split(&mut s, 4, 1, 5, 6), 0);
    assert_eq!(notes(&s, 5), [[LANE, 4, 10, 20]]);
    assert_eq!(notes(&s, 6), [[LANE, 0, 8, 90]]);
}

#[test]
fn one_take_joined_with_itself() {
    let mut s = session();
    lay_notes(&mut s, 0, 1, &[[0, 10]]);
    assert_eq!(join(&mut s, 0, 0, 1), 0);
    assert_eq!(spans(&s, 1), [[0, 10], [10, 20]]);
    lay_notes(&mut s, 0, 3, &[[5, 25]]);
    assert_eq!(split(&mut s, 0, 1, 1, 2), 0);
    assert_eq!(split(&mut s, 2, 1, 3, 4), 0);
    assert_eq!(join(&mut s, 3, 3, 5), 0);
    assert_eq!(spans(&s, 5), [[0, 20]]);
    assert_eq!(memory(&s, 5), [[0, 0, 5, 15], [0, 1, 15, 5], [1, 0, 5, 15], [1, 1, 15, 5]]);
}

#[test]
fn the_files_of_the_example() {
    let mut s = session();
    lay_notes(&mut s, 0, 2, &[[8, 12]]);
    assert_eq!(split(&mut s, 0, 1, 1, 2), 0);
    assert_eq!(file(&s, 1), b"MThd\0\0\0\x06\0\0\0\x01\0\x0AMTrk\0\0\0\x04\x0A\xFF\x2F\0");
    assert_eq!(
        file(&s, 0),
        b"MThd\0\0\0\x06\0\0\0\x01\0\x0AMTrk\0\0\0\x0C\x08\x90\x3C\x64\x04\x80\x3C\x40\x08\xFF\x2F\0"
    );
}
