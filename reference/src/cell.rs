//! Notes and cells as their words, and the rules on single cells.

/// Lane, start, end, velocity.
pub type Note = [u32; 4];

/// Lane, beat, side, before, after, velocity.
pub type Cell = [u32; 6];

/// A cell's place in the order of cells, as one number. It is right only for
/// a lane below 2,048, a beat up to 4,096 and a side of 0 or 1. Beat 4,096 has
/// a place too, so that the place behind a closing cell is never another lane's.
#[inline]
pub fn place(lane: u32, beat: u32, side: u32) -> u32 {
    lane << 14 | beat << 1 | side
}

/// The place of a cell that is in range.
#[inline]
pub fn place_of(cell: &Cell) -> u32 {
    place(cell[0], cell[1], cell[2])
}

/// Whether a cell's piece is kept without help from the other side of the line.
#[inline]
pub fn stands_alone(cell: &Cell, epsilon: u32) -> bool {
    let [_, _, side, before, after, _] = *cell;
    match side {
        0 => after >= epsilon || before == 0,
        _ => before >= epsilon || after == 0,
    }
}

/// Whether a closing cell and the opening cell behind it, both of one lane,
/// hold their pieces together.
#[inline]
pub fn bound(closing: &Cell, opening: &Cell, epsilon: u32) -> bool {
    let [_, _, _, b1, a1, _] = *closing;
    let [_, _, _, b2, a2, _] = *opening;
    match (stands_alone(closing, epsilon), stands_alone(opening, epsilon)) {
        (true, true) => a1 > 0 && b2 > 0,
        (false, false) => (b1 == b2 && a1 == a2) || b1 + a2 >= epsilon,
        _ => true,
    }
}
