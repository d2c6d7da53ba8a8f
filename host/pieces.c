#include "pieces.h"

#include "memory.h"
#include "zikorewi.h"

#include <stdlib.h>

struct Cell view_cell(const struct View *view, size_t number)
{
    const uint32_t *word = view->cells + number * ZIKOREWI_CELL_WORDS;
    return (struct Cell){word[0], word[1], word[2], word[3], word[4], word[5]};
}

bool cell_alone(const struct View *view, struct Cell cell)
{
    if (cell.side == 1) {
        return cell.before >= view->epsilon || cell.after == 0;
    }
    return cell.after >= view->epsilon || cell.before == 0;
}

/* Whether two cells are bound: the left beat's side 1 and the right beat's side 0 in one lane. */
static bool bound(const struct View *view, struct Cell left, struct Cell right)
{
    bool left_alone = cell_alone(view, left);
    bool right_alone = cell_alone(view, right);
    if (left.lane != right.lane || left.side != 1 || right.side != 0 || left.beat + 1 != right.beat) {
        return false;
    }
    if (left_alone && right_alone) {
        return left.after > 0 && right.before > 0;
    }
    if (left_alone || right_alone) {
        return true;
    }
    return (left.before == right.before && left.after == right.after) ||
           (uint64_t)left.before + right.after >= view->epsilon;
}

bool cell_bound(const struct View *view, size_t number)
{
    /* Cells stand in order of lane, beat and side: across the line is the neighbour. */
    if (view_cell(view, number).side == 1) {
        return number + 1 < view->cell_count &&
               bound(view, view_cell(view, number), view_cell(view, number + 1));
    }
    return number > 0 && bound(view, view_cell(view, number - 1), view_cell(view, number));
}

/* The part of its beat that a cell's piece takes. */
static struct Piece piece_at(const struct View *view, struct Cell cell)
{
    uint32_t line = (cell.beat + cell.side) * view->delta;
    uint32_t reach = cell.side == 1 ? cell.before : cell.after;
    reach = reach < view->delta ? reach : view->delta;
    if (cell.side == 1) {
        return (struct Piece){cell.lane, line - reach, line, cell.velocity};
    }
    return (struct Piece){cell.lane, line, line + reach, cell.velocity};
}

/* A piece is hidden if a cell of it neither stands alone nor is bound. A piece that fills its beat
 * stands alone on both sides, so a hidden piece has one cell. */
static void find_hidden(struct View *view)
{
    view->hidden = memory_new(view->cell_count, sizeof *view->hidden);
    for (size_t i = 0; i < view->cell_count; i++) {
        struct Cell cell = view_cell(view, i);
        if (!cell_alone(view, cell) && !cell_bound(view, i)) {
            view->hidden[view->hidden_count++] = piece_at(view, cell);
        }
    }
}

/* Rows go by channel, then from the highest key down. */
static int row_order(const void *left, const void *right)
{
    uint32_t a = *(const uint32_t *)left;
    uint32_t b = *(const uint32_t *)right;
    if (a / 128 != b / 128) {
        return a / 128 < b / 128 ? -1 : 1;
    }
    return a > b ? -1 : a < b;
}

/* The lanes that have a row. */
static void find_lanes(struct View *view)
{
    bool shown[ZIKOREWI_LANES] = {false};
    for (size_t i = 0; i < view->note_count; i++) {
        shown[view->notes[i].lane] = true;
    }
    for (size_t i = 0; i < view->hidden_count; i++) {
        shown[view->hidden[i].lane] = true;
    }
    view->lanes = memory_new(ZIKOREWI_LANES, sizeof *view->lanes);
    for (uint32_t lane = 0; lane < ZIKOREWI_LANES; lane++) {
        if (shown[lane]) {
            view->lanes[view->lane_count++] = lane;
        }
    }
    qsort(view->lanes, view->lane_count, sizeof *view->lanes, row_order);
}

/* The shelf's notes. */
static void find_notes(struct View *view, const uint32_t *words)
{
    view->notes = memory_new(view->note_count, sizeof *view->notes);
    for (size_t i = 0; i < view->note_count; i++, words += ZIKOREWI_NOTE_WORDS) {
        view->notes[i] = (struct Piece){words[0], words[1], words[2], words[3]};
    }
}

struct View view_of(const uint32_t *shelf, uint32_t delta, uint32_t epsilon)
{
    struct View view = {.delta = delta, .epsilon = epsilon, .beats = shelf[0]};
    view.note_count = shelf[1];
    view.cell_count = shelf[2];
    view.cells = shelf + 3 + view.note_count * ZIKOREWI_NOTE_WORDS;
    find_notes(&view, shelf + 3);
    find_hidden(&view);
    find_lanes(&view);
    return view;
}

void view_free(struct View *view)
{
    free(view->notes);
    free(view->hidden);
    free(view->lanes);
}

size_t pieces_from(const struct Piece *pieces, size_t count, uint32_t lane, uint32_t tick)
{
    size_t first = 0;
    while (count > 0) {
        struct Piece middle = pieces[first + count / 2];
        if (middle.lane < lane || (middle.lane == lane && middle.end <= tick)) {
            first += count / 2 + 1;
            count -= count / 2 + 1;
        } else {
            count /= 2;
        }
    }
    return first;
}

bool view_channels(const struct View *view)
{
    return view->lane_count > 0 &&
           view->lanes[0] / 128 != view->lanes[view->lane_count - 1] / 128;
}
