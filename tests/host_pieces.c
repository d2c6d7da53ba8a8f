/* The host's rules for cells against the library's notes: in takes reached by random calls the notes that touch a
 * beat line are just the runs of shown pieces that the host's rules give, and hidden pieces lie beside them.
 * The last line is 'N passed, M failed'. */
#include "pieces.h"
#include "session.h"

#include <stdio.h>
#include <stdlib.h>
#include <string.h>

enum { DELTA = 10, TAKES = 6, MOST_NOTES = 400, MOST_BEATS = 40 };

static unsigned long passed, failed, hidden_seen, bound_seen;

/* A fixed sequence of numbers. */
static uint32_t random_below(uint32_t bound)
{
    static uint64_t state = 1181783497276652981u;
    state ^= state << 13;
    state ^= state >> 7;
    state ^= state << 17;
    return (uint32_t)(state >> 11) % bound;
}

/* Lays a random recording: short notes and long ones in two lanes. */
static void lay(struct Session *session, uint32_t shelf)
{
    uint32_t notes[4 * MOST_NOTES];
    size_t words = 0;
    uint32_t beats = random_below(6);
    for (uint32_t lane = 60; lane < 62; lane++) {
        uint32_t at = random_below(8);
        while (at + 1 < beats * DELTA && words < 4 * MOST_NOTES) {
            uint32_t end = at + 1 + random_below(random_below(4) == 0 ? 35 : 6);
            end = end > beats * DELTA ? beats * DELTA : end;
            uint32_t note[] = {lane, at, end, 1 + random_below(127)};
            memcpy(notes + words, note, sizeof note);
            words += 4;
            at = end + (random_below(3) == 0 ? 0 : random_below(9));
        }
    }
    failed += session_lay(session, shelf, beats, notes, words) != 0;
}

/* One random call on shelves 0 to TAKES - 1; the shelf behind them is for the other part of a split. */
static uint32_t call(struct Session *session)
{
    uint32_t shelf = random_below(TAKES), other = random_below(TAKES);
    uint32_t result = random_below(TAKES);
    uint32_t beats = session_shelf(session, shelf)[0];
    if (random_below(6) == 0) {
        lay(session, result);
    } else if (random_below(2) == 0 && result != shelf) {
        uint32_t spare = TAKES, beat = random_below(beats + 1);
        bool left = random_below(2) == 0;
        failed += session_split(session, shelf, beat, left ? result : spare, left ? spare : result) != 0;
    } else if (result != shelf && result != other && beats + session_shelf(session, other)[0] < MOST_BEATS) {
        failed += session_join(session, shelf, other, result) != 0;
    }
    return result;
}

/* Whether a cell's piece fills its beat: then the next cell is its other one. */
static bool fills(struct Cell cell)
{
    return cell.side == 0 && cell.after >= DELTA;
}

/* The end of the run of pieces that a cell's piece begins, and the cell behind the run. */
static uint32_t run_end(const struct View *view, size_t *number)
{
    for (;;) {
        struct Cell cell = view_cell(view, *number);
        if (fills(cell)) {
            cell = view_cell(view, ++*number);
        }
        bool goes_on = cell.side == 1 && cell_bound(view, *number);
        bound_seen += goes_on;
        ++*number;
        if (!goes_on) {
            return cell.side == 1 ? (cell.beat + 1) * DELTA : cell.beat * DELTA + cell.after;
        }
    }
}

/* The notes that the cells give, in order. */
static size_t runs(const struct View *view, struct Piece *notes)
{
    size_t count = 0;
    for (size_t i = 0; i < view->cell_count;) {
        struct Cell cell = view_cell(view, i);
        if (!cell_alone(view, cell) && !cell_bound(view, i)) {
            i++;
            continue;
        }
        uint32_t start = cell.side == 0 ? cell.beat * DELTA : (cell.beat + 1) * DELTA - cell.before;
        uint32_t end = run_end(view, &i);
        notes[count++] = (struct Piece){cell.lane, start, end, cell.velocity};
    }
    return count;
}

/* Whether a note touches or crosses a line. */
static bool touches(struct Piece note)
{
    return note.start % DELTA == 0 || note.end % DELTA == 0 || note.start / DELTA != note.end / DELTA;
}

/* Whether two notes are equal. */
static bool same(struct Piece a, struct Piece b)
{
    return a.lane == b.lane && a.start == b.start && a.end == b.end && a.velocity == b.velocity;
}

/* Whether the notes that touch a line are those that the cells give. */
static bool given(const struct View *view)
{
    struct Piece *expected = malloc((view->cell_count + 1) * sizeof *expected);
    size_t count = expected == NULL ? 0 : runs(view, expected);
    size_t met = 0;
    bool equal = expected != NULL;
    for (size_t i = 0; i < view->note_count; i++) {
        if (touches(view->notes[i])) {
            equal = equal && met < count && same(view->notes[i], expected[met]);
            met++;
        }
    }
    free(expected);
    return equal && met == count;
}

/* Whether no hidden piece lies over a note. */
static bool beside(const struct View *view)
{
    for (size_t i = 0; i < view->hidden_count; i++) {
        struct Piece piece = view->hidden[i];
        size_t note = pieces_from(view->notes, view->note_count, piece.lane, piece.start);
        hidden_seen++;
        if (note < view->note_count && view->notes[note].lane == piece.lane &&
            view->notes[note].start < piece.end) {
            return false;
        }
    }
    return true;
}

/* Whether a shelf's take is as the host's rules say. */
static bool shelf_holds(const struct Session *session, uint32_t shelf)
{
    struct View view = view_of(session_shelf(session, shelf), DELTA, session->epsilon);
    bool holds = given(&view) && beside(&view);
    view_free(&view);
    return holds;
}

/* 3,000 random calls, each with a look at its result. */
static void check_session(uint32_t epsilon)
{
    struct Session session = {0};
    uint32_t shelf;
    bool holds = true;
    failed += session_open(&session, DELTA, epsilon) != 0;
    for (int i = 0; i <= TAKES; i++) {
        failed += session_claim(&session, &shelf) != 0;
    }
    for (int turn = 0; turn < 3000; turn++) {
        holds = shelf_holds(&session, call(&session)) && holds;
    }
    session_close(&session);
    passed += holds;
    failed += !holds;
}

int main(void)
{
    for (uint32_t epsilon = 1; epsilon <= DELTA; epsilon++) {
        check_session(epsilon);
    }
    failed += hidden_seen < 1000 || bound_seen < 1000;
    printf("%lu hidden pieces, %lu bound\n%lu passed, %lu failed\n", hidden_seen, bound_seen, passed, failed);
    return failed != 0;
}
