/* A take as it is shown: its notes, and the pieces that its cells hide. */
#ifndef PIECES_H
#define PIECES_H

#include <stdbool.h>
#include <stddef.h>
#include <stdint.h>

/* A note or a hidden piece: lane, ticks of the take, velocity. */
struct Piece {
    uint32_t lane;
    uint32_t start;
    uint32_t end;
    uint32_t velocity;
};

/* A cell as it stands in a shelf. */
struct Cell {
    uint32_t lane;
    uint32_t beat;
    uint32_t side;
    uint32_t before;
    uint32_t after;
    uint32_t velocity;
};

/* A shelf's take. */
struct View {
    uint32_t delta;
    uint32_t epsilon;
    uint32_t beats;
    size_t note_count;
    size_t cell_count;
    struct Piece *notes; /* in order of lane and start */
    const uint32_t *cells;
    struct Piece *hidden; /* in the same order */
    size_t hidden_count;
    uint32_t *lanes; /* that sound or hide something, in the order of rows */
    size_t lane_count;
};

/* The take in a shelf's words, which must stay where they are while it is shown. */
struct View view_of(const uint32_t *shelf, uint32_t delta, uint32_t epsilon);

void view_free(struct View *view);

/* A cell of the shelf's. */
struct Cell view_cell(const struct View *view, size_t number);

/* Whether a cell stands alone. */
bool cell_alone(const struct View *view, struct Cell cell);

/* Whether a cell is bound to the one across its line. */
bool cell_bound(const struct View *view, size_t number);

/* The first of these pieces that lies in the lane and ends behind the tick, or that stands behind all such. */
size_t pieces_from(const struct Piece *pieces, size_t count, uint32_t lane, uint32_t tick);

/* Whether notes of more than one channel are shown. */
bool view_channels(const struct View *view);

#endif
