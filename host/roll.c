#include "roll.h"

#include "keys.h"
#include "memory.h"

#include <inttypes.h>
#include <stdlib.h>
#include <string.h>

/* What stands in a column of a row. From SOFT on there are four shades. */
enum Sign { BLANK, LINE, HIDDEN, START, SOFT, SIGNS = SOFT + 4 };

static const char *const PLAIN[SIGNS] = {" ", "|", "?", "[", ".", ":", "=", "#"};
static const char *const DRAWN[SIGNS] = {" ", "│", "╌", "▐", "░", "▒", "▓", "█"};

/* Some beats of a take, drawn beside each other; a beat is its line and its columns. */
struct System {
    const struct View *view;
    uint32_t first; /* beat */
    uint32_t behind;
    uint32_t wide; /* columns of a beat */
    uint8_t *signs;
    size_t sign_count;
};

enum { LEAST_WIDE = 4, USUAL_WIDE = 8, MOST_WIDE = 16 };

/* The columns of a beat: as many as let the whole take fit, within bounds. */
static uint32_t beat_width(const struct View *view, struct RollStyle style, uint32_t room)
{
    if (style.wide != 0) {
        return style.wide;
    }
    uint32_t wide = view->beats == 0 ? MOST_WIDE : (room - 1) / view->beats;
    wide = wide > MOST_WIDE ? MOST_WIDE + 1 : wide;
    wide = wide < LEAST_WIDE + 1 ? USUAL_WIDE : wide - 1;
    return wide < view->delta ? wide : view->delta;
}

/* The column of a tick that lies in the system. */
static size_t column(const struct System *system, uint32_t tick)
{
    uint32_t delta = system->view->delta;
    size_t beat = tick / delta - system->first;
    return beat * (system->wide + 1) + 1 + (uint64_t)(tick % delta) * system->wide / delta;
}

/* Paints a piece's columns; beat lines that it crosses are painted over. */
static void paint(struct System *system, struct Piece piece, enum Sign sign)
{
    uint32_t opening = system->first * system->view->delta;
    uint32_t closing = system->behind * system->view->delta;
    size_t from = piece.start < opening ? 0 : column(system, piece.start);
    size_t last = piece.end > closing ? system->sign_count - 1 : column(system, piece.end - 1);
    memset(system->signs + from, sign, last - from + 1);
    if (sign >= SOFT && piece.start >= opening) {
        system->signs[from] = START;
    }
}

/* Paints those of the pieces that lie in the lane and in the system. */
static void paint_lane(struct System *system, const struct Piece *pieces, size_t count,
                       uint32_t lane, bool hidden)
{
    uint32_t opening = system->first * system->view->delta;
    uint32_t closing = system->behind * system->view->delta;
    for (size_t i = pieces_from(pieces, count, lane, opening); i < count; i++) {
        if (pieces[i].lane != lane || pieces[i].start >= closing) {
            return;
        }
        paint(system, pieces[i], hidden ? HIDDEN : SOFT + pieces[i].velocity / 32);
    }
}

/* A lane's row: notes over hidden pieces over beat lines. */
static void paint_row(struct System *system, uint32_t lane)
{
    const struct View *view = system->view;
    memset(system->signs, BLANK, system->sign_count);
    for (size_t i = 0; i < system->sign_count; i += system->wide + 1) {
        system->signs[i] = LINE;
    }
    paint_lane(system, view->hidden, view->hidden_count, lane, true);
    paint_lane(system, view->notes, view->note_count, lane, false);
}

/* Whether a row shows anything. */
static bool sounds(const struct System *system)
{
    for (size_t i = 0; i < system->sign_count; i++) {
        if (system->signs[i] > LINE) {
            return true;
        }
    }
    return false;
}

/* The width of the longest name of a row. */
static int label_width(const struct View *view)
{
    int width = 2;
    char name[KEY_NAME];
    for (size_t i = 0; i < view->lane_count; i++) {
        uint32_t lane = view->lanes[i];
        const char *label = view_channels(view) ? lane_name(lane, name) : key_name(lane, name);
        width = (int)strlen(label) > width ? (int)strlen(label) : width;
    }
    return width;
}

/* The beats' numbers above their lines: as many as have room. */
static void print_numbers(FILE *out, const struct System *system, int width)
{
    uint32_t digits = (uint32_t)snprintf(NULL, 0, "%" PRIu32, system->behind - 1);
    uint32_t step = digits / (system->wide + 1) + 1;
    uint32_t beat = system->first;
    fprintf(out, "%*s ", width, "");
    for (; system->behind - beat > step; beat += step) {
        fprintf(out, "%-*" PRIu32, (int)((system->wide + 1) * step), beat);
    }
    fprintf(out, "%" PRIu32 "\n", beat);
}

/* Prints a painted row behind its name. */
static void print_row(FILE *out, const struct System *system, uint32_t lane, int width, bool ascii)
{
    char name[KEY_NAME];
    bool channels = view_channels(system->view);
    fprintf(out, "%*s ", width, channels ? lane_name(lane, name) : key_name(lane, name));
    for (size_t i = 0; i < system->sign_count; i++) {
        fputs((ascii ? PLAIN : DRAWN)[system->signs[i]], out);
    }
    fputc('\n', out);
}

/* Prints the rows of a system that show anything. */
static void print_system(FILE *out, struct System *system, int width, bool ascii)
{
    const struct View *view = system->view;
    size_t rows = 0;
    system->sign_count = (size_t)(system->behind - system->first) * (system->wide + 1) + 1;
    print_numbers(out, system, width);
    for (size_t i = 0; i < view->lane_count; i++) {
        paint_row(system, view->lanes[i]);
        if (sounds(system)) {
            print_row(out, system, view->lanes[i], width, ascii);
            rows++;
        }
    }
    if (rows == 0) {
        fprintf(out, "%*s (nothing sounds)\n", width, "");
    }
}

void roll_print(FILE *out, const struct View *view, struct RollStyle style)
{
    int width = label_width(view);
    uint32_t room = style.columns - (uint32_t)width - 1;
    struct System system = {.view = view, .wide = beat_width(view, style, room)};
    uint32_t beats = (room - 1) / (system.wide + 1);
    beats = beats == 0 ? 1 : beats;
    system.signs = memory_new((size_t)beats * (system.wide + 1) + 1, 1);
    while (system.first < view->beats) {
        bool last = view->beats - system.first <= beats;
        system.behind = last ? view->beats : system.first + beats;
        print_system(out, &system, width, style.ascii);
        system.first = system.behind;
    }
    if (view->beats == 0) {
        fputs("(no beats)\n", out);
    }
    free(system.signs);
}

void roll_legend(FILE *out, bool ascii)
{
    const char *const *signs = ascii ? PLAIN : DRAWN;
    fprintf(out, "%s beat line  %s a note starts  %s%s%s%s it sounds, soft to loud  %s hidden piece\n",
            signs[LINE], signs[START], signs[SOFT], signs[SOFT + 1], signs[SOFT + 2],
            signs[SOFT + 3], signs[HIDDEN]);
}
