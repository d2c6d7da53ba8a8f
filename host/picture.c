#include "picture.h"

#include "keys.h"

#include <inttypes.h>
#include <string.h>

/* Measures of the picture, in its own units. */
enum { BEAT = 120, ROW = 16, LEFT = 56, TOP = 44, BELOW = 12, GAP = 2, EDGE = 3 };

/* The bytes that follow the first of a UTF-8 character, its least value and its first byte's bits. */
static const struct {
    unsigned char mask, sign;
    size_t more;
    uint32_t least;
} FORMS[] = {{0x80, 0x00, 0, 0x20}, {0xE0, 0xC0, 1, 0x80}, {0xF0, 0xE0, 2, 0x800}, {0xF8, 0xF0, 3, 0x10000}};

/* The bytes of the UTF-8 character at the text, 0 where there is none that XML allows. */
static size_t character(const unsigned char *text)
{
    for (size_t form = 0; form < sizeof FORMS / sizeof *FORMS; form++) {
        if ((text[0] & FORMS[form].mask) != FORMS[form].sign) {
            continue;
        }
        uint32_t value = text[0] & (unsigned char)~FORMS[form].mask;
        for (size_t i = 1; i <= FORMS[form].more; i++) {
            if ((text[i] & 0xC0) != 0x80) {
                return 0;
            }
            value = value << 6 | (text[i] & 0x3F);
        }
        bool allowed = value >= FORMS[form].least && value <= 0x10FFFF && value != 0x7F &&
                       (value < 0xD800 || value > 0xDFFF) && value != 0xFFFE && value != 0xFFFF;
        return allowed ? FORMS[form].more + 1 : 0;
    }
    return 0;
}

/* A text as XML takes it: bytes that XML does not allow become a question mark. */
static void print_text(FILE *out, const char *text)
{
    const unsigned char *byte = (const unsigned char *)text;
    while (*byte != '\0') {
        size_t bytes = character(byte);
        if (*byte == '<' || *byte == '>' || *byte == '&') {
            fputs(*byte == '<' ? "&lt;" : *byte == '>' ? "&gt;" : "&amp;", out);
        } else if (bytes == 0) {
            fputc('?', out);
        } else {
            fwrite(byte, 1, bytes, out);
        }
        byte += bytes == 0 ? 1 : bytes;
    }
}

/* The place of a tick from the left, rounded down. */
static uint64_t across(const struct View *view, uint32_t tick)
{
    return LEFT + (uint64_t)tick * BEAT / view->delta;
}

/* The row of a lane. */
static size_t row(const struct View *view, uint32_t lane)
{
    size_t number = 0;
    while (view->lanes[number] != lane) {
        number++;
    }
    return number;
}

/* The picture's height: a take without rows has the room of one. */
static uint64_t height(const struct View *view)
{
    return TOP + (view->lane_count == 0 ? 1 : view->lane_count) * ROW + BELOW;
}

/* Size, title and description, for readers who do not see it too. */
static void print_head(FILE *out, const struct View *view, const char *title)
{
    uint64_t width = LEFT + (uint64_t)view->beats * BEAT + EDGE + BELOW;
    fprintf(out, "<svg xmlns=\"http://www.w3.org/2000/svg\" viewBox=\"0 0 %" PRIu64 " %" PRIu64
            "\" role=\"img\" aria-labelledby=\"t d\" font-family=\"sans-serif\" font-size=\"11\">\n",
            width, height(view));
    fputs("<title id=\"t\">", out);
    print_text(out, title);
    fprintf(out, "</title>\n<desc id=\"d\">%" PRIu32 " beats, %zu notes, %zu hidden pieces. A row is a key, "
            "a vertical line a beat line, a bar a note: the darker the louder, with a black edge where "
            "it starts. A dashed outline is a hidden piece.</desc>\n",
            view->beats, view->note_count, view->hidden_count);
    fprintf(out, "<rect width=\"%" PRIu64 "\" height=\"%" PRIu64 "\" fill=\"#fff\"/>\n", width,
            height(view));
    fprintf(out, "<text x=\"%d\" y=\"16\" font-size=\"13\">", LEFT);
    print_text(out, title);
    fputs("</text>\n", out);
}

/* A name for each row, and every second row shaded so that the eye keeps to it. */
static void print_rows(FILE *out, const struct View *view)
{
    char name[KEY_NAME];
    bool channels = view_channels(view);
    for (size_t i = 0; i < view->lane_count; i++) {
        uint32_t lane = view->lanes[i];
        size_t y = TOP + i * ROW;
        if (i % 2 == 0) {
            fprintf(out, "<rect x=\"%d\" y=\"%zu\" width=\"%" PRIu64 "\" height=\"%d\" fill=\"#f4f4f4\"/>\n",
                    LEFT, y, (uint64_t)view->beats * BEAT, ROW);
        }
        fprintf(out, "<text x=\"%d\" y=\"%zu\" text-anchor=\"end\">%s</text>\n", LEFT - 6, y + 12,
                channels ? lane_name(lane, name) : key_name(lane, name));
    }
}

/* Beat lines with their numbers. */
static void print_lines(FILE *out, const struct View *view)
{
    for (uint32_t beat = 0; beat <= view->beats; beat++) {
        uint64_t x = LEFT + (uint64_t)beat * BEAT;
        fprintf(out, "<line x1=\"%" PRIu64 "\" y1=\"%d\" x2=\"%" PRIu64 "\" y2=\"%" PRIu64
                "\" stroke=\"#999\"/>\n", x, TOP - 6, x, height(view) - BELOW);
        if (beat < view->beats) {
            fprintf(out, "<text x=\"%" PRIu64 "\" y=\"%d\" fill=\"#666\">%" PRIu32 "</text>\n", x + 3,
                    TOP - 8, beat);
        }
    }
}

/* A note: its bar with the shade of its velocity, and the edge where it starts. */
static void print_note(FILE *out, const struct View *view, struct Piece note)
{
    uint64_t x = across(view, note.start);
    uint64_t width = across(view, note.end) - x;
    size_t y = TOP + row(view, note.lane) * ROW + GAP;
    unsigned shade = 230 - note.velocity * 3 / 2;
    width = width < EDGE ? EDGE : width;
    fprintf(out, "<rect x=\"%" PRIu64 "\" y=\"%zu\" width=\"%" PRIu64 "\" height=\"%d\" fill=\"#%02x%02x%02x\"/>\n",
            x, y, width, ROW - 2 * GAP, shade, shade, shade);
    fprintf(out, "<rect x=\"%" PRIu64 "\" y=\"%zu\" width=\"%d\" height=\"%d\"/>\n", x, y, EDGE,
            ROW - 2 * GAP);
}

/* A hidden piece: an outline, since it does not sound. */
static void print_hidden(FILE *out, const struct View *view, struct Piece piece)
{
    uint64_t x = across(view, piece.start);
    uint64_t width = across(view, piece.end) - x;
    width = width < EDGE ? EDGE : width;
    fprintf(out, "<rect x=\"%" PRIu64 "\" y=\"%zu\" width=\"%" PRIu64 "\" height=\"%d\" fill=\"#fff\" "
            "stroke=\"#000\" stroke-dasharray=\"2 2\"/>\n",
            x, TOP + row(view, piece.lane) * ROW + GAP, width, ROW - 2 * GAP);
}

void picture_print(FILE *out, const struct View *view, const char *title)
{
    print_head(out, view, title);
    print_rows(out, view);
    print_lines(out, view);
    for (size_t i = 0; i < view->hidden_count; i++) {
        print_hidden(out, view, view->hidden[i]);
    }
    for (size_t i = 0; i < view->note_count; i++) {
        print_note(out, view, view->notes[i]);
    }
    fputs("</svg>\n", out);
}
