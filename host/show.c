/* Commands that show takes or write them. */
#define _POSIX_C_SOURCE 200809L
#include "commands.h"

#include "files.h"
#include "keys.h"
#include "picture.h"
#include "pieces.h"
#include "roll.h"

#include <errno.h>
#include <inttypes.h>
#include <stdlib.h>
#include <string.h>

/* A take to be shown. */
static struct View view_take(const struct Host *host, const struct Take *take)
{
    const struct Session *session = &host->session;
    return view_of(session_shelf(session, take->shelf), session->delta, session->epsilon);
}

/* Writes a file that a command names. */
static enum Status put_file(struct Host *host, const char *path, const void *bytes, size_t count)
{
    if (!files_write(path, bytes, count)) {
        return complain(host, STATUS_TROUBLE, "the file cannot be written: %s", strerror(errno));
    }
    return STATUS_DONE;
}

/* write NAME FILE */
enum Status command_write(struct Host *host, char **words, size_t count)
{
    uint8_t *bytes;
    size_t length;
    struct Take *take = named(host, words[1]);
    (void)count;
    if (take == NULL) {
        return STATUS_REFUSED;
    }
    uint32_t number = session_write(&host->session, take->shelf, &bytes, &length);
    enum Status status = number == ZIKOREWI_DONE ? put_file(host, words[2], bytes, length)
                                                 : complain_number(host, number);
    free(bytes);
    return status;
}

/* A take's name and sizes on a line. */
static void print_sizes(const struct Host *host, const struct Take *take)
{
    const uint32_t *shelf = session_shelf(&host->session, take->shelf);
    printf("%s: beats %" PRIu32 ", notes %" PRIu32 ", cells %" PRIu32 "; %" PRIu32 " ticks to the beat\n",
           take->name, shelf[0], shelf[1], shelf[2], host->session.delta);
}

/* takes */
enum Status command_takes(struct Host *host, char **words, size_t count)
{
    (void)words;
    (void)count;
    for (size_t i = 0; i < host->count; i++) {
        print_sizes(host, &host->takes[i]);
    }
    return STATUS_DONE;
}

/* notes NAME */
enum Status command_notes(struct Host *host, char **words, size_t count)
{
    char key[KEY_NAME];
    struct Take *take = named(host, words[1]);
    (void)count;
    if (take == NULL) {
        return STATUS_REFUSED;
    }
    struct View view = view_take(host, take);
    print_sizes(host, take);
    printf("%6s %7s %4s %5s %9s %9s %8s\n", "note", "channel", "key", "", "start", "end", "velocity");
    for (size_t i = 0; i < view.note_count; i++) {
        struct Piece note = view.notes[i];
        printf("%6zu %7" PRIu32 " %4" PRIu32 " %-5s %9" PRIu32 " %9" PRIu32 " %8" PRIu32 "\n", i + 1,
               note.lane / 128, note.lane % 128, key_name(note.lane, key), note.start, note.end,
               note.velocity);
    }
    view_free(&view);
    return STATUS_DONE;
}

/* What a cell does at its line. */
static const char *cell_state(const struct View *view, size_t number)
{
    if (cell_bound(view, number)) {
        return "bound";
    }
    return cell_alone(view, view_cell(view, number)) ? "alone" : "hidden";
}

/* cells NAME */
enum Status command_cells(struct Host *host, char **words, size_t count)
{
    char key[KEY_NAME];
    struct Take *take = named(host, words[1]);
    (void)count;
    if (take == NULL) {
        return STATUS_REFUSED;
    }
    struct View view = view_take(host, take);
    print_sizes(host, take);
    printf("%7s %4s %5s %5s %-7s %9s %9s %8s\n", "channel", "key", "", "beat", "line", "before",
           "after", "velocity");
    for (size_t i = 0; i < view.cell_count; i++) {
        struct Cell cell = view_cell(&view, i);
        printf("%7" PRIu32 " %4" PRIu32 " %-5s %5" PRIu32 " %-7s %9" PRIu32 " %9" PRIu32 " %8" PRIu32 " %s\n",
               cell.lane / 128, cell.lane % 128, key_name(cell.lane, key), cell.beat,
               cell.side == 0 ? "opening" : "closing", cell.before, cell.after, cell.velocity,
               cell_state(&view, i));
    }
    view_free(&view);
    return STATUS_DONE;
}

/* same FIRST SECOND: all words, those behind the cells too. */
enum Status command_same(struct Host *host, char **words, size_t count)
{
    struct Take *first = named(host, words[1]);
    struct Take *second = first == NULL ? NULL : named(host, words[2]);
    (void)count;
    if (second == NULL) {
        return STATUS_REFUSED;
    }
    const struct Session *session = &host->session;
    if (memcmp(session_shelf(session, first->shelf), session_shelf(session, second->shelf),
               session->shelf_words * sizeof *session->words) != 0) {
        return complain(host, STATUS_REFUSED, "the takes differ");
    }
    return STATUS_DONE;
}

/* roll NAME */
enum Status command_roll(struct Host *host, char **words, size_t count)
{
    struct Take *take = named(host, words[1]);
    struct RollStyle style = {host->options->columns, 0, host->options->ascii};
    (void)count;
    if (take == NULL) {
        return STATUS_REFUSED;
    }
    struct View view = view_take(host, take);
    print_sizes(host, take);
    roll_print(stdout, &view, style);
    roll_legend(stdout, style.ascii);
    view_free(&view);
    return STATUS_DONE;
}

/* picture NAME FILE: drawn in memory first, so that a failure leaves no half of it. */
enum Status command_picture(struct Host *host, char **words, size_t count)
{
    char *text = NULL;
    size_t length = 0;
    struct Take *take = named(host, words[1]);
    (void)count;
    if (take == NULL) {
        return STATUS_REFUSED;
    }
    FILE *memory = open_memstream(&text, &length);
    if (memory == NULL) {
        return complain_number(host, HOST_NO_MEMORY);
    }
    struct View view = view_take(host, take);
    picture_print(memory, &view, take->name);
    view_free(&view);
    bool whole = ferror(memory) == 0;
    whole = fclose(memory) == 0 && whole;
    enum Status status = whole ? put_file(host, words[2], text, length)
                               : complain_number(host, HOST_NO_MEMORY);
    free(text);
    return status;
}
