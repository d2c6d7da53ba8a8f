/* Shows on one screen what takes are for: a recording, a naive cut, this library's cut, and the pieces joined again. */
#define _POSIX_C_SOURCE 200809L
#include "files.h"
#include "memory.h"
#include "picture.h"
#include "roll.h"
#include "session.h"
#include "status.h"

#include <errno.h>
#include <stdlib.h>
#include <string.h>

enum { DELTA = 96, EPSILON = 24, BEATS = 5, CUT = 2, WIDE = 8, SIDE = 52 };

/* Lane, start, end, velocity. Line 2 is at tick 192, line 3 at 288: the pianist strikes a little
 * ahead of the beat, and C3 is held over three lines. */
static const uint32_t RECORDING[] = {
    48, 60,  330, 80,  48, 372, 470, 60,  52, 186, 284, 50,  55, 0,   100, 55,
    55, 290, 384, 50,  64, 96,  180, 70,  67, 0,   90,  90,  69, 84,  200, 100,
    72, 180, 290, 120, 74, 372, 470, 105, 76, 276, 380, 110,
};
enum { NOTE_WORDS = sizeof RECORDING / sizeof *RECORDING };

/* Shelves of the demo. */
enum { TAKE, NAIVE, HEAD, REST, MIDDLE, TAIL, OURS, BOTH, HEALED, SILENCE, PASTED, SPARE };

/* A picture of the demo: its file, its title, a shelf, and what is said beside it. */
struct Panel {
    const char *file;
    const char *title;
    uint32_t shelf;
    const char *const *beside;
};

static const char *const SAID_TAKE[] = {
    "1 THE TAKE", "Five beats. The pianist", "strikes ahead of the beat", "lines and holds C3 over",
    "three of them.", "Beat 2 is to go.", NULL};
static const char *const SAID_NAIVE[] = {
    "2 A NAIVE CUT", "Notes chopped at the lines", "of beat 2 and pushed", "together:",
    "C5 two stray pieces of a", "   note that is cut out", "E3 a stray piece of 6 ticks",
    "C3 split: struck twice", NULL};
static const char *const SAID_OURS[] = {
    "3 OUR CUT", "Those pieces of C5 and E3", "are hidden, not lost. C3", "is one note over the cut.",
    "D5 is as early as before.", NULL};
static const char *const SAID_HEALED[] = {
    "4 HEALED", "The three parts joined in", "their order again: equal", "to the take, word for",
    "word, its edit memory", "too (just compared).", NULL};
static const char *const SAID_PASTED[] = {
    "5 PASTED BEHIND SILENCE", "Beat 2 behind a silent", "beat, cut again: C3 never", "reaches back over the",
    "silence.", NULL};

static const struct Panel PANELS[] = {
    {"1-take.svg", "The take", TAKE, SAID_TAKE},
    {"2-naive-cut.svg", "A naive cut of beat 2: stray pieces of C5 and E3, C3 struck twice", NAIVE, SAID_NAIVE},
    {"3-our-cut.svg", "Our cut of beat 2: those pieces are hidden, C3 is one note", OURS, SAID_OURS},
    {"4-healed.svg", "The parts joined again: the take, word for word", HEALED, SAID_HEALED},
    {"5-pasted.svg", "Beat 2 pasted behind a silent beat and cut again", PASTED, SAID_PASTED},
};

/* Says why the demonstration ends. */
static enum Status fail(const char *what)
{
    fprintf(stderr, "takecut-demo: %s\n", what);
    return STATUS_TROUBLE;
}

/* Adds the part of a note that lies in [from, to), moved. */
static void add_part(uint32_t *notes, size_t *words, const uint32_t *note, uint32_t from,
                     uint32_t to, uint32_t moved)
{
    uint32_t start = note[1] > from ? note[1] : from;
    uint32_t end = note[2] < to ? note[2] : to;
    if (start < end) {
        const uint32_t part[] = {note[0], start - moved, end - moved, note[3]};
        memcpy(notes + *words, part, sizeof part);
        *words += ZIKOREWI_NOTE_WORDS;
    }
}

/* The naive cut: every note chopped at the lines of the beat, the parts pushed together. */
static uint32_t lay_naive(struct Session *session)
{
    uint32_t notes[2 * NOTE_WORDS];
    size_t words = 0;
    for (size_t i = 0; i < NOTE_WORDS; i += ZIKOREWI_NOTE_WORDS) {
        add_part(notes, &words, RECORDING + i, 0, CUT * DELTA, 0);
        add_part(notes, &words, RECORDING + i, (CUT + 1) * DELTA, BEATS * DELTA, DELTA);
    }
    return session_lay(session, NAIVE, BEATS - 1, notes, words);
}

/* Fills the shelves; the sum of the library's numbers is 0 if all went well. */
static uint32_t edit(struct Session *session)
{
    uint32_t number = 0, shelf;
    for (int i = 0; i <= SPARE; i++) {
        number += session_claim(session, &shelf);
    }
    number += session_lay(session, TAKE, BEATS, RECORDING, NOTE_WORDS);
    number += lay_naive(session);
    number += session_split(session, TAKE, CUT, HEAD, REST);
    number += session_split(session, REST, 1, MIDDLE, TAIL);
    number += session_join(session, HEAD, TAIL, OURS);
    number += session_join(session, HEAD, MIDDLE, BOTH);
    number += session_join(session, BOTH, TAIL, HEALED);
    number += session_lay(session, SILENCE, 1, NULL, 0);
    number += session_join(session, SILENCE, MIDDLE, BOTH);
    number += session_join(session, BOTH, TAIL, SPARE);
    number += session_split(session, SPARE, 2, PASTED, BOTH);
    return number;
}

/* The columns that a text takes on a terminal. */
static int columns(const char *text, size_t bytes)
{
    int count = 0;
    for (size_t i = 0; i < bytes; i++) {
        count += (text[i] & 0xC0) != 0x80;
    }
    return count;
}

/* Prints the lines of a roll with what is said beside them. */
static void print_beside(const char *roll, const char *const *beside)
{
    while (*roll != '\0' || *beside != NULL) {
        size_t bytes = strcspn(roll, "\n");
        printf("%.*s", (int)bytes, roll);
        if (*beside != NULL) {
            printf("%*s%s", SIDE - columns(roll, bytes), "", *beside++);
        }
        putchar('\n');
        roll += bytes + (roll[bytes] == '\n');
    }
}

/* A shelf's roll or picture as a text; NULL without memory. */
static char *drawn(const struct Session *session, const struct Panel *panel, bool picture,
                   bool ascii)
{
    char *text = NULL;
    size_t length;
    FILE *memory = open_memstream(&text, &length);
    if (memory == NULL) {
        return NULL;
    }
    struct View view = view_of(session_shelf(session, panel->shelf), DELTA, EPSILON);
    if (picture) {
        picture_print(memory, &view, panel->title);
    } else {
        roll_print(memory, &view, (struct RollStyle){SIDE, WIDE, ascii});
    }
    view_free(&view);
    if (fclose(memory) != 0) {
        free(text);
        return NULL;
    }
    return text;
}

/* Writes one picture to a folder. */
static enum Status write_picture(const char *folder, const char *file, const char *text)
{
    char *path = memory_new(strlen(folder) + strlen(file) + 2, 1);
    sprintf(path, "%s/%s", folder, file);
    bool written = files_write(path, text, strlen(text));
    enum Status status = written ? STATUS_DONE : fail(strerror(errno));
    free(path);
    return status;
}

/* All panels on the terminal, or as pictures in a folder. */
static enum Status show(const struct Session *session, const char *folder, bool ascii)
{
    enum Status status = STATUS_DONE;
    for (size_t i = 0; i < sizeof PANELS / sizeof *PANELS && status == STATUS_DONE; i++) {
        char *text = drawn(session, &PANELS[i], folder != NULL, ascii);
        if (text == NULL) {
            return fail("memory ran out");
        }
        if (folder != NULL) {
            status = write_picture(folder, PANELS[i].file, text);
        } else {
            print_beside(text, PANELS[i].beside);
            putchar('\n');
        }
        free(text);
    }
    if (folder == NULL) {
        roll_legend(stdout, ascii);
    }
    return status;
}

/* Whether the healed take is the recording again, in all words. */
static bool healed(const struct Session *session)
{
    return memcmp(session_shelf(session, TAKE), session_shelf(session, HEALED),
                  session->shelf_words * sizeof *session->words) == 0;
}

/* The demonstration shows nothing unless the healed take is the recording. */
int main(int count, char **words)
{
    struct Session session = {0};
    bool ascii = count == 2 && strcmp(words[1], "--ascii") == 0;
    bool pictures = count == 3 && strcmp(words[1], "--pictures") == 0;
    if (count != 1 && !ascii && !pictures) {
        fputs("usage: takecut-demo [--ascii | --pictures FOLDER]\n", stderr);
        return STATUS_USAGE;
    }
    if (session_open(&session, DELTA, EPSILON) != 0 || edit(&session) != 0) {
        return fail("the library refused a call");
    }
    enum Status status = healed(&session) ? show(&session, pictures ? words[2] : NULL, ascii)
                                          : fail("the parts joined again differ from the take");
    session_close(&session);
    if (fflush(stdout) != 0 || ferror(stdout)) {
        return fail("standard output cannot be written");
    }
    return status;
}
