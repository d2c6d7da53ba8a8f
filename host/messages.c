#include "messages.h"

#include "session.h"

#include <inttypes.h>
#include <stdio.h>

static const char *const SENTENCES[] = {
    [ZIKOREWI_DONE] = "done",
    [ZIKOREWI_HEADER] = "ticks to the beat go from 1 to 32,767, the shortest piece kept from 1 to these ticks",
    [ZIKOREWI_SHELF] = "a shelf that the session does not have was named",
    [ZIKOREWI_SAME_SHELF] = "a result would overwrite a take that is read",
    [ZIKOREWI_UNSOUND] = "the take's notes and cells do not belong together",
    [ZIKOREWI_BEAT] = "the take has fewer beats",
    [ZIKOREWI_BEATS] = "the result would have more than 4,096 beats",
    [ZIKOREWI_LIST] = "the notes are not whole, in range, in order and without overlap",
    [ZIKOREWI_SHELF_ROOM] = "the result does not fit 1,048,576 words, the most that a take may have",
    [ZIKOREWI_FILE_HEADER] = "the file does not begin with a whole MIDI header",
    [ZIKOREWI_FILE_KIND] = "the file is not of format 0 with one track and this session's ticks to the beat",
    [ZIKOREWI_FILE_TRACK] = "the file has no complete track",
    [ZIKOREWI_FILE_EVENT] = "the track has an event that is not legal or not complete",
    [ZIKOREWI_FILE_TIME] = "the track goes on after 4,096 beats",
    [ZIKOREWI_FILE_START] = "a key is struck while it sounds",
    [ZIKOREWI_OUTPUT_ROOM] = "the file does not fit the output",
    [HOST_NO_MEMORY] = "memory ran out",
    [HOST_NO_SHELF] = "all 64 shelves are in use; drop a take first",
};

const char *message_number(uint32_t number)
{
    const char *sentence = NULL;
    if (number < sizeof SENTENCES / sizeof *SENTENCES) {
        sentence = SENTENCES[number];
    }
    return sentence == NULL ? "the library answered with a number that this program does not know"
                            : sentence;
}

const char *message_fault(const struct Fault *fault, char text[MESSAGE])
{
    char place[80] = "";
    if (fault->event > 0 && fault->timed) {
        snprintf(place, sizeof place, ", event %zu (tick %" PRIu64 ")", fault->event, fault->tick);
    } else if (fault->event > 0) {
        snprintf(place, sizeof place, ", event %zu", fault->event);
    }
    snprintf(text, MESSAGE, "byte %zu%s: %s", fault->byte, place, fault->what);
    return text;
}

/* What is wrong with a note alone; NULL where nothing is. */
static const char *note_fault(const uint32_t *note, uint64_t ticks)
{
    if (note[0] >= ZIKOREWI_LANES) {
        return "its lane is above 2,047 (channel x 128 + key)";
    }
    if (note[1] >= note[2]) {
        return "it does not end after its start";
    }
    if (note[2] > ticks) {
        return "it ends after the last beat";
    }
    if (note[3] < 1 || note[3] > 127) {
        return "its velocity is not between 1 and 127";
    }
    return NULL;
}

/* What is wrong with a note behind another; NULL where nothing is. */
static const char *order_fault(const uint32_t *earlier, const uint32_t *note)
{
    if (note[0] < earlier[0] || (note[0] == earlier[0] && note[1] < earlier[1])) {
        return "it should stand before the one ahead of it: order is by lane, then by start";
    }
    if (note[0] == earlier[0] && note[1] < earlier[2]) {
        return "it starts before the one ahead of it, in the same lane, ends";
    }
    return NULL;
}

const char *message_list(const uint32_t *notes, size_t note_words, uint64_t ticks,
                         char text[MESSAGE])
{
    for (size_t i = 0; i + ZIKOREWI_NOTE_WORDS <= note_words; i += ZIKOREWI_NOTE_WORDS) {
        const char *what = note_fault(notes + i, ticks);
        if (what == NULL && i > 0) {
            what = order_fault(notes + i - ZIKOREWI_NOTE_WORDS, notes + i);
        }
        if (what != NULL) {
            snprintf(text, MESSAGE, "note %zu: %s", i / ZIKOREWI_NOTE_WORDS + 1, what);
            return text;
        }
    }
    if (note_words % ZIKOREWI_NOTE_WORDS != 0) {
        snprintf(text, MESSAGE, "note %zu: it is not whole; a note is lane, start, end, velocity",
                 note_words / ZIKOREWI_NOTE_WORDS + 1);
        return text;
    }
    return NULL;
}
