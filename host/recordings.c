/* Commands that bring recordings in: load and lay. */
#include "commands.h"

#include "files.h"
#include "memory.h"
#include "messages.h"
#include "midifile.h"
#include "progress.h"
#include "words.h"

#include <errno.h>
#include <stdlib.h>
#include <string.h>

/* Opens a session with so many ticks to the beat, or those of the options. */
static uint32_t open_session(struct Host *host, uint32_t division)
{
    uint32_t delta = host->options->ticks != 0 ? host->options->ticks : division;
    uint32_t epsilon = host->options->shortest != 0 ? host->options->shortest : delta / 8;
    return session_open(&host->session, delta, epsilon == 0 ? 1 : epsilon);
}

/* Says where in the file the fault lies that the library's number speaks of. */
static enum Status complain_file(const struct Host *host, uint32_t number, const uint8_t *bytes,
                                 size_t count)
{
    char text[MESSAGE];
    struct Fault fault = midifile_fault(bytes, count, host->session.delta);
    if (fault.number != number) {
        return complain_number(host, number);
    }
    return complain(host, STATUS_REFUSED, "%s", message_fault(&fault, text));
}

/* Loads into a shelf of its own and gives it the name. */
static enum Status load_named(struct Host *host, const char *name, const uint8_t *bytes,
                              size_t count)
{
    uint32_t shelf;
    uint32_t number = session_claim(&host->session, &shelf);
    if (number != ZIKOREWI_DONE) {
        return complain_number(host, number);
    }
    number = session_load(&host->session, shelf, bytes, count);
    if (number == ZIKOREWI_DONE) {
        takes_put(host, name, shelf);
        return STATUS_DONE;
    }
    session_release(&host->session, shelf);
    return complain_file(host, number, bytes, count);
}

/* The same with a session for it: without takes the file's ticks to the beat decide. */
static enum Status load_bytes(struct Host *host, const char *name, const uint8_t *bytes,
                              size_t count)
{
    uint32_t division = midifile_division(bytes, count);
    uint32_t number = ZIKOREWI_DONE;
    if (host->count == 0 && host->options->ticks == 0 && division == 0) {
        session_close(&host->session);
        struct Fault fault = midifile_fault(bytes, count, 0);
        char text[MESSAGE];
        return complain(host, STATUS_REFUSED, "%s", message_fault(&fault, text));
    }
    if (host->count == 0) {
        number = open_session(host, division);
    }
    return number == ZIKOREWI_DONE ? load_named(host, name, bytes, count)
                                   : complain_number(host, number);
}

/* load NAME FILE */
enum Status command_load(struct Host *host, char **words, size_t count)
{
    uint8_t *bytes;
    size_t length;
    (void)count;
    if (!files_read(words[2], progress_reading, &bytes, &length)) {
        return complain(host, STATUS_TROUBLE, "the file cannot be read: %s", strerror(errno));
    }
    enum Status status = load_bytes(host, words[1], bytes, length);
    free(bytes);
    return status;
}

/* Lays notes in a shelf of its own and gives it the name. */
static enum Status lay_named(struct Host *host, const char *name, uint32_t beats,
                             const uint32_t *notes, size_t note_words)
{
    uint32_t shelf;
    uint32_t number = session_claim(&host->session, &shelf);
    if (number != ZIKOREWI_DONE) {
        return complain_number(host, number);
    }
    number = session_lay(&host->session, shelf, beats, notes, note_words);
    if (number == ZIKOREWI_DONE) {
        takes_put(host, name, shelf);
        return STATUS_DONE;
    }
    session_release(&host->session, shelf);
    char text[MESSAGE];
    uint64_t ticks = (uint64_t)beats * host->session.delta;
    const char *what = message_list(notes, note_words, ticks, text);
    if (number == ZIKOREWI_LIST && what != NULL) {
        return complain(host, STATUS_REFUSED, "%s", what);
    }
    return complain_number(host, number);
}

/* A session for notes that are typed in: its ticks must be known. */
static bool lay_ready(struct Host *host, enum Status *status)
{
    if (host->session.words != NULL) {
        return true;
    }
    if (host->options->ticks == 0) {
        *status = complain(host, STATUS_REFUSED,
                           "the ticks to the beat are not known: give --ticks, or load a file first");
        return false;
    }
    uint32_t number = open_session(host, 0);
    if (number != ZIKOREWI_DONE) {
        *status = complain_number(host, number);
    }
    return number == ZIKOREWI_DONE;
}

/* lay NAME BEATS [LANE START END VELOCITY]... */
enum Status command_lay(struct Host *host, char **words, size_t count)
{
    enum Status status = STATUS_REFUSED;
    uint32_t *numbers = memory_new(count - 2, sizeof *numbers);
    for (size_t i = 2; i < count; i++) {
        if (!words_number(words[i], &numbers[i - 2])) {
            free(numbers);
            return complain(host, STATUS_USAGE, "'%s' is not a number", words[i]);
        }
    }
    if (lay_ready(host, &status)) {
        status = lay_named(host, words[1], numbers[0], numbers + 1, count - 3);
    }
    free(numbers);
    return status;
}
