/* Commands that change takes. Parts go to shelves without a name; names are given last. */
#include "commands.h"

#include "words.h"

#include <inttypes.h>
#include <string.h>

enum { MOST_PARTS = 5 };

/* Shelves for the parts of one command. */
struct Parts {
    uint32_t shelf[MOST_PARTS];
    size_t count;
};

/* Gives back the shelves of parts. */
static void release(struct Host *host, struct Parts *parts)
{
    while (parts->count > 0) {
        session_release(&host->session, parts->shelf[--parts->count]);
    }
}

/* Takes so many shelves, or none and says so. */
static bool claim(struct Host *host, size_t count, struct Parts *parts, enum Status *status)
{
    uint32_t number = ZIKOREWI_DONE;
    uint32_t left = session_free_shelves(&host->session);
    parts->count = 0;
    if (left < count) {
        *status = complain(host, STATUS_REFUSED,
                           "this needs %zu free shelves, and of 64 only %" PRIu32
                           " are free; drop a take first", count, left);
        return false;
    }
    while (parts->count < count && number == ZIKOREWI_DONE) {
        number = session_claim(&host->session, &parts->shelf[parts->count]);
        parts->count += number == ZIKOREWI_DONE;
    }
    if (number != ZIKOREWI_DONE) {
        release(host, parts);
        *status = complain_number(host, number);
    }
    return number == ZIKOREWI_DONE;
}

/* Names one of the parts, which then is no part any more. */
static void name_part(struct Host *host, struct Parts *parts, size_t part, const char *name)
{
    takes_put(host, name, parts->shelf[part]);
    parts->shelf[part] = parts->shelf[--parts->count];
}

/* A word as a beat. */
static bool beat_of(struct Host *host, const char *word, uint32_t *beat, enum Status *status)
{
    if (!words_number(word, beat)) {
        *status = complain(host, STATUS_USAGE, "'%s' is not a beat; beats are counted from 0", word);
        return false;
    }
    return true;
}

/* The beats of a shelf's take, for messages. */
static uint32_t beats_in(const struct Host *host, uint32_t shelf)
{
    return session_shelf(&host->session, shelf)[0];
}

/* A split with its message. */
static bool split(struct Host *host, uint32_t take, uint32_t beat, uint32_t left, uint32_t right,
                  enum Status *status)
{
    uint32_t number = session_split(&host->session, take, beat, left, right);
    if (number == ZIKOREWI_BEAT) {
        *status = complain(host, STATUS_REFUSED, "beat %" PRIu32 ": the take has only %" PRIu32
                           " beats", beat, beats_in(host, take));
    } else if (number != ZIKOREWI_DONE) {
        *status = complain_number(host, number);
    }
    return number == ZIKOREWI_DONE;
}

/* A join with its message. */
static bool join(struct Host *host, uint32_t first, uint32_t second, uint32_t result,
                 enum Status *status)
{
    uint32_t number = session_join(&host->session, first, second, result);
    if (number == ZIKOREWI_BEATS) {
        *status = complain(host, STATUS_REFUSED, "%" PRIu32 " beats and %" PRIu32
                           " are together more than %d", beats_in(host, first),
                           beats_in(host, second), ZIKOREWI_MAX_BEATS);
    } else if (number != ZIKOREWI_DONE) {
        *status = complain_number(host, number);
    }
    return number == ZIKOREWI_DONE;
}

/* split NAME BEAT LEFT RIGHT */
enum Status command_split(struct Host *host, char **words, size_t count)
{
    enum Status status = STATUS_REFUSED;
    struct Take *take = named(host, words[1]);
    struct Parts parts;
    uint32_t beat;
    (void)count;
    if (take == NULL || !beat_of(host, words[2], &beat, &status)) {
        return status;
    }
    if (strcmp(words[3], words[4]) == 0) {
        return complain(host, STATUS_REFUSED, "the two halves want two names");
    }
    if (!claim(host, 2, &parts, &status)) {
        return status;
    }
    if (split(host, take->shelf, beat, parts.shelf[0], parts.shelf[1], &status)) {
        name_part(host, &parts, 1, words[4]);
        name_part(host, &parts, 0, words[3]);
        status = STATUS_DONE;
    }
    release(host, &parts);
    return status;
}

/* join FIRST SECOND RESULT */
enum Status command_join(struct Host *host, char **words, size_t count)
{
    enum Status status = STATUS_REFUSED;
    struct Parts parts;
    struct Take *first = named(host, words[1]);
    struct Take *second = first == NULL ? NULL : named(host, words[2]);
    (void)count;
    if (second == NULL || !claim(host, 1, &parts, &status)) {
        return status;
    }
    if (join(host, first->shelf, second->shelf, parts.shelf[0], &status)) {
        name_part(host, &parts, 0, words[3]);
        status = STATUS_DONE;
    }
    release(host, &parts);
    return status;
}

/* Two words as the first beat of a stretch and the beat behind it. */
static bool stretch_of(struct Host *host, char **words, uint32_t *from, uint32_t *to,
                       enum Status *status)
{
    if (!beat_of(host, words[0], from, status) || !beat_of(host, words[1], to, status)) {
        return false;
    }
    if (*from > *to) {
        *status = complain(host, STATUS_REFUSED, "beat %" PRIu32 " is behind beat %" PRIu32, *from, *to);
        return false;
    }
    return true;
}

/* cut NAME FROM TO RESULT: split, split, and the outer parts joined. */
enum Status command_cut(struct Host *host, char **words, size_t count)
{
    enum Status status = STATUS_REFUSED;
    struct Take *take = named(host, words[1]);
    struct Parts parts;
    uint32_t from, to;
    (void)count;
    if (take == NULL || !stretch_of(host, words + 2, &from, &to, &status) ||
        !claim(host, 4, &parts, &status)) {
        return status;
    }
    const uint32_t *part = parts.shelf;
    if (split(host, take->shelf, to, part[0], part[1], &status) &&
        split(host, part[0], from, part[2], part[3], &status) &&
        join(host, part[2], part[1], part[0], &status)) {
        name_part(host, &parts, 0, words[4]);
        status = STATUS_DONE;
    }
    release(host, &parts);
    return status;
}

/* The beats of a stretch of a take, in the fourth part. */
static bool pick(struct Host *host, uint32_t take, char **words, const uint32_t *part,
                 enum Status *status)
{
    uint32_t from, to;
    return stretch_of(host, words, &from, &to, status) &&
           split(host, take, to, part[0], part[1], status) &&
           split(host, part[0], from, part[2], part[3], status);
}

/* Insert with its shelves: splits once and joins twice. */
static bool insert(struct Host *host, uint32_t take, uint32_t beat, uint32_t other,
                   const uint32_t *part, enum Status *status)
{
    return split(host, take, beat, part[0], part[1], status) &&
           join(host, part[0], other, part[2], status) &&
           join(host, part[2], part[1], part[0], status);
}

/* insert NAME BEAT OTHER RESULT [FROM TO] */
enum Status command_insert(struct Host *host, char **words, size_t count)
{
    enum Status status = STATUS_REFUSED;
    struct Parts parts;
    uint32_t beat;
    if (count == 6) {
        return complain(host, STATUS_USAGE, "the other take's beats want both FROM and TO");
    }
    struct Take *take = named(host, words[1]);
    struct Take *other = take == NULL ? NULL : named(host, words[3]);
    if (other == NULL || !beat_of(host, words[2], &beat, &status) ||
        !claim(host, count == 7 ? 4 : 3, &parts, &status)) {
        return status;
    }
    bool picked = count == 5 || pick(host, other->shelf, words + 5, parts.shelf, &status);
    uint32_t inserted = count == 5 ? other->shelf : parts.shelf[3];
    if (picked && insert(host, take->shelf, beat, inserted, parts.shelf, &status)) {
        name_part(host, &parts, 0, words[4]);
        status = STATUS_DONE;
    }
    release(host, &parts);
    return status;
}

/* copy NAME RESULT: by a call of the library, so that the copy has a history too. */
enum Status command_copy(struct Host *host, char **words, size_t count)
{
    enum Status status = STATUS_REFUSED;
    struct Parts parts;
    struct Take *take = named(host, words[1]);
    (void)count;
    if (take == NULL || !claim(host, 2, &parts, &status)) {
        return status;
    }
    /* Split at 0: an empty take, and the whole. */
    if (split(host, take->shelf, 0, parts.shelf[0], parts.shelf[1], &status)) {
        name_part(host, &parts, 1, words[2]);
        status = STATUS_DONE;
    }
    release(host, &parts);
    return status;
}

/* drop NAME */
enum Status command_drop(struct Host *host, char **words, size_t count)
{
    struct Take *take = named(host, words[1]);
    (void)count;
    if (take == NULL) {
        return STATUS_REFUSED;
    }
    takes_drop(host, take);
    return STATUS_DONE;
}
