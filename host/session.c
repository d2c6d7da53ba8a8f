#include "session.h"

#include <stdlib.h>
#include <string.h>

enum { FIRST_SHELVES = 4, FIRST_SHELF_WORDS = 1024 };

/* How many words the session has. */
static size_t length(const struct Session *session)
{
    return zikorewi_session_words(session->shelves, session->shelf_words);
}

/* A shelf's first word in a session with shelves of so many words. */
static size_t place(uint32_t shelf, uint32_t shelf_words)
{
    return zikorewi_session_words(shelf, shelf_words);
}

/* A new session's words, with the library's answer; NULL where it is not 0. */
static uint32_t *opened(const struct Session *session, uint32_t *number)
{
    uint32_t *words = malloc(length(session) * sizeof *words);
    if (words == NULL) {
        *number = HOST_NO_MEMORY;
        return NULL;
    }
    *number = take_open(words, length(session), session->delta, session->epsilon,
                        session->shelves, session->shelf_words);
    if (*number != ZIKOREWI_DONE) {
        free(words);
        return NULL;
    }
    return words;
}

uint32_t session_open(struct Session *session, uint32_t delta, uint32_t epsilon)
{
    struct Session next = {NULL, delta, epsilon, FIRST_SHELVES, FIRST_SHELF_WORDS, 0};
    uint32_t number;
    next.words = opened(&next, &number);
    if (number == ZIKOREWI_DONE) {
        free(session->words);
        *session = next;
    }
    return number;
}

void session_close(struct Session *session)
{
    free(session->words);
    memset(session, 0, sizeof *session);
}

const uint32_t *session_shelf(const struct Session *session, uint32_t shelf)
{
    return session->words + place(shelf, session->shelf_words);
}

/* Moves the shelves in use to a session of another size. Behind a shelf's words stand zeros. */
static uint32_t resize(struct Session *session, uint32_t shelves, uint32_t shelf_words)
{
    struct Session next = *session;
    uint32_t number;
    next.shelves = shelves;
    next.shelf_words = shelf_words;
    next.words = opened(&next, &number);
    if (number != ZIKOREWI_DONE) {
        return number;
    }
    for (uint32_t shelf = 0; shelf < session->shelves; shelf++) {
        if (session->used >> shelf & 1) {
            memcpy(next.words + place(shelf, shelf_words), session_shelf(session, shelf),
                   session->shelf_words * sizeof *next.words);
        }
    }
    free(session->words);
    *session = next;
    return ZIKOREWI_DONE;
}

/* Whether a call that answered this number is worth making again, in a session grown for it. */
static bool widened(struct Session *session, uint32_t *number)
{
    uint32_t words = session->shelf_words;
    if (*number != ZIKOREWI_SHELF_ROOM || words == ZIKOREWI_MAX_SHELF_WORDS) {
        return false;
    }
    words = words > ZIKOREWI_MAX_SHELF_WORDS / 2 ? ZIKOREWI_MAX_SHELF_WORDS : 2 * words;
    *number = resize(session, session->shelves, words);
    return *number == ZIKOREWI_DONE;
}

uint32_t session_claim(struct Session *session, uint32_t *shelf)
{
    for (uint32_t free_shelf = 0; free_shelf < session->shelves; free_shelf++) {
        if (!(session->used >> free_shelf & 1)) {
            session->used |= (uint64_t)1 << free_shelf;
            *shelf = free_shelf;
            return ZIKOREWI_DONE;
        }
    }
    if (session->shelves == ZIKOREWI_MAX_SHELVES) {
        return HOST_NO_SHELF;
    }
    uint32_t number = resize(session, 2 * session->shelves, session->shelf_words);
    return number == ZIKOREWI_DONE ? session_claim(session, shelf) : number;
}

void session_release(struct Session *session, uint32_t shelf)
{
    session->used &= ~((uint64_t)1 << shelf);
}

uint32_t session_free_shelves(const struct Session *session)
{
    uint32_t free_shelves = ZIKOREWI_MAX_SHELVES;
    for (uint64_t used = session->used; used != 0; used &= used - 1) {
        free_shelves--;
    }
    return free_shelves;
}

uint32_t session_lay(struct Session *session, uint32_t shelf, uint32_t beats,
                     const uint32_t *notes, size_t note_words)
{
    uint32_t number;
    do {
        number = take_lay(session->words, length(session), shelf, beats, notes, note_words);
    } while (widened(session, &number));
    return number;
}

uint32_t session_load(struct Session *session, uint32_t shelf, const uint8_t *file, size_t bytes)
{
    uint32_t number;
    do {
        number = take_load(session->words, length(session), shelf, file, bytes);
    } while (widened(session, &number));
    return number;
}

uint32_t session_split(struct Session *session, uint32_t take, uint32_t beat, uint32_t left,
                       uint32_t right)
{
    return take_split(session->words, length(session), take, beat, left, right);
}

uint32_t session_join(struct Session *session, uint32_t first, uint32_t second, uint32_t result)
{
    uint32_t number;
    do {
        number = take_join(session->words, length(session), first, second, result);
    } while (widened(session, &number));
    return number;
}

uint32_t session_write(const struct Session *session, uint32_t shelf, uint8_t **file,
                       size_t *bytes)
{
    size_t room = zikorewi_file_bytes(session_shelf(session, shelf)[1]);
    uint64_t count = 0;
    uint32_t number = HOST_NO_MEMORY;
    *file = malloc(room);
    if (*file != NULL) {
        number = take_write(session->words, length(session), shelf, *file, room, &count);
    }
    *bytes = (size_t)count;
    return number;
}
