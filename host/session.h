/* The library's session on the heap: its shelves in use, and its growth. */
#ifndef SESSION_H
#define SESSION_H

#include "zikorewi.h"

#include <stdbool.h>

/* Numbers of the host beside the library's. */
enum { HOST_NO_MEMORY = 100, HOST_NO_SHELF = 101 };

/* A session. Without words it is not open. Bit s of used says that shelf s holds a take or a part. */
struct Session {
    uint32_t *words;
    uint32_t delta;
    uint32_t epsilon;
    uint32_t shelves;
    uint32_t shelf_words;
    uint64_t used;
};

/* Opens a small session in place of the one that was; on a refusal that one stays. */
uint32_t session_open(struct Session *session, uint32_t delta, uint32_t epsilon);

/* Frees the words; the session is not open then. */
void session_close(struct Session *session);

/* The words of a shelf. They move when the session grows. */
const uint32_t *session_shelf(const struct Session *session, uint32_t shelf);

/* Takes a shelf that is not in use, of a larger session if need be. */
uint32_t session_claim(struct Session *session, uint32_t *shelf);

/* Gives a shelf back. */
void session_release(struct Session *session, uint32_t shelf);

/* How many more shelves could be claimed. */
uint32_t session_free_shelves(const struct Session *session);

/* The library's calls; where a result does not fit, the session grows and the call is made again. */
uint32_t session_lay(struct Session *session, uint32_t shelf, uint32_t beats,
                     const uint32_t *notes, size_t note_words);
uint32_t session_load(struct Session *session, uint32_t shelf, const uint8_t *file, size_t bytes);
uint32_t session_split(struct Session *session, uint32_t take, uint32_t beat, uint32_t left,
                       uint32_t right);
uint32_t session_join(struct Session *session, uint32_t first, uint32_t second, uint32_t result);

/* The shelf's file in a new block that the caller frees. */
uint32_t session_write(const struct Session *session, uint32_t shelf, uint8_t **file,
                       size_t *bytes);

#endif
