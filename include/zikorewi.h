/* Zikorewi: takes of MIDI notes, cut and joined on beat lines.
 *
 * A session is a list of 32-bit words that the caller owns: four header words
 * (ticks to the beat, shortest piece kept, shelves, words in a shelf), then the
 * shelves. A shelf holds one take. Its length is exactly
 * zikorewi_session_words(shelves, shelf_words).
 *
 * Every call returns 0 and is carried out, or returns the number of the first
 * question whose answer is no (enum zikorewi_number) and changes nothing. No
 * call relies on an earlier check: any words may stand in the session, any
 * bytes in a file. A pointer with its length describes memory that may be read
 * (and written, where it is not const) and that no other argument shares; with
 * a length of 0 the pointer is not looked at.
 *
 * The calls allocate nothing, take less than 64 KB of stack, keep nothing
 * between calls, and may run at the same time on different sessions.
 */
#ifndef ZIKOREWI_H
#define ZIKOREWI_H

#include <stddef.h>
#include <stdint.h>

#ifdef __cplusplus
extern "C" {
#endif

/* Limits. */
enum {
    ZIKOREWI_MAX_BEATS = 4096,
    ZIKOREWI_LANES = 2048, /* lane = channel * 128 + key */
    ZIKOREWI_MAX_SHELVES = 64,
    ZIKOREWI_MAX_DELTA = 32767, /* ticks to the beat, from 1 on */
    ZIKOREWI_MIN_SHELF_WORDS = 3,
    ZIKOREWI_MAX_SHELF_WORDS = 1048576,
    ZIKOREWI_HEADER_WORDS = 4,
    ZIKOREWI_NOTE_WORDS = 4, /* lane, start, end, velocity */
    ZIKOREWI_CELL_WORDS = 6  /* lane, beat, side, before, after, velocity */
};

/* The numbers that calls return: the question whose answer is no. */
enum zikorewi_number {
    ZIKOREWI_DONE = 0,           /* carried out */
    ZIKOREWI_HEADER = 1,         /* header words out of range, or another length */
    ZIKOREWI_SHELF = 2,          /* a shelf number that is not below the shelves */
    ZIKOREWI_SAME_SHELF = 3,     /* a written shelf is also named for another part */
    ZIKOREWI_UNSOUND = 4,        /* a shelf that is read is not sound */
    ZIKOREWI_BEAT = 5,           /* split behind the last beat */
    ZIKOREWI_BEATS = 6,          /* the result has more than 4,096 beats */
    ZIKOREWI_LIST = 7,           /* not whole notes, in range, in order, without overlap */
    ZIKOREWI_SHELF_ROOM = 8,     /* a result does not fit its shelf's words */
    ZIKOREWI_FILE_HEADER = 9,    /* no MThd of length 6 or more inside the file */
    ZIKOREWI_FILE_KIND = 10,     /* not format 0, one track, and the session's ticks */
    ZIKOREWI_FILE_TRACK = 11,    /* no complete MTrk reached through complete chunks */
    ZIKOREWI_FILE_EVENT = 12,    /* an event that is not legal or not inside the track */
    ZIKOREWI_FILE_TIME = 13,     /* an event later than 4,096 beats */
    ZIKOREWI_FILE_START = 14,    /* a note starts in a lane that sounds */
    ZIKOREWI_OUTPUT_ROOM = 15    /* the file does not fit the output */
};

/* The words of a session with so many shelves of so many words. */
static inline size_t zikorewi_session_words(uint32_t shelves, uint32_t shelf_words)
{
    return (size_t)ZIKOREWI_HEADER_WORDS + (size_t)shelves * shelf_words;
}

/* The bytes of an output that every file of so many notes fits: a time of at
 * most four bytes and three more for each of a note's two events and for the
 * end of track, behind 22 bytes. */
static inline size_t zikorewi_file_bytes(uint32_t notes)
{
    return 29 + 14 * (size_t)notes;
}

/* Opens a session: writes its header words and empties every shelf. What the
 * words held before does not matter.
 * Numbers: 1. */
uint32_t take_open(uint32_t *session, size_t words, uint32_t delta, uint32_t epsilon,
                   uint32_t shelves, uint32_t shelf_words);

/* Lays a list of notes, four words each in order of lane and start, with its
 * beats in a shelf: a recording, with all its cells.
 * Numbers: 1, 2, 6, 7, 8. */
uint32_t take_lay(uint32_t *session, size_t words, uint32_t shelf, uint32_t beats,
                  const uint32_t *notes, size_t note_words);

/* Splits a take at a beat, from 0 to its beats: the beats before it go to the
 * left shelf, the others to the right shelf. The three shelves differ.
 * Numbers: 1, 2, 3, 4, 5. */
uint32_t take_split(uint32_t *session, size_t words, uint32_t take, uint32_t beat,
                    uint32_t left, uint32_t right);

/* Joins two takes in order into a third shelf. Both may be the same shelf.
 * Numbers: 1, 2, 3, 4, 6, 8. */
uint32_t take_join(uint32_t *session, size_t words, uint32_t first, uint32_t second,
                   uint32_t result);

/* Lays the notes of a format 0 file in a shelf.
 * Numbers: 1, 2, 9, 10, 11, then 12, 13 and 14 event by event, then 8. */
uint32_t take_load(uint32_t *session, size_t words, uint32_t shelf, const uint8_t *file,
                   size_t bytes);

/* Writes a shelf's take as a format 0 file to the output, and its length to
 * count; what stands in the output behind the file stays. After a refusal the
 * whole output is as it was and count is 0. An output of zikorewi_file_bytes()
 * is never refused for its room.
 * Numbers: 1, 2, 4, 15. */
uint32_t take_write(const uint32_t *session, size_t words, uint32_t shelf, uint8_t *output,
                    size_t room, uint64_t *count);

#ifdef __cplusplus
}
#endif

#endif
