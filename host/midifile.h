/* Where in a file the fault lies that the library's number speaks of. */
#ifndef MIDIFILE_H
#define MIDIFILE_H

#include <stdbool.h>
#include <stddef.h>
#include <stdint.h>

/* The first fault of a file, 9 to 14; number 0 where it has none. */
struct Fault {
    uint32_t number;
    size_t byte;       /* counted from 0 */
    size_t event;      /* counted from 1; 0 outside the track's events */
    uint64_t tick;     /* the event's time */
    bool timed;        /* whether the time was read */
    char what[160];    /* in words */
};

/* The ticks to the beat that a file names; 0 where it names none. */
uint32_t midifile_division(const uint8_t *bytes, size_t count);

/* Walks through a file for a session with so many ticks to the beat. */
struct Fault midifile_fault(const uint8_t *bytes, size_t count, uint32_t delta);

#endif
