/* What went wrong, in words. */
#ifndef MESSAGES_H
#define MESSAGES_H

#include "midifile.h"

#include <stdint.h>

/* Room for a message about a fault. */
enum { MESSAGE = 320 };

/* A sentence for a number of the library or of the host. */
const char *message_number(uint32_t number);

/* A file's fault with its place, as 'byte 57, event 9 (tick 960): ...'. */
const char *message_fault(const struct Fault *fault, char text[MESSAGE]);

/* What is wrong with a note list that the library refused with 7. */
const char *message_list(const uint32_t *notes, size_t note_words, uint64_t ticks,
                         char text[MESSAGE]);

#endif
