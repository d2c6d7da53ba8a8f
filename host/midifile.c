#include "midifile.h"

#include "keys.h"
#include "zikorewi.h"

#include <inttypes.h>
#include <stdarg.h>
#include <stdio.h>
#include <string.h>

enum { SILENT = -1 };

/* A place in the file, and behind the track's start what has been read of it. */
struct Walk {
    const uint8_t *bytes;
    size_t end;
    size_t at;
    uint32_t delta;
    uint8_t running;
    bool ended;
    int64_t since[ZIKOREWI_LANES]; /* the tick at which a lane's note started */
    struct Fault fault;
};

/* Notes the fault and answers false. */
static bool fault(struct Walk *walk, uint32_t number, size_t byte, const char *form, ...)
{
    va_list values;
    va_start(values, form);
    vsnprintf(walk->fault.what, sizeof walk->fault.what, form, values);
    va_end(values);
    walk->fault.number = number;
    walk->fault.byte = byte;
    return false;
}

/* A number of so many bytes, high byte first. */
static uint32_t big_endian(const uint8_t *bytes, int count)
{
    uint32_t value = 0;
    for (int i = 0; i < count; i++) {
        value = value << 8 | bytes[i];
    }
    return value;
}

uint32_t midifile_division(const uint8_t *bytes, size_t count)
{
    if (count < 14 || memcmp(bytes, "MThd", 4) != 0) {
        return 0;
    }
    uint32_t division = big_endian(bytes + 12, 2);
    return division > ZIKOREWI_MAX_DELTA ? 0 : division;
}

/* Question 9. */
static bool header_there(struct Walk *walk)
{
    const uint8_t *bytes = walk->bytes;
    if (walk->end < 4 || memcmp(bytes, "MThd", 4) != 0) {
        return fault(walk, 9, 0, "the file does not begin with MThd, so it is no MIDI file");
    }
    if (walk->end < 8) {
        return fault(walk, 9, walk->end, "the file ends inside its header");
    }
    uint32_t length = big_endian(bytes + 4, 4);
    if (length < 6) {
        return fault(walk, 9, 4, "the header has %" PRIu32 " bytes, fewer than 6", length);
    }
    if (length > walk->end - 8) {
        return fault(walk, 9, 4, "the header should have %" PRIu32 " bytes, but the file ends before",
                     length);
    }
    walk->at = 8 + (size_t)length;
    return true;
}

/* Question 10. */
static bool kind_fits(struct Walk *walk)
{
    uint32_t format = big_endian(walk->bytes + 8, 2);
    uint32_t tracks = big_endian(walk->bytes + 10, 2);
    uint32_t division = big_endian(walk->bytes + 12, 2);
    if (format != 0) {
        return fault(walk, 10, 8, "the file has format %" PRIu32
                     "; save it in format 0, as one track", format);
    }
    if (tracks != 1) {
        return fault(walk, 10, 10, "the header names %" PRIu32 " tracks, not one", tracks);
    }
    if (division > ZIKOREWI_MAX_DELTA) {
        return fault(walk, 10, 12, "the file counts time in film frames, not in ticks to the beat");
    }
    if (division == 0) {
        return fault(walk, 10, 12, "the file has 0 ticks to the beat");
    }
    if (division != walk->delta) {
        return fault(walk, 10, 12, "the file has %" PRIu32 " ticks to the beat, this session %" PRIu32,
                     division, walk->delta);
    }
    return true;
}

/* Question 11: leaves the walk at the track's first byte, with its end. */
static bool track_reached(struct Walk *walk)
{
    for (;;) {
        size_t left = walk->end - walk->at;
        if (left < 8) {
            return fault(walk, 11, walk->at, left == 0 ? "the file ends without a track"
                                                       : "the file ends inside a chunk's name or length");
        }
        uint32_t length = big_endian(walk->bytes + walk->at + 4, 4);
        if (length > left - 8) {
            return fault(walk, 11, walk->at + 4, "the chunk should have %" PRIu32
                         " bytes, but the file has only %zu more", length, left - 8);
        }
        bool track = memcmp(walk->bytes + walk->at, "MTrk", 4) == 0;
        walk->at += 8;
        if (track) {
            walk->end = walk->at + length;
            return true;
        }
        walk->at += length;
    }
}

/* A number of one to four groups of seven bits. */
static bool number_read(struct Walk *walk, const char *name, uint32_t *value)
{
    size_t first = walk->at;
    *value = 0;
    for (int group = 0; group < 4; group++) {
        if (walk->at == walk->end) {
            return fault(walk, 12, walk->at, "the track ends inside %s", name);
        }
        uint8_t byte = walk->bytes[walk->at++];
        *value = *value << 7 | (byte & 0x7F);
        if (byte < 0x80) {
            return true;
        }
    }
    return fault(walk, 12, first, "%s has more than four bytes", name);
}

/* The event's time: the track must not be over. */
static bool time_read(struct Walk *walk)
{
    uint32_t step;
    if (walk->at == walk->end) {
        return fault(walk, 12, walk->at, "the track is over without an end of track");
    }
    if (!number_read(walk, "an event's time", &step)) {
        return false;
    }
    walk->fault.tick += step;
    walk->fault.timed = true;
    return true;
}

/* The event's status, its own or the running one. */
static bool status_read(struct Walk *walk, uint8_t *status)
{
    if (walk->at == walk->end) {
        return fault(walk, 12, walk->at, "the track ends inside an event");
    }
    uint8_t byte = walk->bytes[walk->at];
    if (byte < 0x80 && walk->running == 0) {
        return fault(walk, 12, walk->at, "%02X is no status, and no earlier one carries on", byte);
    }
    if (byte > 0xF0 && byte != 0xF7 && byte != 0xFF) {
        return fault(walk, 12, walk->at, "the status %02X cannot stand in a file", byte);
    }
    *status = byte < 0x80 ? walk->running : byte;
    walk->at += byte >= 0x80;
    walk->running = *status < 0xF0 ? *status : 0;
    return true;
}

/* Bytes that a length counts. */
static bool counted_read(struct Walk *walk)
{
    uint32_t length;
    size_t first = walk->at;
    if (!number_read(walk, "an event's length", &length)) {
        return false;
    }
    if (length > walk->end - walk->at) {
        return fault(walk, 12, first, "the event should have %" PRIu32
                     " bytes, but the track has only %zu more", length, walk->end - walk->at);
    }
    walk->at += length;
    return true;
}

/* An end of track behind its type: of length 0, and the track's last byte. */
static bool end_read(struct Walk *walk, size_t place)
{
    uint32_t length;
    if (!number_read(walk, "the end of track's length", &length)) {
        return false;
    }
    if (length != 0) {
        return fault(walk, 12, place, "the end of track has a length of %" PRIu32 ", not 0", length);
    }
    if (walk->at != walk->end) {
        return fault(walk, 12, place, "an end of track stands %zu bytes before the track's end",
                     walk->end - walk->at);
    }
    walk->ended = true;
    return true;
}

/* A meta event behind its FF. */
static bool meta_read(struct Walk *walk)
{
    size_t place = walk->at;
    if (walk->at == walk->end) {
        return fault(walk, 12, place, "the track ends inside an event");
    }
    uint8_t type = walk->bytes[walk->at++];
    if (type >= 0x80) {
        return fault(walk, 12, place, "the meta event's type %02X is above 7F", type);
    }
    return type == 0x2F ? end_read(walk, place) : counted_read(walk);
}

/* The one or two data bytes of a channel event. */
static bool data_read(struct Walk *walk, uint8_t status, const uint8_t **data)
{
    size_t count = (status & 0xE0) == 0xC0 ? 1 : 2;
    *data = walk->bytes + walk->at;
    for (size_t i = 0; i < count; i++, walk->at++) {
        if (walk->at == walk->end) {
            return fault(walk, 12, walk->at, "the track ends inside an event");
        }
        if (walk->bytes[walk->at] >= 0x80) {
            return fault(walk, 12, walk->at, "%02X stands where a data byte below 80 should",
                         walk->bytes[walk->at]);
        }
    }
    return true;
}

/* Question 14, and what the event does to its lane. */
static bool played(struct Walk *walk, uint8_t status, const uint8_t *data, size_t byte)
{
    uint8_t kind = status & 0xF0;
    if (kind != 0x80 && kind != 0x90) {
        return true;
    }
    uint32_t lane = (status & 0x0Fu) * 128 + data[0];
    char key[KEY_NAME];
    if (kind == 0x80 || data[1] == 0) {
        walk->since[lane] = SILENT;
        return true;
    }
    if (walk->since[lane] != SILENT) {
        return fault(walk, 14, byte, "key %s (%u) of channel %" PRIu32
                     " starts while it sounds since tick %" PRId64, key_name(lane, key), data[0],
                     lane / 128, walk->since[lane]);
    }
    walk->since[lane] = (int64_t)walk->fault.tick;
    return true;
}

/* Questions 12 to 14 for the next event. */
static bool event_read(struct Walk *walk)
{
    size_t first = walk->at;
    uint8_t status = 0;
    const uint8_t *data = NULL;
    walk->fault.event++;
    walk->fault.timed = false;
    if (!time_read(walk) || !status_read(walk, &status)) {
        return false;
    }
    bool read = status == 0xFF  ? meta_read(walk)
                : status >= 0xF0 ? counted_read(walk)
                                 : data_read(walk, status, &data);
    if (!read) {
        return false;
    }
    if (walk->fault.tick > (uint64_t)ZIKOREWI_MAX_BEATS * walk->delta) {
        return fault(walk, 13, first, "the event is later than %d beats of %" PRIu32 " ticks",
                     ZIKOREWI_MAX_BEATS, walk->delta);
    }
    return status >= 0xF0 || played(walk, status, data, first);
}

struct Fault midifile_fault(const uint8_t *bytes, size_t count, uint32_t delta)
{
    struct Walk walk = {.bytes = bytes, .end = count, .delta = delta};
    for (size_t lane = 0; lane < ZIKOREWI_LANES; lane++) {
        walk.since[lane] = SILENT;
    }
    if (header_there(&walk) && kind_fits(&walk) && track_reached(&walk)) {
        while (!walk.ended && event_read(&walk)) {
        }
    }
    return walk.fault;
}
