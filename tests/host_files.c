/* The host's own reading of files against the library's, over whole, cut, changed and random files; the
 * same for note lists; and a sentence for every number. The last line is 'N passed, M failed'.
 * With a folder as argument it writes the whole files there, for the tests of the commands. */
#include "messages.h"
#include "midifile.h"
#include "session.h"

#include <stdio.h>
#include <stdlib.h>
#include <string.h>

enum { DELTA = 96, EPSILON = 12, SHELF_WORDS = 4096, WORDS = 4 + SHELF_WORDS, ROOM = 4096 };

static unsigned passed, failed;
static unsigned long seen[16]; /* how often the library answered each number */
static uint32_t *session;

/* Counts one check. */
static void check(int holds, const char *what)
{
    passed += holds != 0;
    failed += holds == 0;
    if (!holds) {
        printf("failed: %s\n", what);
    }
}

/* A fixed sequence of numbers. */
static uint32_t random_below(uint32_t bound)
{
    static uint64_t state = 88172645463325252u;
    state ^= state << 13;
    state ^= state >> 7;
    state ^= state << 17;
    return (uint32_t)(state >> 11) % bound;
}

/* A file with running status, meta and F0/F7 events, long times, a longer header, a foreign chunk
 * before the track and bytes behind it. */
static const uint8_t RICH[] = {
    'M', 'T', 'h', 'd', 0, 0, 0, 8, 0, 0, 0, 1, 0, DELTA, 7, 7,
    'X', 'F', 'I', 'H', 0, 0, 0, 3, 1, 2, 3,
    'M', 'T', 'r', 'k', 0, 0, 0, 72,
    0, 0xFF, 0x03, 2, 'a', 'b', 0, 0xFF, 0x51, 3, 7, 0xA1, 0x20, 0, 0xC0, 5, 0, 6,
    0x80, 0x10, 0x90, 60, 100, 0x20, 64, 90, 0x30, 60, 0, 0x81, 0x00, 64, 0,
    0, 0xF0, 3, 1, 2, 0xF7, 10, 0xF7, 1, 0xFF, 5, 0x99, 36, 127, 5, 0x89, 36, 64,
    0, 0xE0, 0, 64, 0, 0xB0, 64, 127, 0, 0xD0, 3, 1, 0x90, 67, 50,
    0x83, 0x40, 0xFF, 0x2F, 0x80, 0x00, 9, 9, 9};

/* The same notes and more as the library writes them; its length. */
static size_t plain_file(uint8_t *file)
{
    static const uint32_t notes[] = {48, 60, 330, 80, 60, 0, 95, 100, 60, 96, 200, 1,
                                     64, 180, 290, 127, 1188, 5, 380, 64};
    uint64_t count = 0;
    check(take_lay(session, WORDS, 0, 4, notes, sizeof notes / sizeof *notes) == 0, "lay");
    check(take_write(session, WORDS, 0, file, ROOM, &count) == 0, "write");
    return (size_t)count;
}

/* Both verdicts on a file; the place of a fault lies in the file. */
static int agree(const uint8_t *file, size_t count)
{
    uint8_t *exact = malloc(count == 0 ? 1 : count); /* so that reading behind it is seen */
    if (exact == NULL) {
        exit(2);
    }
    memcpy(exact, file, count);
    uint32_t number = take_load(session, WORDS, 0, exact, count);
    struct Fault fault = midifile_fault(exact, count, DELTA);
    free(exact);
    seen[number & 15]++;
    int placed = fault.number == 0 || (fault.byte <= count && fault.what[0] != '\0');
    int event = fault.number == 0 || (fault.number >= 12) == (fault.event > 0);
    /* 8 comes after all questions about the file. */
    return (number == ZIKOREWI_SHELF_ROOM ? 0 : number) == fault.number && placed && event;
}

/* A file cut off at every byte. */
static void cut_files(const uint8_t *file, size_t count)
{
    for (size_t bytes = 0; bytes <= count; bytes++) {
        check(agree(file, bytes), "a cut file: both verdicts are equal");
    }
}

/* Every byte replaced by every other value. */
static void changed_files(const uint8_t *file, size_t count)
{
    uint8_t copy[ROOM];
    memcpy(copy, file, count);
    for (size_t place = 0; place < count; place++) {
        int equal = 1;
        for (int byte = 0; byte < 256; byte++) {
            copy[place] = (uint8_t)byte;
            equal = equal && agree(copy, count);
        }
        copy[place] = file[place];
        check(equal, "a changed byte: both verdicts are equal");
    }
}

/* Several bytes changed, taken out or put in. */
static void damaged_files(const uint8_t *file, size_t count)
{
    uint8_t copy[ROOM];
    int equal = 1;
    for (int turn = 0; turn < 20000; turn++) {
        size_t bytes = count;
        memcpy(copy, file, count);
        for (uint32_t damage = random_below(4) + 1; damage > 0; damage--) {
            size_t place = random_below((uint32_t)bytes);
            uint32_t kind = random_below(3);
            if (kind == 0 && bytes > 1) {
                memmove(copy + place, copy + place + 1, --bytes - place);
            } else if (kind == 1 && bytes + 1 < ROOM) {
                memmove(copy + place + 1, copy + place, bytes++ - place);
            } else {
                copy[place] = (uint8_t)random_below(256);
            }
        }
        equal = equal && agree(copy, bytes);
    }
    check(equal, "damaged files: both verdicts are equal");
}

/* Appends one event that is legal more often than not; its bytes. */
static size_t random_event(uint8_t *out)
{
    static const uint8_t statuses[] = {0x90, 0x90, 0x91, 0x80, 0x80, 0x81, 0xB0, 0xC0, 0xE1, 0xF0, 0xF7, 0xFF, 0x00};
    size_t at = 0;
    uint8_t status = statuses[random_below(sizeof statuses)];
    if (random_below(40) == 0) {
        out[at++] = 0x80 | (uint8_t)random_below(128);
        out[at++] = 0x80 | (uint8_t)random_below(128);
    }
    out[at++] = (uint8_t)random_below(100);
    if (status != 0) {
        out[at++] = status;
    }
    if (status == 0xFF) {
        out[at++] = (uint8_t)(random_below(30) == 0 ? random_below(256) : 1 + random_below(8));
    }
    uint32_t data = status >= 0xF0 ? random_below(3) : status == 0xC0 ? 1 : 2;
    if (status >= 0xF0) {
        out[at++] = (uint8_t)data;
    }
    while (data-- > 0) {
        uint32_t usual = 60 + random_below(6) * (random_below(4) > 0);
        out[at++] = (uint8_t)(random_below(200) == 0 ? random_below(256) : usual);
    }
    return at;
}

/* A header, a track of random events and an end of track. */
static void random_files(void)
{
    static const uint8_t head[] = {'M', 'T', 'h', 'd', 0, 0, 0, 6, 0, 0, 0, 1, 0, DELTA,
                                   'M', 'T', 'r', 'k', 0, 0, 0, 0};
    uint8_t file[ROOM];
    int equal = 1;
    for (int turn = 0; turn < 40000; turn++) {
        size_t at = sizeof head;
        memcpy(file, head, sizeof head);
        for (uint32_t events = random_below(30); events > 0; events--) {
            at += random_event(file + at);
        }
        if (random_below(20) > 0) {
            memcpy(file + at, "\x05\xFF\x2F", 4);
            at += 4;
        }
        size_t track = at - sizeof head;
        file[20] = (uint8_t)(track >> 8);
        file[21] = (uint8_t)track;
        equal = equal && agree(file, at);
    }
    check(equal, "random files: both verdicts are equal");
}

/* Note lists with random words, most of them small: the library refuses just those that have a message. */
static void random_lists(void)
{
    uint32_t notes[16];
    char text[MESSAGE];
    unsigned long refused = 0, laid = 0;
    int equal = 1;
    for (int turn = 0; turn < 200000; turn++) {
        size_t words = random_below(10) == 0 ? random_below(17) : 4 * random_below(4);
        for (size_t i = 0; i < words; i++) {
            static const uint32_t bases[] = {60, 0, 40, 1}, spans[] = {3, 60, 170, 127};
            notes[i] = bases[i % 4] + random_below(spans[i % 4]);
            notes[i] = random_below(60) == 0 ? random_below(3000) : notes[i];
        }
        uint32_t number = take_lay(session, WORDS, 0, 2, notes, words);
        const char *what = message_list(notes, words, 2 * DELTA, text);
        equal = equal && (number == ZIKOREWI_LIST) == (what != NULL);
        refused += number == ZIKOREWI_LIST;
        laid += number == ZIKOREWI_DONE;
    }
    check(equal, "note lists: refused with 7 just where there is a message");
    check(refused > 10000 && laid > 10000, "note lists of both kinds");
}

/* No two numbers have the same sentence. */
static void sentences(void)
{
    for (uint32_t number = 0; number < 16; number++) {
        for (uint32_t other = 0; other < number; other++) {
            check(strcmp(message_number(number), message_number(other)) != 0,
                  "every number has a sentence of its own");
        }
    }
    check(strcmp(message_number(99), message_number(16)) == 0, "numbers without a sentence");
    check(strcmp(message_number(HOST_NO_MEMORY), message_number(16)) != 0, "memory");
    check(strcmp(message_number(HOST_NO_SHELF), message_number(16)) != 0, "shelves");
}

/* Writes a file for the tests of the commands. */
static void put(const char *folder, const char *name, const uint8_t *bytes, size_t count)
{
    char path[4096];
    snprintf(path, sizeof path, "%s/%s", folder, name);
    FILE *file = fopen(path, "wb");
    check(file != NULL && fwrite(bytes, 1, count, file) == count && fclose(file) == 0, path);
}

/* The end of track at the last tick that is allowed, and one later. */
static void last_ticks(void)
{
    uint8_t file[] = {'M', 'T', 'h', 'd', 0, 0, 0, 6, 0, 0, 0, 1, 0, DELTA,
                      'M', 'T', 'r', 'k', 0, 0, 0, 6, 0x98, 0x80, 0x00, 0xFF, 0x2F, 0};
    unsigned long read = seen[0], late = seen[13];
    check(agree(file, sizeof file) && seen[0] == read + 1, "exactly 4,096 beats are read");
    file[24] = 1;
    check(agree(file, sizeof file) && seen[13] == late + 1, "a tick later is refused with 13");
}

/* All files made from one whole file. */
static void all_of(const uint8_t *file, size_t count)
{
    cut_files(file, count);
    changed_files(file, count);
    damaged_files(file, count);
}

int main(int count, char **words)
{
    uint8_t plain[ROOM];
    session = malloc(WORDS * sizeof *session);
    if (session == NULL || take_open(session, WORDS, DELTA, EPSILON, 1, SHELF_WORDS) != 0) {
        return 2;
    }
    size_t length = plain_file(plain);
    check(agree(RICH, sizeof RICH) && seen[0] == 1, "the file with all kinds of events is read");
    all_of(RICH, sizeof RICH);
    all_of(plain, length);
    random_files();
    last_ticks();
    for (int number = 9; number <= 14; number++) {
        check(seen[number] > 100, "every number of a file was met often");
    }
    check(seen[0] > 1000, "files that are read were met often");
    random_lists();
    sentences();
    if (count == 2) {
        put(words[1], "plain.mid", plain, length);
        put(words[1], "rich.mid", RICH, sizeof RICH);
    }
    free(session);
    printf("%u passed, %u failed\n", passed, failed);
    return failed != 0;
}
