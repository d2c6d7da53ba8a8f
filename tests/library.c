/* The C library from a C program: the paper's example, every number that a call
 * returns, and that a refusal changes nothing. Built with the sanitizers; guard
 * words stand around every buffer, or no memory behind it. The last line is
 * 'N passed, M failed'. */
#define _DEFAULT_SOURCE
#include "zikorewi.h"

#include <stdio.h>
#include <stdlib.h>
#include <string.h>
#include <sys/mman.h>
#include <unistd.h>

enum { GUARD = 8, SHELVES = 4, SHELF_WORDS = 40, WORDS = 4 + SHELVES * SHELF_WORDS, ROOM = 200 };

static const uint32_t MARK = 0xA5C396E1u;
static unsigned passed, failed;

static void check(int holds, const char *what)
{
    if (holds) {
        passed++;
        return;
    }
    failed++;
    printf("failed: %s\n", what);
}

/* A session between guard words, a copy of it, and an output between guard bytes. */
struct Host {
    uint32_t *guarded;
    uint32_t *session;
    uint32_t *copy;
    uint8_t *bytes;
    uint8_t *output;
    uint64_t count;
};

static void *memory(size_t size)
{
    void *block = malloc(size);
    if (block == NULL) {
        fputs("no memory\n", stderr);
        exit(2);
    }
    return block;
}

static struct Host host_new(void)
{
    struct Host host;
    host.guarded = memory((WORDS + 2 * GUARD) * sizeof(uint32_t));
    host.copy = memory((WORDS + 2 * GUARD) * sizeof(uint32_t));
    host.bytes = memory(ROOM + 2 * GUARD);
    for (size_t i = 0; i < WORDS + 2 * GUARD; i++) {
        host.guarded[i] = MARK;
    }
    memset(host.bytes, 0x5A, ROOM + 2 * GUARD);
    host.session = host.guarded + GUARD;
    host.output = host.bytes + GUARD;
    host.count = 99;
    return host;
}

static void host_free(struct Host *host)
{
    free(host->guarded);
    free(host->copy);
    free(host->bytes);
}

static void remember(struct Host *host)
{
    memcpy(host->copy, host->guarded, (WORDS + 2 * GUARD) * sizeof(uint32_t));
}

static int unchanged(const struct Host *host)
{
    return memcmp(host->copy, host->guarded, (WORDS + 2 * GUARD) * sizeof(uint32_t)) == 0;
}

static int guarded(const struct Host *host)
{
    for (size_t i = 0; i < GUARD; i++) {
        if (host->guarded[i] != MARK || host->guarded[GUARD + WORDS + i] != MARK) {
            return 0;
        }
        if (host->bytes[i] != 0x5A || host->bytes[GUARD + ROOM + i] != 0x5A) {
            return 0;
        }
    }
    return 1;
}

static uint32_t *shelf(struct Host *host, uint32_t number)
{
    return host->session + ZIKOREWI_HEADER_WORDS + number * SHELF_WORDS;
}

/* A call that must be refused with a number and leave the session as it was. */
#define REFUSED(host, number, call) \
    do { \
        remember(host); \
        check((call) == (uint32_t)(number), #call " is refused with " #number); \
        check(unchanged(host), #call " changes nothing"); \
    } while (0)

static const uint32_t ONE_NOTE[] = {60, 8, 12, 100};
static const uint8_t HALF_FILE[] = {0x4D, 0x54, 0x68, 0x64, 0, 0, 0, 6, 0, 0, 0, 1, 0, 10,
                                    0x4D, 0x54, 0x72, 0x6B, 0, 0, 0, 4, 0x0A, 0xFF, 0x2F, 0};
static const uint8_t WHOLE_FILE[] = {0x4D, 0x54, 0x68, 0x64, 0, 0, 0, 6, 0, 0, 0, 1, 0, 10,
                                     0x4D, 0x54, 0x72, 0x6B, 0, 0, 0, 12,
                                     0x08, 0x90, 0x3C, 0x64, 0x04, 0x80, 0x3C, 0x40,
                                     0x08, 0xFF, 0x2F, 0};

static void written(struct Host *host, uint32_t number, const uint8_t *file, size_t bytes)
{
    uint32_t answer = take_write(host->session, WORDS, number, host->output, ROOM, &host->count);
    check(answer == ZIKOREWI_DONE, "write is carried out");
    check(host->count == bytes && memcmp(host->output, file, bytes) == 0, "the file is the paper's");
    check(host->output[bytes] == 0x5A, "the output behind the file stays");
    memset(host->output, 0x5A, ROOM);
}

static void the_example(void)
{
    struct Host host = host_new();
    uint32_t *s = host.session;
    check(take_open(s, WORDS, 10, 3, SHELVES, SHELF_WORDS) == ZIKOREWI_DONE, "open");
    check(take_lay(s, WORDS, 0, 2, ONE_NOTE, 4) == ZIKOREWI_DONE, "lay");
    check(take_split(s, WORDS, 0, 1, 1, 2) == ZIKOREWI_DONE, "split");
    check(take_join(s, WORDS, 1, 2, 3) == ZIKOREWI_DONE, "join");
    written(&host, 1, HALF_FILE, sizeof HALF_FILE);
    written(&host, 3, WHOLE_FILE, sizeof WHOLE_FILE);
    check(memcmp(shelf(&host, 0), shelf(&host, 3), SHELF_WORDS * sizeof(uint32_t)) == 0,
          "the joined halves are the recording again");
    check(take_load(s, WORDS, 2, WHOLE_FILE, sizeof WHOLE_FILE) == ZIKOREWI_DONE, "load");
    check(memcmp(shelf(&host, 2), shelf(&host, 3), SHELF_WORDS * sizeof(uint32_t)) == 0,
          "the loaded file is the recording again");
    check(guarded(&host), "guards");
    host_free(&host);
}

static void unsound_shelf(void)
{
    struct Host host = host_new();
    uint32_t *s = host.session;
    check(take_open(s, WORDS, 10, 3, SHELVES, SHELF_WORDS) == ZIKOREWI_DONE, "open");
    check(take_lay(s, WORDS, 0, 2, ONE_NOTE, 4) == ZIKOREWI_DONE, "lay");
    shelf(&host, 1)[1] = 7;
    REFUSED(&host, ZIKOREWI_UNSOUND, take_split(s, WORDS, 1, 0, 2, 3));
    REFUSED(&host, ZIKOREWI_UNSOUND, take_join(s, WORDS, 0, 1, 2));
    host.count = 5;
    REFUSED(&host, ZIKOREWI_UNSOUND, take_write(s, WORDS, 1, host.output, ROOM, &host.count));
    check(host.count == 0, "a refused write counts 0");
    check(guarded(&host), "guards");
    host_free(&host);
}

static void refusals(void)
{
    struct Host host = host_new();
    uint32_t *s = host.session;
    uint32_t wrong[] = {60, 8, 30, 100};
    uint32_t long_note[] = {60, 0, 100, 100};
    REFUSED(&host, ZIKOREWI_HEADER, take_open(s, WORDS, 10, 11, SHELVES, SHELF_WORDS));
    REFUSED(&host, ZIKOREWI_HEADER, take_lay(s, WORDS, 0, 2, ONE_NOTE, 4));
    REFUSED(&host, ZIKOREWI_HEADER, take_lay(NULL, 0, 0, 2, ONE_NOTE, 4));
    check(take_open(s, WORDS, 10, 3, SHELVES, SHELF_WORDS) == ZIKOREWI_DONE, "open");
    check(take_lay(s, WORDS, 0, 2, ONE_NOTE, 4) == ZIKOREWI_DONE, "lay");
    REFUSED(&host, ZIKOREWI_HEADER, take_split(s, WORDS - 1, 0, 1, 1, 2));
    REFUSED(&host, ZIKOREWI_SHELF, take_split(s, WORDS, 0, 1, 1, SHELVES));
    REFUSED(&host, ZIKOREWI_SAME_SHELF, take_split(s, WORDS, 0, 1, 1, 1));
    REFUSED(&host, ZIKOREWI_SAME_SHELF, take_join(s, WORDS, 0, 1, 0));
    REFUSED(&host, ZIKOREWI_BEAT, take_split(s, WORDS, 0, 3, 1, 2));
    REFUSED(&host, ZIKOREWI_BEATS, take_lay(s, WORDS, 1, 4097, NULL, 0));
    REFUSED(&host, ZIKOREWI_LIST, take_lay(s, WORDS, 1, 2, wrong, 4));
    REFUSED(&host, ZIKOREWI_LIST, take_lay(s, WORDS, 1, 2, ONE_NOTE, 3));
    REFUSED(&host, ZIKOREWI_SHELF_ROOM, take_lay(s, WORDS, 1, 10, long_note, 4));
    REFUSED(&host, ZIKOREWI_OUTPUT_ROOM, take_write(s, WORDS, 0, host.output, 33, &host.count));
    REFUSED(&host, ZIKOREWI_OUTPUT_ROOM, take_write(s, WORDS, 0, NULL, 0, &host.count));
    check(guarded(&host), "guards");
    host_free(&host);
}

/* The paper's file with one byte changed, loaded. */
static uint32_t load_changed(uint32_t *session, size_t place, uint8_t byte)
{
    uint8_t file[sizeof WHOLE_FILE];
    memcpy(file, WHOLE_FILE, sizeof file);
    file[place] = byte;
    return take_load(session, WORDS, 1, file, sizeof file);
}

static void damaged_files(void)
{
    struct Host host = host_new();
    uint32_t *s = host.session;
    check(take_open(s, WORDS, 10, 3, SHELVES, SHELF_WORDS) == ZIKOREWI_DONE, "open");
    REFUSED(&host, ZIKOREWI_FILE_HEADER, take_load(s, WORDS, 1, NULL, 0));
    REFUSED(&host, ZIKOREWI_FILE_HEADER, load_changed(s, 0, 0x4E));
    REFUSED(&host, ZIKOREWI_FILE_KIND, load_changed(s, 9, 1));
    REFUSED(&host, ZIKOREWI_FILE_KIND, load_changed(s, 13, 11));
    REFUSED(&host, ZIKOREWI_FILE_TRACK, load_changed(s, 17, 0x6C));
    REFUSED(&host, ZIKOREWI_FILE_TRACK, load_changed(s, 21, 13));
    REFUSED(&host, ZIKOREWI_FILE_EVENT, load_changed(s, 23, 0x10));
    REFUSED(&host, ZIKOREWI_FILE_EVENT, load_changed(s, 33, 1));
    REFUSED(&host, ZIKOREWI_FILE_START, load_changed(s, 27, 0x90));
    for (size_t bytes = 0; bytes < sizeof WHOLE_FILE; bytes++) {
        remember(&host);
        uint32_t number = take_load(s, WORDS, 1, WHOLE_FILE, bytes);
        check(number >= ZIKOREWI_FILE_HEADER && number <= ZIKOREWI_FILE_EVENT, "a cut file is refused");
        check(unchanged(&host), "a cut file changes nothing");
    }
    uint8_t late[] = {0x4D, 0x54, 0x68, 0x64, 0, 0, 0, 6, 0, 0, 0, 1, 0, 10, 0x4D, 0x54, 0x72, 0x6B,
                      0, 0, 0, 6, 0x82, 0xC0, 0x01, 0xFF, 0x2F, 0};
    REFUSED(&host, ZIKOREWI_FILE_TIME, take_load(s, WORDS, 1, late, sizeof late));
    check(guarded(&host), "guards");
    host_free(&host);
}

/* Where memory ends: a call that reads or writes behind it ends the program. */
static uint8_t *edge(void)
{
    size_t page = (size_t)sysconf(_SC_PAGESIZE);
    uint8_t *block = mmap(NULL, 2 * page, PROT_READ | PROT_WRITE, MAP_PRIVATE | MAP_ANONYMOUS, -1, 0);
    if (block == MAP_FAILED || mprotect(block + page, page, PROT_NONE) != 0) {
        fputs("no memory\n", stderr);
        exit(2);
    }
    return block + page;
}

static void short_sessions(void)
{
    const uint32_t header[] = {10, 3, SHELVES, SHELF_WORDS};
    uint8_t *end = edge();
    uint8_t output[ROOM];
    for (size_t words = 0; words <= ZIKOREWI_HEADER_WORDS; words++) {
        uint32_t *s = (uint32_t *)(void *)end - words;
        uint64_t count = 99;
        memcpy(s, header, words * sizeof *s);
        check(take_open(s, words, 10, 3, SHELVES, SHELF_WORDS) == ZIKOREWI_HEADER, "short open");
        check(take_lay(s, words, 0, 2, ONE_NOTE, 4) == ZIKOREWI_HEADER, "short lay");
        check(take_split(s, words, 0, 1, 1, 2) == ZIKOREWI_HEADER, "short split");
        check(take_join(s, words, 0, 1, 2) == ZIKOREWI_HEADER, "short join");
        check(take_load(s, words, 0, WHOLE_FILE, sizeof WHOLE_FILE) == ZIKOREWI_HEADER, "short load");
        check(take_write(s, words, 0, output, ROOM, &count) == ZIKOREWI_HEADER, "short write");
        check(count == 0, "a short session counts 0");
    }
}

static void buffers_at_the_edge(void)
{
    uint32_t *s = (uint32_t *)(void *)edge() - WORDS;
    uint8_t *end = edge();
    uint64_t count;
    check(take_open(s, WORDS, 10, 3, SHELVES, SHELF_WORDS) == ZIKOREWI_DONE, "open");
    for (size_t words = 0; words <= 4; words++) {
        uint32_t number = words % 4 == 0 ? ZIKOREWI_DONE : ZIKOREWI_LIST;
        uint32_t *list = (uint32_t *)(void *)end - words;
        memcpy(list, ONE_NOTE, words * sizeof *list);
        check(take_lay(s, WORDS, 3, 2, list, words) == number, "lay at the edge");
    }
    check(take_split(s, WORDS, 3, 1, 0, 1) == ZIKOREWI_DONE, "split at the edge");
    check(take_join(s, WORDS, 0, 1, 3) == ZIKOREWI_DONE, "join at the edge");
    for (size_t room = 0; room <= sizeof WHOLE_FILE; room++) {
        uint32_t number = room < sizeof WHOLE_FILE ? ZIKOREWI_OUTPUT_ROOM : ZIKOREWI_DONE;
        check(take_write(s, WORDS, 3, end - room, room, &count) == number, "write at the edge");
    }
    for (size_t bytes = 0; bytes <= sizeof WHOLE_FILE; bytes++) {
        memcpy(end - bytes, WHOLE_FILE, bytes);
        uint32_t number = take_load(s, WORDS, 3, end - bytes, bytes);
        check((number == ZIKOREWI_DONE) == (bytes == sizeof WHOLE_FILE), "load at the edge");
    }
}

/* Notes so far apart that each time takes four bytes: no file of as many notes is longer. */
static void longest_file(void)
{
    enum { NOTES = 30, APART = 1 << 21, LONG_SHELF = 60000, LONG_WORDS = 4 + LONG_SHELF, LEAST = 22 + 8 * NOTES };
    uint32_t notes[4 * NOTES];
    uint32_t *s = memory(LONG_WORDS * sizeof *s);
    size_t room = zikorewi_file_bytes(NOTES);
    uint8_t *end = edge();
    uint64_t count;
    for (uint32_t i = 0; i < NOTES; i++) {
        uint32_t start = (2 * i + 1) * APART;
        memcpy(notes + 4 * i, (uint32_t[]){60, start, start + APART, 64}, 4 * sizeof *notes);
    }
    check(take_open(s, LONG_WORDS, 32767, 1, 1, LONG_SHELF) == ZIKOREWI_DONE, "long open");
    check(take_lay(s, LONG_WORDS, 0, 4096, notes, 4 * NOTES) == ZIKOREWI_DONE, "long lay");
    for (size_t less = 1; less <= room - LEAST; less++) {
        uint32_t number = take_write(s, LONG_WORDS, 0, end - room + less, room - less, &count);
        check(number == ZIKOREWI_OUTPUT_ROOM && count == 0, "an output shorter than the longest file");
    }
    check(take_write(s, LONG_WORDS, 0, end - room, room, &count) == ZIKOREWI_DONE, "long write");
    check(count == room, "the longest file is as long as the header says");
    free(s);
}

int main(void)
{
    the_example();
    unsound_shelf();
    refusals();
    damaged_files();
    short_sessions();
    buffers_at_the_edge();
    longest_file();
    printf("%u passed, %u failed\n", passed, failed);
    return failed != 0;
}
