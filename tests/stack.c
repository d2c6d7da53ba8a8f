/* The stack that each call of the C library takes: less than 64 KB. A call runs
 * on a stack of its own that is painted first; how far the paint is gone tells
 * what it took. The last line is 'N passed, M failed'. */
#include "zikorewi.h"

#include <stdio.h>
#include <stdlib.h>
#include <string.h>
#include <ucontext.h>

enum { STACK = 256 * 1024, MOST = 64 * 1024, DELTA = 960, SHELVES = 4 };

static const uint8_t PAINT = 0xC7;
static unsigned passed, failed;
static size_t most;

/* A recording of so many notes in so many lanes, and the room that a file of it may get. */
struct Case {
    const char *name;
    uint32_t lanes;
    uint32_t notes; /* in each lane */
    uint32_t ticks; /* from one start in a lane to the next */
    int tight;      /* is the output just as long as the file? */
};

static const struct Case CASES[] = {
    {"few notes", 4, 3, 700, 0},
    {"few notes, late ones", 2, 2, 2200000, 0},
    {"as many notes as one table holds", 1024, 1, 700, 0},
    {"many notes within few ticks", 2048, 1, 700, 0},
    {"many notes in few lanes", 88, 400, 700, 0},
    {"many notes in few lanes, tight output", 88, 400, 700, 1},
    {"many notes in many lanes", 2048, 16, 700, 0},
    {"many notes in many lanes, tight output", 2048, 16, 700, 1},
    {"all at one time in many lanes", 2048, 2, 960, 0},
};

/* What the calls are given. */
struct Host {
    uint32_t *session;
    size_t words;
    uint32_t *list;
    size_t list_words;
    uint32_t beats;
    uint32_t shelf_words;
    uint8_t *file;
    size_t room;
    uint64_t bytes;
};

static struct Host host;
static uint32_t number;
static ucontext_t here, there;
static uint8_t *stack;

static void *memory(size_t size)
{
    void *block = calloc(size, 1);
    if (block == NULL) {
        fputs("no memory\n", stderr);
        exit(2);
    }
    return block;
}

static void host_new(const struct Case *c)
{
    uint32_t count = c->lanes * c->notes;
    host.list_words = 4 * (size_t)count;
    host.list = memory(host.list_words * sizeof(uint32_t));
    uint32_t *next = host.list;
    for (uint32_t lane = 0; lane < c->lanes; lane++) {
        for (uint32_t i = 0; i < c->notes; i++) {
            uint32_t start = i * c->ticks + lane % 97;
            *next++ = lane;
            *next++ = start;
            *next++ = start + 300;
            *next++ = 1 + lane % 127;
        }
    }
    host.beats = ((c->notes - 1) * c->ticks + 400) / DELTA + 1;
    host.shelf_words = 3 + 16 * count; /* two cells to a note at most */
    host.words = zikorewi_session_words(SHELVES, host.shelf_words);
    host.session = memory(host.words * sizeof(uint32_t));
    host.room = 29 + 14 * (size_t)count;
    host.file = memory(host.room);
}

static void host_free(void)
{
    free(host.session);
    free(host.list);
    free(host.file);
}

static void run_open(void) { number = take_open(host.session, host.words, DELTA, 60, SHELVES, host.shelf_words); }
static void run_lay(void) { number = take_lay(host.session, host.words, 0, host.beats, host.list, host.list_words); }
static void run_split(void) { number = take_split(host.session, host.words, 0, host.beats / 2, 1, 2); }
static void run_join(void) { number = take_join(host.session, host.words, 1, 2, 3); }
static void run_write(void) { number = take_write(host.session, host.words, 0, host.file, host.room, &host.bytes); }
static void run_load(void) { number = take_load(host.session, host.words, 1, host.file, host.bytes); }

/* Bytes of stack that a call takes, with the few of the function that makes it. */
static size_t taken(void (*call)(void))
{
    memset(stack, PAINT, STACK);
    getcontext(&there);
    there.uc_stack.ss_sp = stack;
    there.uc_stack.ss_size = STACK;
    there.uc_link = &here;
    makecontext(&there, call, 0);
    swapcontext(&here, &there);
    size_t left = 0;
    while (left < STACK && stack[left] == PAINT) {
        left++;
    }
    return STACK - left;
}

static void check(const char *what, const struct Case *c, void (*call)(void))
{
    number = 99;
    size_t bytes = taken(call);
    most = bytes > most ? bytes : most;
    if (number == 0 && bytes < MOST) {
        passed++;
        return;
    }
    failed++;
    printf("failed: %s, %s: number %u, %zu bytes of stack\n", what, c->name, (unsigned)number, bytes);
}

static void check_all(const struct Case *c)
{
    host_new(c);
    check("open", c, run_open);
    check("lay", c, run_lay);
    check("split", c, run_split);
    check("join", c, run_join);
    check("write", c, run_write);
    if (c->tight) {
        host.room = host.bytes;
        check("write to a tight output", c, run_write);
    }
    check("load", c, run_load);
    host_free();
}

int main(void)
{
    stack = memory(STACK);
    for (size_t i = 0; i < sizeof CASES / sizeof CASES[0]; i++) {
        check_all(&CASES[i]);
    }
    free(stack);
    printf("the most stack that a call took: %zu bytes\n", most);
    printf("%u passed, %u failed\n", passed, failed);
    return failed != 0;
}
