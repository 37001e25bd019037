/* A C host for tests: takes recorded calls on standard input and runs each with every byte string against a page that
 * must not be touched, and with the inputs read-only. A touch outside ends the program by a signal.
 * Use: guarded end, or guarded start, for which end of the strings meets the page. */
#define _GNU_SOURCE
#include "spill.h"
#include <stdio.h>
#include <stdlib.h>
#include <string.h>
#include <sys/mman.h>

enum { SLOTS = 9, ROOM = 1 << 25, PAGE = 1 << 16, FILL = 0xEE };

/* Nine regions, each between two pages that must not be touched. */
static uint8_t *regions[SLOTS];
static int at_start;

static void stop(const char *why) {
    fprintf(stderr, "%s\n", why);
    exit(2);
}

static void make_regions(void) {
    for (int slot = 0; slot < SLOTS; slot++) {
        uint8_t *all = mmap(NULL, ROOM + 2 * PAGE, PROT_NONE, MAP_PRIVATE | MAP_ANONYMOUS, -1, 0);
        if (all == MAP_FAILED) stop("no memory");
        regions[slot] = all + PAGE;
    }
}

static void protect(int slot, int how) {
    if (mprotect(regions[slot], ROOM, how) != 0) stop("a region cannot be protected");
}

static uint8_t *place(int slot, size_t length) {
    if (length > ROOM) stop("a byte string is too long");
    return at_start ? regions[slot] : regions[slot] + ROOM - length;
}

static uint64_t number(void) {
    uint64_t n;
    if (fread(&n, sizeof n, 1, stdin) != 1) stop("the calls end early");
    return n;
}

/* Reads an input into its slot, which is then read-only. */
static size_t input(int slot) {
    size_t length = number();
    protect(slot, PROT_READ | PROT_WRITE);
    if (fread(place(slot, length), 1, length, stdin) != length) stop("the calls end early");
    protect(slot, PROT_READ);
    return length;
}

/* Fills an output of a length that is read. */
static size_t output(int slot) {
    size_t length = number();
    protect(slot, PROT_READ | PROT_WRITE);
    memset(place(slot, length), FILL, length);
    return length;
}

/* Whether an output begins with the bytes that are read, and is as it was behind them. */
static int as_recorded(int slot, size_t length) {
    static uint8_t front[1 << 16];
    size_t counted = number();
    if (counted > length || counted > sizeof front || fread(front, 1, counted, stdin) != counted) stop("the calls end early");
    const uint8_t *got = place(slot, length);
    int same = memcmp(got, front, counted) == 0;
    for (size_t i = counted; i < length; i++) same &= got[i] == FILL;
    return same;
}

static int rewrite(void) {
    uint64_t limit = number(), recorded = number();
    size_t n[7];
    for (int slot = 0; slot < 7; slot++) n[slot] = slot < 3 ? input(slot) : output(slot);
    uint64_t answer = spill_rewrite(place(0, n[0]), n[0], place(1, n[1]), n[1], place(2, n[2]), n[2], limit, place(3, n[3]), n[3],
                                    place(4, n[4]), n[4], place(5, n[5]), n[5], place(6, n[6]), n[6]);
    int same = answer == recorded;
    for (int slot = 3; slot < 7; slot++) same &= as_recorded(slot, n[slot]);
    return same;
}

static int prune(void) {
    uint64_t containers = number(), recorded = number();
    size_t n[9];
    for (int slot = 0; slot < 9; slot++) n[slot] = slot < 8 ? input(slot) : output(slot);
    uint64_t answer = spill_prune(place(0, n[0]), n[0], place(1, n[1]), n[1], place(2, n[2]), n[2], place(3, n[3]), n[3],
                                  place(4, n[4]), n[4], containers, place(5, n[5]), n[5], place(6, n[6]), n[6],
                                  place(7, n[7]), n[7], place(8, n[8]), n[8]);
    return (answer == recorded) & as_recorded(8, n[8]);
}

int main(int count, char **arguments) {
    unsigned long calls = 0, differ = 0;
    at_start = count == 2 && strcmp(arguments[1], "start") == 0;
    make_regions();
    for (int sort = getchar(); sort != EOF; sort = getchar(), calls++) differ += !(sort == 'r' ? rewrite() : prune());
    printf("%lu calls, %lu differ\n", calls, differ);
    return differ != 0;
}
