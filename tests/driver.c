/* Calls the library for tests/driver.py: a request on the input, its answer on the output, until the input ends.
 * A request is a struct Request and the bytes of its three buffers; an answer is the number that the call gives (0 for
 * a call that gives none) and the same three buffers, whole, as the call leaves them. */
#define _GNU_SOURCE
#include "muljenta.h"
#include "probe.h"

#include <stdio.h>
#include <stdlib.h>
#include <string.h>
#include <sys/mman.h>
#include <unistd.h>

enum { BUFFERS = 3, ROOM = 1 << 24, GUARD = 1 << 16, STRIP = 64, MARK = 0xa5, SECONDS = 60 };

struct Request {
    char name[24];
    uint64_t numbers[3], bytes[BUFFERS];
};

static struct Request asked;
static uint8_t *ends[BUFFERS], *at[BUFFERS];

static void fail(const char *why) {
    fprintf(stderr, "driver: %s\n", why);
    exit(1);
}

/* Room between two guard pages: a buffer ends where it ends, so that a byte past it traps. */
static uint8_t *end_of_room(void) {
    uint8_t *all = mmap(NULL, ROOM + 2 * GUARD, PROT_NONE, MAP_PRIVATE | MAP_ANONYMOUS, -1, 0);
    if (all == MAP_FAILED || mprotect(all + GUARD, ROOM, PROT_READ | PROT_WRITE) != 0)
        fail("no room");
    return all + GUARD + ROOM;
}

/* Before a buffer is a marked strip. */
static void take(int k) {
    if (asked.bytes[k] > ROOM - STRIP)
        fail("a buffer is too long");
    at[k] = ends[k] - asked.bytes[k];
    memset(at[k] - STRIP, MARK, STRIP);
    if (fread(at[k], 1, asked.bytes[k], stdin) != asked.bytes[k])
        fail("the request is cut off");
}

static void check_strip(int k) {
    for (int i = 1; i <= STRIP; i++)
        if (at[k][-i] != MARK)
            fail("a byte before a buffer was changed");
}

#define BYTES(k) at[k], asked.bytes[k]
#define NUMBERS(k) (int64_t *)at[k], asked.bytes[k] / 8
#define FIGURES(k) (uint64_t *)at[k], asked.bytes[k] / 8

static uint64_t call(void) {
    const uint64_t *x = asked.numbers;
#define NAMED(call) (strcmp(asked.name, #call) == 0)
    if (NAMED(muljenta_verdict))
        return muljenta_verdict(x[0], BYTES(0));
    if (NAMED(muljenta_inverse))
        return muljenta_inverse(x[0], BYTES(0), BYTES(1));
    if (NAMED(probe_lift))
        return probe_lift(x[0], x[1], (uint32_t)x[2], NUMBERS(0), NUMBERS(1));
    if (NAMED(probe_row))
        return probe_row(x[0], NUMBERS(0), x[1], NUMBERS(1));
    if (NAMED(probe_block))
        return probe_block(x[0], x[1], NUMBERS(0), x[2], NUMBERS(1));
    if (NAMED(probe_report))
        return probe_report(BYTES(0), BYTES(1));
    if (NAMED(probe_verdict))
        probe_verdict(x[0], NUMBERS(0), FIGURES(1));
    else if (NAMED(probe_inverse))
        probe_inverse(x[0], NUMBERS(0), NUMBERS(1), FIGURES(2));
    else if (NAMED(probe_read))
        probe_read(BYTES(0), NUMBERS(1), FIGURES(2));
    else
        fail("no such call");
    return 0;
}

int main(void) {
    for (int k = 0; k < BUFFERS; k++)
        ends[k] = end_of_room();
    while (fread(&asked, sizeof asked, 1, stdin) == 1) {
        for (int k = 0; k < BUFFERS; k++)
            take(k);
        alarm(SECONDS); /* a call that runs on ends the driver */
        uint64_t number = call();
        alarm(0);
        for (int k = 0; k < BUFFERS; k++)
            check_strip(k);
        fwrite(&number, sizeof number, 1, stdout);
        for (int k = 0; k < BUFFERS; k++)
            fwrite(at[k], 1, asked.bytes[k], stdout);
        fflush(stdout);
    }
    return 0;
}
