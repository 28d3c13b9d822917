/* The stack that each exported call uses at order 32, by the bytes changed on a painted stack. */
#define _GNU_SOURCE
#include "muljenta.h"
#include "probe.h"

#include <stdio.h>
#include <string.h>
#include <sys/mman.h>
#include <ucontext.h>

enum { N = 32, CELLS = N * N, LIFTS = 4, STACK = 1 << 20, MOST = 65536, KNOWN = 70000, LIMIT = 1 << 20 };

/* The table at work as numbers, as bytes and as a sheet, and room for the answers. */
static int64_t table[CELLS], inverse[CELLS], expansion[(2 * LIFTS + 2) * CELLS];
static uint8_t bytes[4 * CELLS], out[8 * CELLS], report[20000];
static char sheet[10000];
static size_t sheet_bytes;
static uint64_t figures[4], answer;

/* Where a call begins. An empty call's whole depth would be too much to take off: the harness goes deeper after it. */
static uint8_t *entry;
static void empty(void) { entry = __builtin_dwarf_cfa(); }
static void known(void) {
    volatile uint8_t room[KNOWN];
    room[0] = 1;
    answer = room[0];
}
static void host_verdict(void) { answer = muljenta_verdict(N, bytes, sizeof bytes); }
static void host_inverse(void) { answer = muljenta_inverse(N, bytes, sizeof bytes, out, sizeof out); }
static void lift(void) { answer = probe_lift(N, LIFTS, 32, table, CELLS, expansion, (2 * LIFTS + 2) * CELLS); }
static void verdict(void) {
    probe_verdict(N, table, CELLS, figures, 4);
    answer = figures[0];
}
static void invert(void) {
    probe_inverse(N, table, CELLS, inverse, CELLS, figures, 4);
    answer = figures[0];
}
static void read_sheet(void) {
    probe_read((const uint8_t *)sheet, sheet_bytes, inverse, CELLS, figures, 4);
    answer = figures[0];
}
static void report_sheet(void) {
    probe_report((const uint8_t *)sheet, sheet_bytes, report, sizeof report);
    answer = report[0] - '0';
}
static void row(void) { answer = probe_row(N, table, CELLS, N - 1, inverse, CELLS); }
static void block(void) {
    answer = probe_block(N, LIFTS, expansion, (2 * LIFTS + 2) * CELLS, 2 * LIFTS + 1, inverse, CELLS);
}

/* The tables: the deepest chain, the identity, one whose inverse is at the width and so takes two digits, a full one with an odd determinant, and the one of
 * the longest sheet. */
enum { CHAIN, IDENTITY, WIDEST, ODD, LONGEST, TABLES };

static int64_t cell(int kind, int i, int j) {
    switch (kind) {
    case CHAIN:
        return i == j ? 1 : j == i + 1 ? LIMIT : 0;
    case IDENTITY:
        return i == j;
    case WIDEST:
        return i == j ? 1 : j != i + 1 ? 0 : i == 0 ? LIMIT / 4 : i == 1 ? LIMIT / 2 : 0;
    case ODD:
        return (i == j) + 2 * ((i * 7919 + j * 104729 + i * j * 31) % (LIMIT / 2)) - LIMIT / 2;
    default:
        return -LIMIT;
    }
}

static void make(int kind) {
    sheet_bytes = (size_t)sprintf(sheet, "%d\n", N);
    for (int i = 0; i < CELLS; i++) {
        int64_t v = table[i] = cell(kind, i / N, i % N);
        for (int j = 0; j < 4; j++)
            bytes[4 * i + j] = (uint8_t)((uint64_t)v >> (8 * j));
        sheet_bytes += (size_t)sprintf(sheet + sheet_bytes, "%d%c", (int)v, i % N == N - 1 ? '\n' : ' ');
    }
}

static uint8_t *stack;
static ucontext_t here, there;

static void prepare(void (*call)(void)) {
    getcontext(&there);
    there.uc_stack.ss_sp = stack;
    there.uc_stack.ss_size = STACK;
    there.uc_link = &here;
    makecontext(&there, call, 0);
}

/* The bytes from the stack's top to the deepest one changed; two paints, since a call may write one of them. */
static size_t depth(void (*call)(void)) {
    size_t most = 0;
    for (int paint = 0; paint < 2; paint++) {
        memset(stack, paint ? 0x5a : 0xa5, STACK);
        prepare(call);
        swapcontext(&here, &there);
        size_t i = 0;
        while (i < STACK && stack[i] == (paint ? 0x5a : 0xa5))
            i++;
        most = STACK - i > most ? STACK - i : most;
    }
    return most;
}

int main(void) {
    static const struct {
        const char *name;
        void (*call)(void);
        unsigned answers[TABLES]; /* that the path was the one meant */
    } calls[] = {
        {"muljenta_verdict", host_verdict, {0, 0, 0, 7, 7}},
        {"muljenta_inverse", host_inverse, {8, 0, 0, 7, 7}},
        {"probe_lift", lift, {0, 0, 0, 0, 6}},
        {"probe_verdict", verdict, {0, 0, 0, 7, 7}},
        {"probe_inverse", invert, {8, 0, 0, 7, 7}},
        {"probe_read", read_sheet, {0, 0, 0, 0, 0}},
        {"probe_report", report_sheet, {8, 0, 0, 7, 7}},
        {"probe_row", row, {N, N, N, N, N}},
        {"probe_block", block, {CELLS, CELLS, CELLS, CELLS, CELLS}},
    };
    int failed = 0;
    stack = mmap(NULL, STACK, PROT_READ | PROT_WRITE, MAP_PRIVATE | MAP_ANONYMOUS, -1, 0);
    if (stack == MAP_FAILED)
        return 1;
    depth(empty);
    size_t base = (size_t)(stack + STACK - entry), measured = depth(known) - base;
    if (measured < KNOWN || measured > KNOWN + 256) {
        printf("FAILED: %zu bytes measured for a call that uses %d\n", measured, KNOWN);
        failed = 1;
    }
    for (size_t c = 0; c < sizeof calls / sizeof *calls; c++) {
        size_t most = 0;
        for (int kind = 0; kind < TABLES; kind++) {
            make(kind);
            size_t used = depth(calls[c].call) - base;
            most = used > most ? used : most;
            if (answer != calls[c].answers[kind]) {
                printf("FAILED: %s answers %llu for table %d\n", calls[c].name, (unsigned long long)answer, kind);
                failed = 1;
            }
        }
        printf("%s %zu\n", calls[c].name, most);
        if (most > MOST) {
            printf("FAILED: %s passes %d\n", calls[c].name, MOST);
            failed = 1;
        }
    }
    if (sheet_bytes != 9219) {
        printf("FAILED: the longest sheet has %zu bytes\n", sheet_bytes);
        failed = 1;
    }
    return failed;
}
