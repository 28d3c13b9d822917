/*
 * Our two calls beside the others, in one process: for each order and family the median over its tables of the best time
 * of each table, and our time divided by each of the others. Ends with 1 where two exact programs disagree.
 */
#include "../include/muljenta.h"
#include "bench.h"

#include <math.h>
#include <stdio.h>
#include <stdlib.h>
#include <string.h>
#include <time.h>

#define TABLES 15
#define REPEATS 7
#define SAMPLE 200e-6 /* seconds that a sample lasts at least, for the clock */

static size_t n;
static int64_t table[MOST_CELLS];
static uint8_t bytes[4 * MOST_CELLS], out_bytes[8 * MOST_CELLS];
static int64_t plain_out[MOST_CELLS];
static volatile uint32_t number; /* so that no call is left out */
static volatile double float_determinant;

static void our_verdict(void) { number = muljenta_verdict(n, bytes, 4 * n * n); }
static void our_inverse(void) { number = muljenta_inverse(n, bytes, 4 * n * n, out_bytes, 8 * n * n); }
static void plain_verdict_call(void) { number = plain_verdict(n, table); }
static void plain_inverse_call(void) { number = plain_inverse(n, table, plain_out); }
static void lu_call(void) { float_determinant = lu_determinant(n, table); }

struct program {
    const char *name;
    void (*call)(void);
};
static const struct program verdicts[] = {{"ours", our_verdict},         {"FLINT", by_flint_determinant},
                                          {"PARI", by_pari_determinant}, {"NTL", by_ntl_determinant},
                                          {"LU", lu_call},               {"plain", plain_verdict_call}};
static const struct program inverses[] = {{"ours", our_inverse},     {"FLINT", by_flint_inverse},
                                          {"PARI", by_pari_inverse}, {"NTL", by_ntl_inverse},
                                          {"plain", plain_inverse_call}};
#define VERDICTS ((int)(sizeof verdicts / sizeof *verdicts))
#define INVERSES ((int)(sizeof inverses / sizeof *inverses))

static int disagreements, lu_wrong, lu_asked;

static void hold(int agrees, const char *who, const char *call, int family, int count)
{
    if (agrees) return;
    disagreements++;
    printf("DISAGREE: %s, %s, order %zu, %s, table %d\n", who, call, n, family_names[family], count);
}

/* Asks every program for its verdict, and gives ours. */
static uint32_t ask_verdicts(int family, int count)
{
    our_verdict();
    uint32_t ours = number;
    int yes = ours == 0;
    by_flint_determinant();
    by_pari_determinant();
    by_ntl_determinant();
    hold(ours == 0 || ours == 7, "ours", "verdict", family, count);
    hold(by_flint_is_unit() == yes, "FLINT", "verdict", family, count);
    hold(by_pari_is_unit() == yes, "PARI", "verdict", family, count);
    hold(by_ntl_is_unit() == yes, "NTL", "verdict", family, count);
    hold(plain_verdict(n, table) == ours, "plain", "verdict", family, count);
    lu_asked++;
    lu_wrong += (fabs(fabs(lu_determinant(n, table)) - 1) < 0.5) != yes;
    return ours;
}

static int same_inverse(uint32_t ours, uint32_t theirs, const int64_t *inverse)
{
    if (ours != theirs) return 0;
    for (size_t t = 0; ours == 0 && t < n * n; t++) {
        uint64_t v = 0;
        for (int k = 0; k < 8; k++) v |= (uint64_t)out_bytes[8 * t + (size_t)k] << 8 * k;
        if ((int64_t)v != inverse[t]) return 0;
    }
    return 1;
}

/* Asks every program for the inverse, and gives our number. */
static uint32_t ask_inverses(int family, int count, uint32_t verdict)
{
    int64_t theirs[MOST_CELLS];
    our_inverse();
    uint32_t ours = number;
    hold(verdict == 7 ? ours == 7 : ours == 0 || ours == 8, "ours", "inverse", family, count);
    hold(same_inverse(ours, plain_inverse(n, table, theirs), theirs), "plain", "inverse", family, count);
    if (verdict != 0) return ours;
    by_flint_inverse();
    hold(same_inverse(ours, by_flint_take(theirs), theirs), "FLINT", "inverse", family, count);
    by_pari_inverse();
    hold(same_inverse(ours, by_pari_take(theirs), theirs), "PARI", "inverse", family, count);
    by_ntl_inverse();
    hold(same_inverse(ours, by_ntl_take(theirs), theirs), "NTL", "inverse", family, count);
    return ours;
}

static double now(void)
{
    struct timespec t;
    clock_gettime(CLOCK_MONOTONIC, &t);
    return (double)t.tv_sec + 1e-9 * (double)t.tv_nsec;
}

/* Microseconds of one call. The count that fills a sample is kept from one sample to the next. */
static double sample(void (*call)(void), long *calls)
{
    for (;;) {
        double began = now();
        for (long t = 0; t < *calls; t++) call();
        double took = now() - began;
        if (took >= SAMPLE) return took / (double)*calls * 1e6;
        *calls = took > SAMPLE / 16 ? (long)((double)*calls * SAMPLE / took * 1.2) + 1 : *calls * 8;
    }
}

/* The best time of each program on the loaded table. They take turns, so that a busy moment falls on all of them. */
static void measure(const struct program *programs, int count, double *best)
{
    long calls[8];
    for (int p = 0; p < count; p++) {
        calls[p] = 1;
        best[p] = HUGE_VAL;
    }
    for (int r = 0; r < REPEATS; r++)
        for (int p = 0; p < count; p++) {
            double took = sample(programs[p].call, &calls[p]);
            if (took < best[p]) best[p] = took;
        }
}

static int ascending(const void *p, const void *q)
{
    double a = *(const double *)p, b = *(const double *)q;
    return (a > b) - (a < b);
}

static double median(double times[][TABLES], int program)
{
    double sorted[TABLES];
    memcpy(sorted, times[program], sizeof sorted);
    qsort(sorted, TABLES, sizeof *sorted, ascending);
    return sorted[TABLES / 2];
}

static void line(const char *call, int family, uint32_t answer, const struct program *programs, int count, double times[][TABLES])
{
    double ours = median(times, 0);
    printf("%-8s %5zu  %-10s %6u %10.2f", call, n, family_names[family], answer, ours);
    for (int p = 1; p < count; p++) {
        if (programs == inverses && p == count - 1) printf(" %8s", "-"); /* no inverse by LU */
        printf(" %8.3f", ours / median(times, p));
    }
    printf("\n");
    fflush(stdout);
}

int main(void)
{
    static const size_t orders[] = {4, 8, 16, 32};
    printf("%s, %s, %s; %d tables to a line, best of %d samples each\n", by_flint_version(), by_pari_version(), by_ntl_version(), TABLES,
           REPEATS);
    printf("%-8s %5s  %-10s %6s %10s", "call", "order", "family", "number", "ours/us");
    for (int p = 1; p < VERDICTS; p++) printf(" %8s", verdicts[p].name);
    printf("   (our median time in microseconds, then that time divided by the other's: below 1 we are faster)\n");
    for (size_t o = 0; o < sizeof orders / sizeof *orders; o++)
        for (int family = 0; family < FAMILIES; family++) {
            double verdict_times[8][TABLES] = {{0}}, inverse_times[8][TABLES] = {{0}}, best[8];
            uint32_t verdict = 0, inverse = 0;
            n = orders[o];
            for (int count = 0; count < TABLES; count++) {
                make_table(family, n, count, table);
                entry_bytes(n, table, bytes);
                by_flint_load(n, table);
                by_pari_load(n, table);
                by_ntl_load(n, table);
                verdict = ask_verdicts(family, count);
                inverse = ask_inverses(family, count, verdict);
                measure(verdicts, VERDICTS, best);
                for (int p = 0; p < VERDICTS; p++) verdict_times[p][count] = best[p];
                if (verdict != 0) continue;
                measure(inverses, INVERSES, best);
                for (int p = 0; p < INVERSES; p++) inverse_times[p][count] = best[p];
            }
            line("verdict", family, verdict, verdicts, VERDICTS, verdict_times);
            if (verdict == 0) line("inverse", family, inverse, inverses, INVERSES, inverse_times);
        }
    printf("LU gave a wrong verdict on %d of %d tables\n", lu_wrong, lu_asked);
    if (disagreements) printf("%d answers disagree\n", disagreements);
    else printf("the exact programs agree on every table\n");
    return disagreements != 0;
}
