/* What the parts of the benchmark share. A table holds n * n entries, row by row; numbers are those of muljenta.h. */
#ifndef BENCH_H
#define BENCH_H

#include <stddef.h>
#include <stdint.h>

#define MOST_ORDER 32
#define MOST_CELLS (MOST_ORDER * MOST_ORDER)
#define WIDTH (INT64_C(1) << 37)

#ifdef __cplusplus
extern "C" {
#endif

/* tables.c: the same tables in every run, for they depend on the family, the order and the count alone. */
enum { NARROW, TRIANGULAR, THREE, ODD, EVEN, FAMILIES };
extern const char *const family_names[FAMILIES];
void make_table(int family, size_t n, int count, int64_t *a);
void entry_bytes(size_t n, const int64_t *a, uint8_t *bytes);

/* plain.c: the rules of the library in plain C. */
uint32_t plain_verdict(size_t n, const int64_t *a);
uint32_t plain_inverse(size_t n, const int64_t *a, int64_t *out);

/* lu.c: a determinant in float64. */
double lu_determinant(size_t n, const int64_t *a);

/*
 * The other libraries. load converts a table into the library's own type and is not timed; determinant and inverse are.
 * is_unit tells whether the last determinant was 1 or -1. take gives the last inverse as the library's call would: 0 and
 * the entries, 7 where it is not whole, 8 where an entry passes the width.
 */
#define RIVAL(name)                                                                                                        \
    const char *by_##name##_version(void);                                                                                      \
    void by_##name##_load(size_t n, const int64_t *a);                                                                          \
    void by_##name##_determinant(void);                                                                                         \
    int by_##name##_is_unit(void);                                                                                              \
    void by_##name##_inverse(void);                                                                                             \
    uint32_t by_##name##_take(int64_t *out)
RIVAL(flint);
RIVAL(pari);
RIVAL(ntl);

#ifdef __cplusplus
}
#endif

#endif
