/*
 * The rules of the library as a C programmer would write them, with nothing proved: the start by one elimination modulo
 * 2^32, then three products a lift. Every exact sum stays below 2^57, and what is only wanted modulo 2^e, with e at most
 * 32, is computed in wrapping 32-bit numbers.
 */
#include "bench.h"

#include <string.h>

#define MOST_ENTRY (INT64_C(1) << 20)

/* The greatest magnitude of an entry, at least 1. */
static int64_t height(size_t n, const int64_t *a)
{
    int64_t h = 1;
    for (size_t t = 0; t < n * n; t++) {
        int64_t v = a[t] < 0 ? -a[t] : a[t];
        if (v > h) h = v;
    }
    return h;
}

/* The least e >= 14 with 2^e >= 4 n^2 h. */
static int need(size_t n, int64_t h)
{
    int e = 64 - __builtin_clzll(4 * n * n * (uint64_t)h - 1);
    return e < 14 ? 14 : e;
}

/* The least k >= 0 with 2^(k + 1) >= n. */
static int lifts(size_t n)
{
    return n <= 2 ? 0 : 63 - __builtin_clzll(n - 1);
}

/* The number congruent to v modulo 2^e that is above -2^(e - 1) and at most 2^(e - 1). */
static inline int64_t balanced(uint32_t v, int e)
{
    int64_t x = INT64_C(1) << e, r = (int64_t)(v & (uint64_t)(x - 1));
    return r > x / 2 ? r - x : r;
}

/* The inverse of an odd number modulo 2^32; each round doubles the bits that are right, from 3 to 48. */
static uint32_t odd_inverse(uint32_t v)
{
    uint32_t x = v;
    for (int t = 0; t < 4; t++) x *= 2 - v * x;
    return x;
}

/* The inverse of a modulo 2^32 by Gauss-Jordan elimination in place; 0 where a column has no odd pivot. */
static int invert(size_t n, const int64_t *restrict a, uint32_t *restrict b)
{
    size_t swapped[MOST_ORDER];
    for (size_t t = 0; t < n * n; t++) b[t] = (uint32_t)a[t];
    for (size_t c = 0; c < n; c++) {
        size_t p = c;
        while (p < n && b[p * n + c] % 2 == 0) p++;
        if (p == n) return 0;
        swapped[c] = p;
        uint32_t pivot[MOST_ORDER], inverse = odd_inverse(b[p * n + c]);
        memcpy(pivot, b + p * n, n * sizeof *b);
        if (p != c) memcpy(b + p * n, b + c * n, n * sizeof *b);
        pivot[c] = 1;
        for (size_t j = 0; j < n; j++) pivot[j] *= inverse;
        for (size_t i = 0; i < n; i++) {
            if (i == c) continue;
            uint32_t *restrict row = b + i * n, f = row[c];
            row[c] = 0;
            for (size_t j = 0; j < n; j++) row[j] -= f * pivot[j];
        }
        memcpy(b + c * n, pivot, n * sizeof *b);
    }
    for (size_t c = n; c-- > 0;) { /* rows swapped on the way are columns of the inverse */
        size_t p = swapped[c];
        if (p == c) continue;
        for (size_t i = 0; i < n; i++) {
            uint32_t v = b[i * n + c];
            b[i * n + c] = b[i * n + p];
            b[i * n + p] = v;
        }
    }
    return 1;
}

/* o = p q, exactly. Row by column: the other order is vectorised, and SSE2 has no 64-bit product. */
static void product(size_t n, const int64_t *restrict p, const int64_t *restrict q, int64_t *restrict o)
{
    for (size_t i = 0; i < n; i++)
        for (size_t j = 0; j < n; j++) {
            int64_t sum = 0;
            for (size_t k = 0; k < n; k++) sum += p[i * n + k] * q[k * n + j];
            o[i * n + j] = sum;
        }
}

/* o = the balanced remainder of b s by 2^e. */
static void remainder_of(size_t n, int e, const uint32_t *restrict b, const int64_t *restrict s, int64_t *restrict o)
{
    uint32_t low[MOST_CELLS];
    for (size_t t = 0; t < n * n; t++) low[t] = (uint32_t)s[t];
    for (size_t i = 0; i < n; i++) {
        uint32_t row[MOST_ORDER] = {0};
        for (size_t k = 0; k < n; k++) {
            uint32_t f = b[i * n + k];
            for (size_t j = 0; j < n; j++) row[j] += f * low[k * n + j];
        }
        for (size_t j = 0; j < n; j++) o[i * n + j] = balanced(row[j], e);
    }
}

/* o = (s - a m) / 2^e, which is exact; o may be s. */
static void residue(size_t n, int e, const int64_t *a, const int64_t *m, const int64_t *s, int64_t *o)
{
    int64_t am[MOST_CELLS];
    product(n, a, m, am);
    for (size_t t = 0; t < n * n; t++) o[t] = (s[t] - am[t]) >> e;
}

static int vanishes(size_t n, const int64_t *r)
{
    int64_t any = 0;
    for (size_t t = 0; t < n * n; t++) any |= r[t];
    return any == 0;
}

/* B_0 modulo 2^32 and balanced modulo 2^e, and R_0; 0 where a has no inverse modulo 2. */
static int start(size_t n, int e, const int64_t *a, uint32_t *b, int64_t *b0, int64_t *r)
{
    if (!invert(n, a, b)) return 0;
    for (size_t t = 0; t < n * n; t++) b0[t] = balanced(b[t], e);
    memset(r, 0, n * n * sizeof *r);
    for (size_t i = 0; i < n; i++) r[i * n + i] = 1;
    residue(n, e, a, b0, r, r);
    return 1;
}

uint32_t plain_verdict(size_t n, const int64_t *a)
{
    uint32_t b[MOST_CELLS];
    int64_t m[MOST_CELLS], r[MOST_CELLS], s[MOST_CELLS];
    if (n < 1 || n > MOST_ORDER) return 1;
    int64_t h = height(n, a);
    if (h > MOST_ENTRY) return 4;
    int e = need(n, h), k = lifts(n);
    if (!start(n, e, a, b, m, r)) return 7;
    for (int t = 0; t < k; t++) {
        product(n, r, r, s);
        remainder_of(n, e, b, s, m);
        residue(n, e, a, m, s, r);
    }
    return vanishes(n, r) ? 0 : 7;
}

uint32_t plain_inverse(size_t n, const int64_t *a, int64_t *out)
{
    uint32_t b[MOST_CELLS];
    int64_t b0[MOST_CELLS], d[MOST_CELLS], r[MOST_CELLS];
    uint32_t number = plain_verdict(n, a);
    if (number != 0) return number;
    if (!start(n, 32, a, b, b0, r)) return 7;
    remainder_of(n, 32, b, r, d);
    residue(n, 32, a, d, r, r);
    if (!vanishes(n, r)) return 8;
    for (size_t t = 0; t < n * n; t++)
        if (d[t] < -64 || d[t] > 64) return 8;
    for (size_t t = 0; t < n * n; t++) {
        b0[t] += d[t] * (INT64_C(1) << 32);
        if (b0[t] < -WIDTH || b0[t] > WIDTH) return 8;
    }
    memcpy(out, b0, n * n * sizeof *out);
    return 0;
}
