/* The tables that are timed, by family. Each comes from its own seed, so that two runs see the same ones. */
#include "bench.h"

#include <string.h>

const char *const family_names[FAMILIES] = {"narrow", "triangular", "three", "odd", "even"};

static uint64_t state;

static uint64_t draw(void) /* splitmix64 */
{
    uint64_t z = state += UINT64_C(0x9e3779b97f4a7c15);
    z = (z ^ (z >> 30)) * UINT64_C(0xbf58476d1ce4e5b9);
    z = (z ^ (z >> 27)) * UINT64_C(0x94d049bb133111eb);
    return z ^ (z >> 31);
}

static int64_t between(int64_t low, int64_t high)
{
    return low + (int64_t)(draw() % (uint64_t)(high - low + 1));
}

static int64_t magnitude(int64_t v)
{
    return v < 0 ? -v : v;
}

/*
 * Row i += c * row j, and on the inverse column j -= c * column i; or the same on columns. Not done where an entry of the
 * table would pass 4,000 or one of the inverse 2^30.
 */
static void mix(size_t n, int64_t *a, int64_t *b, size_t i, size_t j, int64_t c, int rows)
{
    size_t ai = rows ? i * n : i, aj = rows ? j * n : j, da = rows ? 1 : n;
    size_t bi = rows ? i : i * n, bj = rows ? j : j * n, db = rows ? n : 1;
    for (size_t k = 0; k < n; k++) {
        if (magnitude(a[ai + k * da] + c * a[aj + k * da]) > 4000) return;
        if (magnitude(b[bj + k * db] - c * b[bi + k * db]) > INT64_C(1) << 30) return;
    }
    for (size_t k = 0; k < n; k++) {
        a[ai + k * da] += c * a[aj + k * da];
        b[bj + k * db] -= c * b[bi + k * db];
    }
}

/* A product of elementary tables with determinant d. For d = 1, b follows the inverse; for 3 it only bounds the mixing. */
static void mixed(size_t n, int64_t d, int64_t *a)
{
    int64_t b[MOST_CELLS] = {0};
    memset(a, 0, n * n * sizeof *a);
    for (size_t i = 0; i < n; i++) a[i * n + i] = b[i * n + i] = 1;
    a[0] = d;
    for (size_t t = 0; t < 6 * n; t++) {
        size_t i = draw() % n, j = draw() % (n - 1);
        int64_t c = between(1, 3) * (draw() % 2 ? 1 : -1);
        mix(n, a, b, i, j + (j >= i), c, (int)(draw() % 2));
    }
}

static void triangular(size_t n, int64_t *a)
{
    for (size_t i = 0; i < n; i++)
        for (size_t j = 0; j < n; j++)
            a[i * n + j] = j < i ? 0 : j == i ? 1 : between(-(1 << 20), 1 << 20);
}

static int odd_determinant(size_t n, const int64_t *a)
{
    uint32_t rows[MOST_ORDER] = {0};
    for (size_t i = 0; i < n; i++)
        for (size_t j = 0; j < n; j++) rows[i] |= (uint32_t)(a[i * n + j] & 1) << j;
    for (size_t c = 0; c < n; c++) {
        size_t p = c;
        while (p < n && !(rows[p] >> c & 1)) p++;
        if (p == n) return 0;
        uint32_t pivot = rows[p];
        rows[p] = rows[c];
        rows[c] = pivot;
        for (size_t i = c + 1; i < n; i++)
            if (rows[i] >> c & 1) rows[i] ^= pivot;
    }
    return 1;
}

static void general(size_t n, int odd, int64_t *a)
{
    do
        for (size_t t = 0; t < n * n; t++) a[t] = between(-(1 << 20), 1 << 20);
    while (odd_determinant(n, a) != odd);
}

void make_table(int family, size_t n, int count, int64_t *a)
{
    state = (uint64_t)family << 32 | (uint64_t)n << 16 | (uint64_t)count;
    switch (family) {
    case NARROW: mixed(n, 1, a); break;
    case TRIANGULAR: triangular(n, a); break;
    case THREE: mixed(n, 3, a); break;
    case ODD: general(n, 1, a); break;
    default: general(n, 0, a); break;
    }
}

void entry_bytes(size_t n, const int64_t *a, uint8_t *bytes)
{
    for (size_t t = 0; t < n * n; t++)
        for (int k = 0; k < 4; k++) *bytes++ = (uint8_t)((uint64_t)a[t] >> 8 * k);
}
