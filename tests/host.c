/* The calls of a C host on buffers between guard pages, with every answer worked out here. usage: host [SEED] */
#define _GNU_SOURCE
#include "muljenta.h"

#include <inttypes.h>
#include <stdio.h>
#include <stdlib.h>
#include <string.h>
#include <sys/mman.h>

enum { SEED = 20261115, ROUNDS = 100000, LEAST_CALLS = 100000, MOST = 32, CELLS = MOST * MOST, GUARD = 65536 };

#define TWO(e) (UINT64_C(1) << (e))
#define LEGAL ((int64_t)TWO(20))
#define WIDTH ((int64_t)TWO(37))
#define PRIME (TWO(61) - 1)

/* Some look lawful in 32 bits, and some have a square that does in 64. */
static const uint64_t BAD_ORDERS[] = {0, 33, 40, TWO(16), TWO(31), TWO(32), TWO(32) + 2, TWO(63), UINT64_MAX};

/* Random numbers: splitmix64. */
static uint64_t state;

static uint64_t any(void) {
    uint64_t z = state += UINT64_C(0x9e3779b97f4a7c15);
    z = (z ^ (z >> 30)) * UINT64_C(0xbf58476d1ce4e5b9);
    z = (z ^ (z >> 27)) * UINT64_C(0x94d049bb133111eb);
    return z ^ (z >> 31);
}

static uint64_t below(uint64_t m) { return any() % m; }

static int64_t within(int64_t limit) { return (int64_t)below(2 * (uint64_t)limit + 1) - limit; }

/* Where a failure happened. */
static struct {
    uint64_t round, n;
    size_t table_bytes, out_bytes;
    uint32_t verdict, inverse;
    const char *kind;
} at;

static void fail(const char *fact, int line) {
    printf("FAILED line %d: %s (round %" PRIu64 ", %s, n %" PRIu64 ", lengths %zu and %zu, numbers %" PRIu32
           " and %" PRIu32 ")\n",
           line, fact, at.round, at.kind, at.n, at.table_bytes, at.out_bytes, at.verdict, at.inverse);
    exit(1);
}

#define CHECK(fact) ((fact) ? (void)0 : fail(#fact, __LINE__))

/* Memory between two guard pages, and what it has to be. */
typedef struct {
    uint8_t *bytes, *copy;
    size_t size;
} Arena;

static Arena arena(size_t size) {
    Arena a = {NULL, malloc(size), size};
    uint8_t *all = mmap(NULL, size + 2 * GUARD, PROT_NONE, MAP_PRIVATE | MAP_ANONYMOUS, -1, 0);
    if (all == MAP_FAILED || a.copy == NULL || mprotect(all + GUARD, size, PROT_READ | PROT_WRITE) != 0) {
        perror("arena");
        exit(1);
    }
    a.bytes = all + GUARD;
    return a;
}

static void fill(Arena *a) {
    for (size_t i = 0; i < a->size; i += 8) {
        uint64_t z = any();
        memcpy(a->bytes + i, &z, 8);
    }
}

/* Right before a guard page, right after one, or misaligned; sometimes null for no bytes. */
static uint8_t *place(const Arena *a, size_t length) {
    if (length == 0 && below(2))
        return NULL;
    switch (below(3)) {
    case 0:
        return a->bytes + a->size - length;
    case 1:
        return a->bytes;
    default:
        return a->bytes + 64 + 1 + below(7);
    }
}

static void keep(Arena *a) { memcpy(a->copy, a->bytes, a->size); }

static int intact(const Arena *a) { return memcmp(a->copy, a->bytes, a->size) == 0; }

/* Bytes, least first. */
static int64_t entry(const uint8_t *b) {
    uint32_t u = b[0] | (uint32_t)b[1] << 8 | (uint32_t)b[2] << 16 | (uint32_t)b[3] << 24;
    return u < TWO(31) ? (int64_t)u : (int64_t)u - (int64_t)TWO(32);
}

static void put(uint8_t *b, int64_t v, int count) {
    for (int i = 0; i < count; i++)
        b[i] = (uint8_t)((uint64_t)v >> (8 * i));
}

/* A table, and its inverse where that is known from how it was made. */
typedef struct {
    size_t n;
    int known;
    int64_t a[CELLS], inverse[CELLS];
} Table;

static void identity(Table *t, int64_t sign) {
    memset(t->a, 0, sizeof t->a);
    memset(t->inverse, 0, sizeof t->inverse);
    for (size_t i = 0; i < t->n; i++)
        t->a[i * t->n + i] = t->inverse[i * t->n + i] = sign;
    t->known = 1;
}

/* Row i plus c times row j; the inverse's column j minus c times column i. Not done where a number would grow too
 * large. */
static void add_row(Table *t, size_t i, size_t j, int64_t c) {
    size_t n = t->n;
    for (size_t x = 0; x < n; x++) {
        __int128 v = t->a[i * n + x] + (__int128)c * t->a[j * n + x];
        __int128 w = t->inverse[x * n + j] - (__int128)c * t->inverse[x * n + i];
        if (v < -LEGAL || v > LEGAL || w < -(__int128)TWO(60) || w > (__int128)TWO(60))
            return;
    }
    for (size_t x = 0; x < n; x++) {
        t->a[i * n + x] += c * t->a[j * n + x];
        t->inverse[x * n + j] -= c * t->inverse[x * n + i];
    }
}

static void swap(int64_t *x, int64_t *y) {
    int64_t z = *x;
    *x = *y;
    *y = z;
}

static void unimodular(Table *t) {
    size_t n = t->n;
    int64_t limit = (int64_t[]){1, 2, 9, 1000, LEGAL}[below(5)];
    identity(t, below(2) ? 1 : -1);
    for (size_t step = 0; step < 6 * n; step++) {
        size_t i = below(n), j = below(n);
        if (i != j)
            add_row(t, i, j, below(3) ? within(limit < 9 ? limit : 9) : within(limit));
        else
            for (size_t x = 0; x < n; x++) {
                t->a[i * n + x] *= -1;
                t->inverse[x * n + i] *= -1;
            }
        i = below(n), j = below(n);
        for (size_t x = 0; x < n; x++) {
            swap(&t->a[i * n + x], &t->a[j * n + x]);
            swap(&t->inverse[x * n + i], &t->inverse[x * n + j]);
        }
    }
}

/* The inverse has an entry at the width, or one past it: (1 p c; 0 1 q; 0 0 1) has p * q - c in the corner. */
static void at_the_width(Table *t) {
    int64_t p = (LEGAL / 4) * (below(2) ? 1 : -1), q = LEGAL / 2, c = within(1);
    size_t n = t->n = t->n < 3 ? 3 : t->n;
    identity(t, 1);
    t->a[1] = p, t->a[n + 2] = q, t->a[2] = c;
    t->inverse[1] = -p, t->inverse[n + 2] = -q, t->inverse[2] = p * q - c;
}

static const char *make(Table *t) {
    size_t n = t->n, m = n * n, i = below(m);
    t->known = 0;
    switch (below(10)) {
    case 0:
        for (size_t x = 0; x < m; x++)
            t->a[x] = (int32_t)(uint32_t)any();
        return "bytes";
    case 1:
        for (size_t x = 0; x < m; x++)
            t->a[x] = within(3);
        return "small";
    case 2:
        for (size_t x = 0; x < m; x++)
            t->a[x] = below(2) ? LEGAL : -LEGAL;
        for (size_t x = 0; x < n && below(4); x++)
            t->a[x * n + x] -= t->a[x * n + x] < 0 ? -1 : 1;
        return "at the limit";
    case 3:
        unimodular(t);
        t->known = 0;
        t->a[i] = (int64_t[]){LEGAL + 1, -LEGAL - 1, INT32_MAX, INT32_MIN}[below(4)];
        return "one entry past the limit";
    case 4:
        identity(t, below(2) ? 1 : -1);
        return "identity";
    case 5:
        at_the_width(t);
        return "at the width";
    case 6:
        identity(t, 1);
        t->known = 0;
        for (size_t x = 0; x + 1 < n; x++)
            t->a[x * n + x + 1] = LEGAL - (int64_t)below(2);
        return "chain";
    case 7:
        unimodular(t);
        t->known = 0;
        t->a[i] += t->a[i] > 0 ? -2 : 2;
        return "one entry off";
    default:
        unimodular(t);
        return "unimodular";
    }
}

/* The refusal by the rules for order, lengths and entries, or 0. */
static uint32_t refusal(uint64_t n, const uint8_t *table, size_t table_bytes, int lengths_right) {
    if (n < 1 || n > MOST)
        return MULJENTA_ORDER;
    if (table_bytes != 4 * n * n || !lengths_right)
        return MULJENTA_LENGTH;
    for (size_t i = 0; i < n * n; i++)
        if (entry(table + 4 * i) < -LEGAL || entry(table + 4 * i) > LEGAL)
            return MULJENTA_ENTRY;
    return 0;
}

static uint64_t times(uint64_t x, uint64_t y) { return (uint64_t)((unsigned __int128)x * y % PRIME); }

static uint64_t residue(int64_t v) { return v < 0 ? PRIME - (uint64_t)-v : (uint64_t)v; }

static uint64_t reciprocal(uint64_t x) {
    uint64_t r = 1;
    for (uint64_t e = PRIME - 2; e; e >>= 1, x = times(x, x))
        if (e & 1)
            r = times(r, x);
    return r;
}

/* 0 with the inverse, 7 or 8, by elimination modulo a prime: a narrow inverse is its own balanced remainder, and a
   determinant that is not 1 or -1 modulo the prime is neither. */
static uint32_t solve(size_t n, const int64_t *a, int64_t *b) {
    static uint64_t w[MOST][2 * MOST];
    uint64_t det = 1;
    for (size_t i = 0; i < n; i++)
        for (size_t j = 0; j < n; j++) {
            w[i][j] = residue(a[i * n + j]);
            w[i][n + j] = i == j;
        }
    for (size_t c = 0; c < n; c++) {
        size_t p = c;
        while (p < n && w[p][c] == 0)
            p++;
        if (p == n)
            return MULJENTA_NO_INVERSE;
        for (size_t x = 0; p != c && x < 2 * n; x++) {
            uint64_t z = w[c][x];
            w[c][x] = w[p][x];
            w[p][x] = z;
        }
        det = times(det, p == c ? w[c][c] : PRIME - w[c][c]);
        uint64_t r = reciprocal(w[c][c]);
        for (size_t x = 0; x < 2 * n; x++)
            w[c][x] = times(w[c][x], r);
        for (size_t i = 0; i < n; i++) {
            uint64_t f = i == c || w[i][c] == 0 ? 0 : PRIME - w[i][c];
            for (size_t x = 0; f != 0 && x < 2 * n; x++)
                w[i][x] = (w[i][x] + times(f, w[c][x])) % PRIME;
        }
    }
    if (det != 1 && det != PRIME - 1)
        return MULJENTA_NO_INVERSE;
    for (size_t i = 0; i < n * n; i++) {
        uint64_t v = w[i / n][n + i % n];
        b[i] = v > PRIME / 2 ? -(int64_t)(PRIME - v) : (int64_t)v;
        if (b[i] < -WIDTH || b[i] > WIDTH)
            return MULJENTA_TOO_WIDE;
    }
    for (size_t i = 0; i < n; i++)
        for (size_t j = 0; j < n; j++) {
            int64_t sum = 0; /* at most 2^5 * 2^20 * 2^37 */
            for (size_t x = 0; x < n; x++)
                sum += a[i * n + x] * b[x * n + j];
            if (sum != (i == j))
                return MULJENTA_TOO_WIDE;
        }
    return MULJENTA_DONE;
}

/* The answer of the known inverse. */
static uint32_t known_number(const Table *t) {
    for (size_t i = 0; i < t->n * t->n; i++)
        if (t->inverse[i] < -WIDTH || t->inverse[i] > WIDTH)
            return MULJENTA_TOO_WIDE;
    return MULJENTA_DONE;
}

/* Mostly right; else off by one, off by an entry, none or twice. */
static size_t length(size_t right, size_t each) {
    switch (below(40)) {
    case 0:
        return right - 1;
    case 1:
        return right + 1;
    case 2:
        return right - each;
    case 3:
        return right + each;
    case 4:
        return 0;
    case 5:
        return 2 * right;
    default:
        return right;
    }
}

/* For a bad order: a length that is right for some order, or for this one in 64 bits. */
static size_t bad_length(uint64_t n, uint64_t each, size_t most) {
    uint64_t some[] = {0, each, 4 * each, 1024 * each, 33 * 33 * each, n * n * each, each - 1};
    uint64_t right = some[below(7)];
    return right <= most ? right : 0;
}

static Arena tables, outs;
static uint64_t said[2][9], misaligned, nulls;

static void round_of(Table *t, uint64_t n) {
    int legal = n >= 1 && n <= MOST;
    fill(&tables);
    fill(&outs);
    at.kind = "bad order";
    if (legal) {
        t->n = n;
        at.kind = make(t);
        n = t->n;
    }
    size_t table_bytes = legal ? length(4 * n * n, 4) : bad_length(n, 4, tables.size);
    size_t out_bytes = legal ? length(8 * n * n, 8) : bad_length(n, 8, outs.size);
    uint8_t *table = place(&tables, table_bytes), *out = place(&outs, out_bytes);
    for (size_t i = 0; legal && i < n * n && 4 * i + 4 <= table_bytes; i++)
        put(table + 4 * i, t->a[i], 4);
    keep(&tables);
    keep(&outs);
    misaligned += (uintptr_t)table % 4 != 0 || (uintptr_t)out % 8 != 0;
    nulls += table == NULL || out == NULL;
    at.n = n, at.table_bytes = table_bytes, at.out_bytes = out_bytes, at.inverse = UINT32_MAX;

    uint32_t v = at.verdict = muljenta_verdict(n, table, table_bytes);
    CHECK(intact(&tables));
    CHECK(intact(&outs));
    uint32_t k = at.inverse = muljenta_inverse(n, table, table_bytes, out, out_bytes);
    CHECK(intact(&tables));

    uint32_t v_refused = refusal(n, table, table_bytes, 1);
    uint32_t k_refused = refusal(n, table, table_bytes, out_bytes == 8 * n * n);
    uint32_t answer = 0;
    static int64_t b[CELLS];
    if (v_refused != 0) {
        CHECK(v == v_refused);
    } else {
        answer = solve(n, t->a, b);
        CHECK(!t->known || answer == known_number(t));
        CHECK(v == (answer == MULJENTA_NO_INVERSE ? 7 : 0));
    }
    if (k_refused != 0) {
        CHECK(k == k_refused);
    } else {
        CHECK(k == answer);
        CHECK((k == 7) == (v == 7));
    }
    if (k == 0) {
        uint8_t *wanted = outs.copy + (out - outs.bytes);
        for (size_t i = 0; i < n * n; i++) {
            CHECK(!t->known || b[i] == t->inverse[i]);
            put(wanted + 8 * i, b[i], 8);
        }
    }
    CHECK(intact(&outs));
    said[0][v]++;
    said[1][k]++;
}

int main(int count, char **words) {
    uint64_t seed = count > 1 ? strtoull(words[1], NULL, 10) : SEED;
    tables = arena(12288), outs = arena(20480);
    static Table t;
    state = seed;
    for (at.round = 0; at.round < ROUNDS; at.round++) {
        uint64_t n = 1 + below(8), pick = below(20);
        if (at.round % 150 == 0)
            n = MOST;
        else if (pick == 0)
            n = 1 + below(MOST);
        else if (pick <= 2)
            n = BAD_ORDERS[below(sizeof BAD_ORDERS / sizeof *BAD_ORDERS)];
        round_of(&t, n);
    }
    uint64_t calls = 0;
    int all = misaligned != 0 && nulls != 0;
    printf("seed %" PRIu64, seed);
    for (int call = 0; call < 2; call++) {
        printf(call ? "; inverse" : "; verdict");
        for (int k = 0; k < 9; k++) {
            int given = k != 2 && k != 5 && k != 6 && (call || k != 8);
            all = all && (said[call][k] != 0) == given;
            calls += said[call][k];
            if (given)
                printf(" %d:%" PRIu64, k, said[call][k]);
        }
    }
    printf("; %" PRIu64 " calls, %" PRIu64 " rounds misaligned, %" PRIu64 " with a null\n", calls, misaligned, nulls);
    if (!all || calls < LEAST_CALLS) {
        printf("FAILED: a number was not seen, or too few calls\n");
        return 1;
    }
    return 0;
}
