/* A host in C: the inverse of a table of order 2, and a table that has none.
 *   mkdir -p target && bash .ci/x86 gcc -Iinclude examples/host.c crates/host/out/libhost.a -o target/host && bash .ci/x86 run target/host */
#include <inttypes.h>
#include <stdio.h>
#include <string.h>

#include "muljenta.h"

/* The bytes of an entry, least first, whatever the machine's own order is. */
static void put_entry(uint8_t *at, int32_t v) {
    for (int i = 0; i < 4; i++)
        at[i] = (uint8_t)((uint32_t)v >> (8 * i));
}

static int64_t get_entry(const uint8_t *at) {
    uint64_t v = 0;
    for (int i = 0; i < 8; i++)
        v |= (uint64_t)at[i] << (8 * i);
    int64_t r;
    memcpy(&r, &v, sizeof r);
    return r;
}

static void show(const int32_t *entries) {
    uint8_t table[4 * 4], inverse[8 * 4];
    for (int i = 0; i < 4; i++)
        put_entry(table + 4 * i, entries[i]);
    uint32_t number = muljenta_inverse(2, table, sizeof table, inverse, sizeof inverse);
    printf("%" PRIu32, number);
    for (int i = 0; number == 0 && i < 4; i++)
        printf(" %" PRId64, get_entry(inverse + 8 * i));
    printf("\n");
}

int main(void) {
    show((const int32_t[]){2, 1, 1, 1});
    show((const int32_t[]){2, 1, 1, 2});
    return 0;
}
