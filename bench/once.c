/* One call of ours on one table, for the instruction counts: once CALL FAMILY ORDER. */
#include "../include/muljenta.h"
#include "bench.h"

#include <stdio.h>
#include <stdlib.h>
#include <string.h>

int main(int count, char **words)
{
    int64_t table[MOST_CELLS];
    uint8_t bytes[4 * MOST_CELLS], out[8 * MOST_CELLS];
    if (count != 4) return 2;
    size_t n = (size_t)atoi(words[3]);
    int family = 0;
    while (family < FAMILIES && strcmp(words[2], family_names[family])) family++;
    if (family == FAMILIES || n < 2 || n > MOST_ORDER) return 2;
    make_table(family, n, 0, table);
    entry_bytes(n, table, bytes);
    if (!strcmp(words[1], "verdict")) printf("%u\n", muljenta_verdict(n, bytes, 4 * n * n));
    else printf("%u\n", muljenta_inverse(n, bytes, 4 * n * n, out, 8 * n * n));
    return 0;
}
