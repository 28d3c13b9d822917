/* Muljenta for a host in C: does a square table of whole numbers have a whole-number inverse, and which. */
#ifndef MULJENTA_H
#define MULJENTA_H

#include <stddef.h>
#include <stdint.h>

#define MULJENTA_VERSION "1.1.0"

#ifdef __cplusplus
extern "C" {
#endif

/*
 * n is the order of the table, 1 to 32. The table holds n * n entries, row by row, each from -2^20 to 2^20, in four
 * bytes, two's complement, least byte first: 4 * n * n bytes. The inverse holds n * n entries, row by row, each from
 * -2^37 to 2^37, in eight bytes, two's complement, least byte first: 8 * n * n bytes.
 *
 * Each call gives one of these numbers, the lowest that applies:
 *
 *   MULJENTA_DONE        0  there is an inverse; muljenta_inverse has written it to out
 *   MULJENTA_ORDER       1  n is not 1 to 32
 *   MULJENTA_LENGTH      3  table_bytes is not 4 * n * n, or out_bytes is not 8 * n * n
 *   MULJENTA_ENTRY       4  an entry is not from -2^20 to 2^20
 *   MULJENTA_NO_INVERSE  7  there is no whole-number inverse
 *   MULJENTA_TOO_WIDE    8  there is one, and some entry of it is not from -2^37 to 2^37 (muljenta_inverse only)
 *
 * After any number but 0, out is as it was. The table is never changed.
 *
 * table and out must not overlap. No alignment is needed, and a null pointer is fine where the length is 0; else the
 * pointer and the length must be those of a buffer that lives through the call.
 *
 * A call uses at most 64 KiB of stack. It allocates nothing and keeps no state, so calls on different threads need no
 * lock as long as no thread writes to a buffer that another one's call is using.
 */
enum {
    MULJENTA_DONE = 0,
    MULJENTA_ORDER = 1,
    MULJENTA_LENGTH = 3,
    MULJENTA_ENTRY = 4,
    MULJENTA_NO_INVERSE = 7,
    MULJENTA_TOO_WIDE = 8
};

/* Whether there is an inverse, of any width: 0 for yes, 7 for no, or 1, 3 or 4. */
uint32_t muljenta_verdict(size_t n, const uint8_t *table, size_t table_bytes);

/* The inverse, written to out after 0 only. */
uint32_t muljenta_inverse(size_t n, const uint8_t *table, size_t table_bytes, uint8_t *out, size_t out_bytes);

#ifdef __cplusplus
}
#endif

#endif
