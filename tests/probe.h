/* The calls of libprobe: every public call of the library on 8-byte numbers, each buffer with its count. */
#ifndef PROBE_H
#define PROBE_H

#include <stddef.h>
#include <stdint.h>

uint32_t probe_lift(size_t n, size_t lifts, uint32_t exponent, const int64_t *table, size_t table_count,
                    int64_t *expansion, size_t expansion_count);
void probe_verdict(size_t n, const int64_t *table, size_t table_count, uint64_t *figures, size_t figures_count);
void probe_inverse(size_t n, const int64_t *table, size_t table_count, int64_t *out, size_t out_count,
                   uint64_t *figures, size_t figures_count);
size_t probe_row(size_t n, const int64_t *table, size_t table_count, size_t i, int64_t *out, size_t out_count);
size_t probe_block(size_t n, size_t lifts, const int64_t *expansion, size_t expansion_count, size_t j, int64_t *out,
                   size_t out_count);
void probe_read(const uint8_t *text, size_t text_bytes, int64_t *table, size_t table_count, uint64_t *figures,
                size_t figures_count);
size_t probe_report(const uint8_t *text, size_t text_bytes, uint8_t *out, size_t out_bytes);

#endif
