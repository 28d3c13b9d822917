// NTL: determinant, and inv with its denominator, both as they are by default.
#include "bench.h"

#include <NTL/mat_ZZ.h>
#include <NTL/version.h>

static NTL::mat_ZZ table, inverse;
static NTL::ZZ det, denominator;

const char *by_ntl_version(void)
{
    return "NTL " NTL_VERSION;
}

void by_ntl_load(size_t n, const int64_t *a)
{
    table.SetDims((long)n, (long)n);
    for (size_t t = 0; t < n * n; t++) table[(long)(t / n)][(long)(t % n)] = (long)a[t];
}

void by_ntl_determinant(void)
{
    NTL::determinant(det, table);
}

int by_ntl_is_unit(void)
{
    return det == 1 || det == -1;
}

void by_ntl_inverse(void)
{
    NTL::inv(denominator, inverse, table);
}

uint32_t by_ntl_take(int64_t *out)
{
    uint32_t number = 0;
    long n = table.NumRows();
    NTL::ZZ v, width = NTL::power2_ZZ(37);
    if (NTL::IsZero(denominator)) return 7;
    for (long t = 0; t < n * n; t++) {
        if (!NTL::divide(v, inverse[t / n][t % n], denominator)) return 7;
        if (NTL::abs(v) > width) number = 8;
        else out[t] = NTL::to_long(v);
    }
    return number;
}
