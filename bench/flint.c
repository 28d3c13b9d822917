/* FLINT: fmpz_mat_det and fmpz_mat_inv. */
#include "bench.h"

#include <flint/flint.h>
#include <flint/fmpz.h>
#include <flint/fmpz_mat.h>

static fmpz_mat_t table, inverse;
static fmpz_t determinant, denominator;
static int loaded, invertible;

const char *by_flint_version(void)
{
    return "FLINT " FLINT_VERSION;
}

void by_flint_load(size_t n, const int64_t *a)
{
    if (loaded) {
        fmpz_mat_clear(table);
        fmpz_mat_clear(inverse);
    } else {
        fmpz_init(determinant);
        fmpz_init(denominator);
        loaded = 1;
    }
    fmpz_mat_init(table, (slong)n, (slong)n);
    fmpz_mat_init(inverse, (slong)n, (slong)n);
    for (size_t t = 0; t < n * n; t++) fmpz_set_si(fmpz_mat_entry(table, (slong)(t / n), (slong)(t % n)), a[t]);
}

void by_flint_determinant(void)
{
    fmpz_mat_det(determinant, table);
}

int by_flint_is_unit(void)
{
    return fmpz_is_pm1(determinant);
}

void by_flint_inverse(void)
{
    invertible = fmpz_mat_inv(inverse, denominator, table);
}

uint32_t by_flint_take(int64_t *out)
{
    uint32_t number = 0;
    slong n = fmpz_mat_nrows(table);
    fmpz_t v;
    if (!invertible) return 7;
    fmpz_init(v);
    for (slong t = 0; t < n * n && number != 7; t++) {
        const fmpz *entry = fmpz_mat_entry(inverse, t / n, t % n);
        if (!fmpz_divisible(entry, denominator)) {
            number = 7;
        } else {
            fmpz_divexact(v, entry, denominator);
            if (fmpz_cmp_si(v, -WIDTH) < 0 || fmpz_cmp_si(v, WIDTH) > 0) number = 8;
            else out[t] = fmpz_get_si(v);
        }
    }
    fmpz_clear(v);
    return number;
}
