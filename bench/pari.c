/* PARI: ZM_det and ZM_inv, on one thread. What a call leaves on PARI's stack goes when the next one begins. */
#include "bench.h"

#include <pari/pari.h>
#include <stdio.h>

static GEN table, determinant, inverse, divisor;
static pari_sp loaded;

static void begin(void)
{
    static int begun;
    if (begun) return;
    pari_init_opts((size_t)256 << 20, 0, INIT_DFTm | INIT_noIMTm);
    pari_mt_nbthreads = 1;
    pari_mt_init();
    begun = 1;
}

const char *by_pari_version(void)
{
    static char text[32];
    snprintf(text, sizeof text, "PARI %lu.%lu.%lu", (ulong)(paricfg_version_code >> 16), (ulong)(paricfg_version_code >> 8 & 255),
             (ulong)(paricfg_version_code & 255));
    return text;
}

void by_pari_load(size_t n, const int64_t *a)
{
    static pari_sp bottom;
    begin();
    if (!bottom) bottom = avma;
    set_avma(bottom);
    table = cgetg((long)n + 1, t_MAT);
    for (size_t j = 0; j < n; j++) {
        GEN column = cgetg((long)n + 1, t_COL);
        for (size_t i = 0; i < n; i++) gel(column, i + 1) = stoi(a[i * n + j]);
        gel(table, j + 1) = column;
    }
    loaded = avma;
}

void by_pari_determinant(void)
{
    set_avma(loaded);
    determinant = ZM_det(table);
}

int by_pari_is_unit(void)
{
    return is_pm1(determinant);
}

void by_pari_inverse(void)
{
    set_avma(loaded);
    inverse = ZM_inv(table, &divisor);
}

uint32_t by_pari_take(int64_t *out)
{
    uint32_t number = 0;
    long n = lg(table) - 1;
    GEN width = int2n(37);
    if (!inverse) return 7;
    for (long i = 1; i <= n; i++)
        for (long j = 1; j <= n; j++) {
            GEN r, v = dvmdii(gcoeff(inverse, i, j), divisor, &r);
            if (signe(r)) return 7;
            if (abscmpii(v, width) > 0) number = 8;
            else out[(i - 1) * n + j - 1] = itos(v);
        }
    return number;
}
