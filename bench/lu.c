/* A determinant in float64, by elimination with partial pivoting. It is fast, and wrong on some tables. */
#include "bench.h"

#include <math.h>

double lu_determinant(size_t n, const int64_t *a)
{
    double m[MOST_ORDER][MOST_ORDER], d = 1;
    for (size_t i = 0; i < n; i++)
        for (size_t j = 0; j < n; j++) m[i][j] = (double)a[i * n + j];
    for (size_t c = 0; c < n; c++) {
        size_t p = c;
        for (size_t i = c + 1; i < n; i++)
            if (fabs(m[i][c]) > fabs(m[p][c])) p = i;
        if (m[p][c] == 0) return 0;
        if (p != c) {
            d = -d;
            for (size_t j = c; j < n; j++) {
                double v = m[p][j];
                m[p][j] = m[c][j];
                m[c][j] = v;
            }
        }
        d *= m[c][c];
        for (size_t i = c + 1; i < n; i++) {
            double f = m[i][c] / m[c][c];
            for (size_t j = c + 1; j < n; j++) m[i][j] -= f * m[c][j];
        }
    }
    return d;
}
