"""An exact program that knows only the definitions of the rules: big integers, elimination without fractions."""

NOTHING = None


def product(a, b):
    return [[sum(x * y for x, y in zip(row, col)) for col in zip(*b)] for row in a]


def identity(n):
    return [[int(i == j) for j in range(n)] for i in range(n)]


def whole_inverse(a):
    """The whole-number inverse, or None: Bareiss elimination of (a | I), every division exact."""
    n = len(a)
    m = [row[:] + unit for row, unit in zip(a, identity(n))]
    last = 1
    for k in range(n):
        pivot = next((i for i in range(k, n) if m[i][k]), NOTHING)
        if pivot is NOTHING:
            return NOTHING
        m[k], m[pivot] = m[pivot], m[k]
        for i in range(n):
            if i != k:
                m[i] = [(m[k][k] * x - m[i][k] * y) // last for x, y in zip(m[i], m[k])]
        last = m[k][k]
    # each row is now last·(row of I | row of the inverse)
    if any(x % last for row in m for x in row[n:]):
        return NOTHING
    inverse = [[x // last for x in row[n:]] for row in m]
    assert product(a, inverse) == identity(n)
    return inverse


def determinant(a):
    """By Bareiss's elimination, every division exact."""
    m, last, sign = [row[:] for row in a], 1, 1
    for k in range(len(m)):
        pivot = next((i for i in range(k, len(m)) if m[i][k]), NOTHING)
        if pivot is NOTHING:
            return 0
        if pivot != k:
            m[k], m[pivot], sign = m[pivot], m[k], -sign
        for i in range(k + 1, len(m)):
            m[i] = [(m[k][k] * x - m[i][k] * y) // last for x, y in zip(m[i], m[k])]
        last = m[k][k]
    return sign * last


def inverse_mod(a, e):
    """An inverse modulo 2^e, or None: elimination with odd pivots."""
    n, x = len(a), 1 << e
    m = [[v % x for v in row] + unit for row, unit in zip(a, identity(n))]
    for k in range(n):
        pivot = next((i for i in range(k, n) if m[i][k] % 2), NOTHING)
        if pivot is NOTHING:
            return NOTHING
        m[k], m[pivot] = m[pivot], m[k]
        unit = pow(m[k][k], -1, x)
        m[k] = [v * unit % x for v in m[k]]
        for i in range(n):
            if i != k:
                f = m[i][k]
                m[i] = [(v - f * w) % x for v, w in zip(m[i], m[k])]
    return [row[n:] for row in m]


def balanced(v, x):
    """The number congruent to v modulo x from -x/2 (excluded) to x/2."""
    r = v % x
    return r - x if 2 * r > x else r


def height(a):
    return max(1, max(abs(v) for row in a for v in row))


def need(a):
    n, h, e = len(a), height(a), 14
    while 2**e < 4 * n * n * h:
        e += 1
    return e


def lifts(n):
    k = 0
    while 2 ** (k + 1) < n:
        k += 1
    return k


def exactly(v, x):
    assert v % x == 0
    return v // x


def expansion(a, e, s):
    """The blocks B_0, R_0, M_0, R_1, .. R_s, or None; the rules' equations and bound are asserted."""
    n, x, h = len(a), 1 << e, height(a)
    found = inverse_mod(a, e)
    if found is NOTHING:
        return NOTHING
    base = [[balanced(v, x) for v in row] for row in found]
    unit, p = identity(n), product(a, base)
    residue = [[exactly(unit[i][j] - p[i][j], x) for j in range(n)] for i in range(n)]
    blocks = [base, residue]
    for _ in range(s):
        square = product(residue, residue)
        digit = [[balanced(v, x) for v in row] for row in product(base, square)]
        p = product(a, digit)
        residue = [[exactly(square[i][j] - p[i][j], x) for j in range(n)] for i in range(n)]
        blocks += [digit, residue]
    assert all(5 * abs(v) <= 3 * n * h for block in blocks[1::2] for row in block for v in row)
    return blocks


LEGAL, WIDTH = 2**20, 2**37


def verdict(a):
    """Number, exponent, lifts, for a table that is legal."""
    return (0 if whole_inverse(a) is not NOTHING else 7, need(a), lifts(len(a)))


def inverse(a):
    """The same of the inverse call, and the inverse after 0."""
    found = whole_inverse(a)
    values = (need(a), lifts(len(a)))
    if found is NOTHING:
        return (7, *values), NOTHING
    if any(abs(v) > WIDTH for row in found for v in row):
        return (8, *values), NOTHING
    return (0, *values), found
