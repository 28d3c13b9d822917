"""Tables of every kind that a build might get wrong, each a pair (what it is, the table)."""
import exact

LEGAL, WIDTH = 2**20, 2**37


def diagonal(values):
    return [[v if i == j else 0 for j in range(len(values))] for i, v in enumerate(values)]


def unimodular(rng, n, limit, steps):
    """A product of row operations, kept within the limit, with rows and columns in any order."""
    a = exact.identity(n)
    for _ in range(steps):
        i, j = rng.randrange(n), rng.randrange(n)
        if i == j:
            a[i] = [-v for v in a[i]]
            continue
        c = rng.choice([-1, 1, rng.randrange(-9, 10), rng.randrange(-limit, limit + 1)])
        new = [v + c * w for v, w in zip(a[i], a[j])]
        if max(map(abs, new)) <= limit:
            a[i] = new
    return shuffled(rng, a)


def shuffled(rng, a):
    a = [row[:] for row in a]
    rng.shuffle(a)
    columns = list(range(len(a)))
    rng.shuffle(columns)
    return [[row[j] for j in columns] for row in a]


def disguised(rng, a, limit=LEGAL, steps=None):
    """The same determinant up to sign: some row operations within the limit."""
    n = len(a)
    a = [row[:] for row in a]
    for _ in range(steps or 2 * n):
        i, j, c = rng.randrange(n), rng.randrange(n), rng.choice([-2, -1, 1, 2])
        new = [v + c * w for v, w in zip(a[i], a[j])]
        if i != j and max(map(abs, new)) <= limit:
            a[i] = new
    return shuffled(rng, a)


def random_table(rng, n, limit):
    return [[rng.randrange(-limit, limit + 1) for _ in range(n)] for _ in range(n)]


def unit_triangular(rng, n, limit):
    return shuffled(rng, [[1 if i == j else rng.randrange(-limit, limit + 1) if j > i else 0 for j in range(n)] for i in range(n)])


def chain(n, c, sign=1):
    """Ones on the diagonal, c just above it: the inverse has entries up to c^(n-1)."""
    return [[1 if i == j else sign * c if j == i + 1 else 0 for j in range(n)] for i in range(n)]


def determinant(rng, d, n):
    """A disguised table of order n and determinant ±d, where d is a product of legal numbers."""
    factors, rest = [], d
    for p in range(2, 10**6):
        while rest % p == 0:
            factors.append(p)
            rest //= p
        if rest == 1:
            break
    values = [1] * n
    for f in sorted(factors, reverse=True):
        i = min(range(n), key=lambda i: values[i])
        values[i] *= f
    assert max(values) <= LEGAL, d
    return disguised(rng, diagonal(values))


def at_the_width(entry):
    """An inverse with exactly this corner, near ±2^37: it is the product of two entries less a third."""
    p, q = 2**18 if entry > 0 else -(2**18), 2**19
    return [[1, p, p * q - entry], [0, 1, q], [0, 0, 1]]


def float_determinant(table):
    """By a float64 elimination with the largest pivots."""
    a = [[float(v) for v in row] for row in table]
    determinant = 1.0
    for c in range(len(a)):
        p = max(range(c, len(a)), key=lambda r: abs(a[r][c]))
        if a[p][c] == 0:
            return 0.0
        if p != c:
            a[p], a[c] = a[c], a[p]
            determinant = -determinant
        determinant *= a[c][c]
        for r in range(c + 1, len(a)):
            factor = a[r][c] / a[c][c]
            a[r] = [x - factor * y for x, y in zip(a[r], a[c])]
    return determinant


def misleading(rng):
    """A table of determinant ±1 or ±3 of which a float64 elimination makes another number."""
    while True:
        n, d = rng.choice([3, 4, 5, 6, 8]), rng.choice([1, 3])
        a = disguised(rng, diagonal([d] + [1] * (n - 1)), steps=40 * n)
        if round(abs(float_determinant(a))) != d:
            return a


def tied_start(e, sign):
    """A table of order 3 whose inverse has the corner sign·X/2, for X = 2^e: a tie of B_0."""
    i = min(20, e - 6)
    return [[1, 2**i, 0], [0, 1, sign * 2 ** (e - 1 - i)], [0, 0, 1]]


def tied_step(e):
    """The least odd number whose expansion at exponent e has a tie in M_0, that is B_0·R_0² = X/2 modulo X. e is odd: R_0² is a square."""
    x = 2**e
    for a in range(1, 2 ** (e - 2), 2):
        b = exact.balanced(pow(a, -1, x), x)
        if b * ((1 - a * b) // x) ** 2 % x == x // 2:
            return [[a]]


def every_kind(rng, count):
    """At least `count` tables."""
    fixed = [("identity", exact.identity(n)) for n in range(1, 33)]
    fixed += [("minus identity", [[-v for v in row] for row in exact.identity(n)]) for n in (1, 2, 31, 32)]
    fixed += [("zero", [[0] * n for _ in range(n)]) for n in (1, 2, 32)]
    fixed += [("all at the limit", [[LEGAL] * n for _ in range(n)]) for n in (1, 2, 32)]
    fixed += [("chain", chain(n, c, s)) for n in (2, 3, 4, 5, 8, 9, 16, 17, 32) for c in (1, 2, 2**10, LEGAL) for s in (1, -1)]
    fixed += [("at the width", at_the_width(v)) for v in (WIDTH, -WIDTH, WIDTH - 1, -(WIDTH - 1))]
    fixed += [("past the width", at_the_width(v)) for v in (WIDTH + 1, -(WIDTH + 1), WIDTH + 2**19)]
    fixed += [("determinant 1 modulo 2^19", [[24929, 0], [0, 673]])]
    yield from fixed
    made = len(fixed)
    kinds = ["unimodular", "random", "odd", "triangular", "det 3", "det 2^j", "det 1 mod 2^need", "det 1 mod 2^64", "singular", "misleading", "one entry off"]
    while made < count:
        kind = kinds[made % len(kinds)]
        n = rng.choice([1, 2, 2, 3, 3, 4, 4, 5, 6, 7, 8, 9, 10, 12, 16, 17, 24, 32] if made % 3 else [2, 3, 4, 5])
        limit = rng.choice([1, 2, 9, 100, 2**10, LEGAL])
        if kind == "unimodular":
            yield kind, unimodular(rng, n, limit, 6 * n)
        elif kind == "random":
            yield kind, random_table(rng, n, limit)
        elif kind == "odd":
            a = unimodular(rng, n, limit, 4 * n)
            yield kind, [[v + 2 * rng.randrange(-1, 2) if abs(v) < LEGAL - 2 else v for v in row] for row in a]
        elif kind == "triangular":
            yield kind, unit_triangular(rng, n, limit)
        elif kind == "det 3":
            yield kind, determinant(rng, 3, n)
        elif kind == "det 2^j":
            yield kind, determinant(rng, 2 ** rng.randrange(1, 6), n)
        elif kind == "det 1 mod 2^need":
            yield kind, disguised(rng, diagonal([24929, 673] + [1] * max(0, n - 2)), 24929)
        elif kind == "det 1 mod 2^64":
            yield kind, disguised(rng, fermat(max(n, 4)))
        elif kind == "singular":
            a = random_table(rng, n, max(1, limit // 2))
            a[-1] = [sum(column) for column in zip(*a[:2])] if n > 2 else [0] if n == 1 else a[0][:]
            yield kind, shuffled(rng, a)
        elif kind == "misleading":
            yield kind, misleading(rng)
        else:
            a = unimodular(rng, n, limit, 6 * n)
            i, j = rng.randrange(n), rng.randrange(n)
            a[i][j] = max(-LEGAL, min(LEGAL, a[i][j] + rng.choice([-2, -1, 1, 2])))
            yield kind, a
        made += 1


def fermat(n):
    """A table of order n >= 4 with determinant 2^64 + 1, which is 1 modulo 2^64: a cycle of four entries whose product is -2^64, an odd permutation."""
    a = exact.identity(n)
    for i in range(4):
        a[i][(i + 1) % 4] = 2**16 if i else -(2**16)
    return a
