"""lift and the views, against the exact program; buffers are compared whole."""
import collections
import random

import exact
import families
from library import flat

SEED, COUNT = 20261116, 2000


def checks(lib):
    def legal_lifts():
        rng = random.Random(SEED)
        numbers, exponents, steps = collections.Counter(), collections.Counter(), collections.Counter()
        views = done = 0
        while done < COUNT:
            kind, a = next(families.every_kind(rng, 0)) if done < 3 else random_pick(rng)
            n, e = len(a), rng.randrange(exact.need(a), 33)
            s = rng.randrange(5)
            before = [rng.randrange(-9, 10) for _ in range((2 * s + 2) * n * n)]
            blocks = exact.expansion(a, e, s)
            if blocks is None:
                assert lib.lift(n, s, e, flat(a), before) == (6, before), (kind, a, e, s)
                numbers[6] += 1
            else:
                buffer = [v for block in blocks for v in flat(block)]
                assert lib.lift(n, s, e, flat(a), before) == (0, buffer), (kind, a, e, s)
                for j in range(len(blocks)):
                    assert lib.block(n, s, buffer, j) == flat(blocks[j])
                    views += 1
                for j in (len(blocks), len(blocks) + 1, 2**63, 2**64 - 1):
                    assert lib.block(n, s, buffer, j) == []
                assert lib.block(n, s, buffer[:-1], 0) == [] and lib.block(n, s + 1, buffer, 0) == []
                numbers[0] += 1
            exponents[e] += 1
            steps[s] += 1
            done += 1
        assert set(exponents) == set(range(14, 33)) and set(steps) == {0, 1, 2, 3, 4}, (exponents, steps)
        return f"seed {SEED}, {done} lifts, numbers {dict(numbers)}, {len(exponents)} exponents, {views} block views"

    def ties():
        """Remainders of exactly X/2, which random tables hardly meet: +X/2 is the balanced one."""
        starts = [(e, families.tied_start(e, sign)) for e in range(14, 33) for sign in (1, -1)]
        steps = [(e, families.tied_step(e)) for e in (15, 17, 19)]
        for tied, block in ((starts, 0), (steps, 2)):
            for e, a in tied:
                blocks = exact.expansion(a, e, 4)
                assert 2 ** (e - 1) in flat(blocks[block]), (e, a)
                buffer = [v for b in blocks for v in flat(b)]
                assert lib.lift(len(a), 4, e, flat(a), [7] * len(buffer)) == (0, buffer), (e, a)
        return f"{len(starts)} ties of B_0, {len(steps)} of M_0"

    def random_pick(rng):
        n = rng.choice([1, 2, 2, 3, 3, 4, 5, 6, 8, 9, 12, 17, 32])
        limit = rng.choice([1, 2, 9, 100, 2**10, families.LEGAL])
        kind = rng.randrange(4)
        if kind == 0:
            return "random", families.random_table(rng, n, limit)
        if kind == 1:
            return "triangular", families.unit_triangular(rng, n, limit)
        a = families.unimodular(rng, n, limit, 4 * n)
        if kind == 2:
            a = [[v + 2 * rng.randrange(-1, 2) if abs(v) < families.LEGAL - 2 else v for v in row] for row in a]
        return "odd", a

    def refusals_in_order():
        big = 2**64 - 1
        cases = [  # n, s, e, table, length of the buffer, number
            (0, 9, 99, [1], 7, 1), (33, 0, 14, [1], 2, 1), (big, big, 2**32 - 1, [], 0, 1), (2**32 + 1, 0, 14, [1], 2, 1),
            (2, 5, 99, [1], 7, 2), (2, big, 14, [1] * 4, 8, 2), (1, 2**63, 14, [1], 2, 2),
            (2, 0, 99, [1] * 3, 8, 3), (2, 0, 14, [1] * 4, 7, 3), (2, 1, 14, [1] * 4, 8, 3), (1, 4, 14, [1], 2, 3), (2, 0, 14, [2**40] * 5, 8, 3),
            (1, 0, 13, [1048577], 2, 4), (1, 0, 13, [-(2**63)], 2, 4), (1, 0, 33, [2**63 - 1], 2, 4), (2, 0, 0, [0, 0, 0, -1048577], 8, 4),
            (1, 0, 13, [2], 2, 5), (1, 0, 33, [2], 2, 5), (1, 0, 2**32 - 1, [2], 2, 5), (32, 0, 31, [2**20] + [1] * 1023, 2048, 5), (16, 0, 14, [17] * 256, 512, 5),
            (1, 0, 14, [2], 2, 6), (1, 0, 14, [0], 2, 6), (2, 0, 14, [1, 1, 1, -1], 8, 6), (16, 0, 14, [16] * 256, 512, 6),
        ]
        for n, s, e, table, size, number in cases:
            before = list(range(size))
            assert lib.lift(n, s, e, table, before) == (number, before), (n, s, e, number)
        return f"{len(cases)} cases"

    def rows():
        rng = random.Random(SEED)
        seen = 0
        for n in range(1, 33):
            table = [rng.randrange(-(2**63), 2**63) for _ in range(n * n)]
            for i in range(n):
                assert lib.row(n, table, i) == table[i * n:(i + 1) * n]
                seen += 1
            for i in (n, n + 1, 2**63, 2**64 - 1):
                assert lib.row(n, table, i) == []
            assert lib.row(n, table[:-1], 0) == [] and lib.row(n, table + [0], 0) == []
        for n in (0, 33, 2**32, 2**64 - 1):
            assert lib.row(n, [1], 0) == []
        return f"{seen} rows"

    return [legal_lifts, ties, refusals_in_order, rows]
