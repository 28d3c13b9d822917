"""verdict and inverse, through the calls and through the C host's bytes, against the exact program."""
import collections
import random

import exact
import families
from library import flat, inverse_bytes, table_bytes

SEED, COUNT = 20261115, 5000

DETERMINANTS = {  # what the kind of a table says of its determinant's magnitude
    "unimodular": {1}, "triangular": {1}, "det 3": {3}, "det 2^j": {2**j for j in range(1, 6)}, "det 1 mod 2^need": {2**24 + 1},
    "det 1 mod 2^64": {2**64 + 1}, "singular": {0}, "misleading": {1, 3},
}


def checks(lib):
    def verdict_and_inverse():
        rng = random.Random(SEED)
        numbers, kinds = collections.Counter(), collections.Counter()
        for kind, a in families.every_kind(rng, COUNT):
            n, t = len(a), flat(a)
            told, found = exact.inverse(a)
            assert kind not in DETERMINANTS or abs(exact.determinant(a)) in DETERMINANTS[kind], (kind, a)
            assert lib.verdict(n, t) == (0 if told[0] == 8 else told[0], *told[1:]), (kind, a)
            before = [rng.randrange(-9, 10) for _ in range(n * n)]
            assert lib.inverse(n, t, before) == (told, before if found is None else flat(found)), (kind, a)
            assert lib.host_verdict(n, table_bytes(t)) == (7 if told[0] == 7 else 0), (kind, a)
            after = b"\x5a" * (8 * n * n) if found is None else inverse_bytes(flat(found))
            assert lib.host_inverse(n, table_bytes(t), 8 * n * n) == (told[0], after), (kind, a)
            numbers[told[0]] += 1
            kinds[kind] += 1
        assert set(numbers) == {0, 7, 8}, numbers
        return f"seed {SEED}, {sum(kinds.values())} tables of {len(kinds)} kinds, numbers {dict(numbers)}"

    def every_depth():
        """The first zero residue at 0 to 4: tables that one lift fewer would refuse."""
        seen = collections.Counter()
        for n, c in [(1, 1), (2, 2**20), (3, 2**18), (4, 2**20), (5, 2**20), (9, 2**20), (12, 2**20), (17, 2**20), (32, 2**20)]:
            a = families.chain(n, c)
            e, k = exact.need(a), exact.lifts(n)
            residues = exact.expansion(a, e, k)[1::2]
            first = next(i for i, r in enumerate(residues) if not any(flat(r)))
            assert lib.verdict(n, flat(a)) == (0, e, k)
            seen[first] += 1
        assert set(seen) == {0, 1, 2, 3, 4}, seen
        return f"first zero residue: {dict(sorted(seen.items()))}"

    def the_deepest_chain():
        """Order 32, ones on the diagonal and 2^20 just above it: 8, need 32, k 4."""
        a = families.chain(32, 2**20)
        before = [7] * 1024
        assert lib.inverse(32, flat(a), before) == ((8, 32, 4), before)
        return "8 with need 32 and k 4"

    def refusals_in_order():
        big = 2**64 - 1
        cases = [
            (0, [1], 7, 1), (33, [1], 1, 1), (big, [], 0, 1), (2**32 + 2, [1, 0, 0, 1], 4, 1), (2, [1, 2, 3], 4, 3), (2, [1, 2, 3, 4], 3, 3),
            (2, [2**40] * 5, 4, 3), (1, [1048577], 1, 4), (1, [-1048577], 1, 4), (1, [-(2**63)], 1, 4), (1, [2**63 - 1], 1, 4),
        ]
        for n, table, size, number in cases:
            before = list(range(size))
            assert lib.inverse(n, table, before) == ((number, 0, 0), before), (n, table, number)
            if number != 3 or len(table) != n * n:
                assert lib.verdict(n, table) == (number, 0, 0), (n, table, number)
        return f"{len(cases)} cases"

    return [verdict_and_inverse, every_depth, the_deepest_chain, refusals_in_order]
