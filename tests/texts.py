"""The reader and the report of certify, byte by byte, against a reader written from the grammar and the exact program."""
import collections
import random

import exact
import grammar
from library import flat

SEED, COUNT, ROOM = 20261117, 5000, 14352  # so much room holds every report

CASES = [  # document 01, 'Tried by hand'
    (b"", (9, 1, 1, 2)), (b"33", (9, 1, 2, 1)), (b"1\n1048577", (9, 2, 7, 1)), (b"2\n1 0\n0 01", (9, 3, 4, 1)), (b"1\n1", (9, 2, 2, 2)),
    (b"1\n1\n\n", (9, 3, 1, 1)),
]
THIN = b"3\n1 262144 0\n0 1 524288\n0 0 1\n"
THIN_REPORT = b"0 3 25 1\n1 -262144 137438953472\n0 1 -524288\n0 0 1\n"


def report(text, found):
    """What certify prints for a text that parses so."""
    if found[0] != "sheet":
        return " ".join(map(str, grammar.figures(text, found))).encode() + b"\n"
    n, entries = found[1], found[2]
    told, inverse = exact.inverse([entries[i * n:(i + 1) * n] for i in range(n)])
    lines = [[told[0], n, *told[1:]]] + (inverse or [])
    return "".join(" ".join(map(str, line)) + "\n" for line in lines).encode()


def sheet(rng):
    n = rng.choice([1, 1, 2, 2, 3, 4, 5, 8, 9, 17, 32])
    pick = lambda: rng.choice([0, 1, -1, 2**20, -(2**20), rng.randrange(-(2**20), 2**20 + 1), rng.randrange(-99, 100)])
    return grammar.written(n, [pick() for _ in range(n * n)])


def damaged(rng, text):
    kind = rng.randrange(9)
    at = rng.randrange(len(text) + 1)
    byte = bytes([rng.choice([0, 9, 10, 13, 32, 43, 45, 48, 49, 57, 58, 127, 128, 255, rng.randrange(256)])])
    if kind == 0:
        return text[:at] + byte + text[at:]
    if kind == 1:
        return text[:at] + text[at + 1:]
    if kind == 2:
        return text[:at] + byte + text[at + 1:]
    if kind == 3:
        return text[:at]
    if kind == 4:
        return text.replace(b"\n", b"\r\n")
    if kind == 5:
        return text.replace(b" ", b"\t", 1)
    if kind == 6:
        return text[:at] + b"9" * rng.choice([1, 7, 20, 400]) + text[at:]
    if kind == 7:
        return text + rng.choice([b"\n", b" ", b"0", b"\x00", text])
    return text[:at] + bytes(rng.randrange(256) for _ in range(rng.randrange(1, 6))) + text[at:]


def checks(lib):
    before = list(range(1, 1025))

    def agrees(text):
        found = grammar.parse(text)
        figures = grammar.figures(text, found)
        after = before if figures[0] else found[2] + before[len(found[2]):]
        assert lib.read(text, before) == (figures, after), text[:200]
        count, out = lib.report(text, ROOM)
        assert out[:count] == report(text, found) and set(out[count:]) <= {0x5A}, text[:200]
        return figures

    def cases_of_the_document():
        for text, figures in CASES:
            assert agrees(text) == figures, text
        assert agrees(THIN) == (0, 3, 0, 0) and report(THIN, grammar.parse(THIN)) == THIN_REPORT
        return f"{len(CASES) + 1} texts"

    def damaged_sheets():
        rng = random.Random(SEED)
        seen = collections.Counter()
        for _ in range(COUNT):
            text = sheet(rng)
            for _ in range(rng.randrange(3)):
                text = damaged(rng, text)
            figures = agrees(text)
            seen[figures[0], figures[3]] += 1
        assert set(seen) == {(0, 0), (9, 1), (9, 2)}, seen
        return f"seed {SEED}, {COUNT} texts: {seen[0, 0]} sheets, {seen[9, 1]} by a byte, {seen[9, 2]} by the end"

    def every_beginning():
        rng = random.Random(SEED + 1)
        count = 0
        for text in (THIN, sheet(rng), sheet(rng)):
            for at in range(len(text) + 1):
                agrees(text[:at])
                count += 1
        return f"{count} texts"

    def huge_texts():
        rng = random.Random(SEED + 2)
        long = grammar.written(32, [-(2**20)] * 1024)
        assert len(long) == 9219
        noise = bytes(rng.randrange(256) for _ in range(1000)) * 10000
        for text in (long, long + b"\n", long[:-1] + b" ", b"1\n" + b"0" * 10**7, b"\n" * 10**7, noise, long + noise):
            agrees(text)
        return "7 texts, up to 10 MB"

    def tables_of_another_length():
        for size in (0, 1, 9, 1023, 1025):
            for text in (THIN, b"", b"x"):
                table = list(range(size))
                assert lib.read(text, table) == ((3, 0, 0, 0), table)
        return "15 calls"

    def outputs_of_another_length():
        for text in (THIN, b"", b"x"):
            for room in (0, 1, len(THIN_REPORT), ROOM - 1):
                assert lib.report(text, room) == (0, b"\x5a" * room), (text, room)
            whole = report(text, grammar.parse(text))
            assert lib.report(text, 20000) == (len(whole), whole + b"\x5a" * (20000 - len(whole))), text
        return "15 calls"

    return [cases_of_the_document, damaged_sheets, every_beginning, huge_texts, tables_of_another_length, outputs_of_another_length]
