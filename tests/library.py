"""The built libraries, called from Python through a driver: libprobe (every public call on 8-byte numbers) and libhost (the calls of a C host)."""
import pathlib
import struct

from driver import Driver

VIEW = bytes(8 * 1024)
FIGURES = bytes(8 * 4)


def numbers(values):
    return struct.pack(f"<{len(values)}q", *values)


def values(buffer):
    return list(struct.unpack(f"<{len(buffer) // 8}q", buffer))


def figures(buffer):
    return struct.unpack("<4Q", buffer)


def flat(table):
    return [v for row in table for v in row]


class Library:
    def __init__(self, folder):
        self.folder = pathlib.Path(folder).resolve()
        self.call = Driver(self.folder / "driver").call

    def lift(self, n, s, e, table, buffer):
        """The number, and the buffer as it is left."""
        k, after = self.call("probe_lift", (n, s, e), numbers(table), numbers(buffer))
        return k, values(after)

    def verdict(self, n, table):
        """Number, exponent, lifts."""
        _, told = self.call("probe_verdict", (n,), numbers(table), FIGURES)
        return figures(told)[:3]

    def inverse(self, n, table, buffer):
        """Number, exponent, lifts, and the buffer as it is left."""
        _, after, told = self.call("probe_inverse", (n,), numbers(table), numbers(buffer), FIGURES)
        return figures(told)[:3], values(after)

    def row(self, n, table, i):
        count, out = self.call("probe_row", (n, i), numbers(table), VIEW)
        return values(out)[:count]

    def block(self, n, s, buffer, j):
        count, out = self.call("probe_block", (n, s, j), numbers(buffer), VIEW)
        return values(out)[:count]

    def read(self, text, table):
        """The answer's figures, zeros after them, and the table as it is left."""
        _, after, told = self.call("probe_read", (), text, numbers(table), FIGURES)
        return figures(told), values(after)

    def report(self, text, room):
        return self.call("probe_report", (), text, b"\x5a" * room)

    def host_verdict(self, n, table):
        return self.call("muljenta_verdict", (n,), table)[0]

    def host_inverse(self, n, table, size):
        return self.call("muljenta_inverse", (n,), table, b"\x5a" * size)


def table_bytes(entries):
    return struct.pack(f"<{len(entries)}i", *entries)


inverse_bytes = numbers
