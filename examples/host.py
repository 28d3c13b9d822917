"""A host in Python: the inverse of a table of order 2, and a table that has none. usage: host.py LIBRARY
   mkdir -p target && gcc -shared -o target/libhost.so -Wl,--whole-archive crates/host/out/libhost.a -Wl,--no-whole-archive"""
import ctypes
import struct
import sys

library = ctypes.CDLL(sys.argv[1])
library.muljenta_inverse.restype = ctypes.c_uint32


def inverse(n, entries):
    """The number, and after 0 the inverse."""
    table = struct.pack(f"<{n * n}i", *entries)
    out = ctypes.create_string_buffer(8 * n * n)
    size = ctypes.c_size_t
    number = library.muljenta_inverse(size(n), table, size(len(table)), out, size(len(out)))
    return number, struct.unpack(f"<{n * n}q", out) if number == 0 else ()


for entries in ([2, 1, 1, 1], [2, 1, 1, 2]):
    number, found = inverse(2, entries)
    print(number, *found)
