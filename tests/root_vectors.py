#!/usr/bin/env python3
"""Vectors for the program roots_run: patterns of doubles, and the patterns of their roots.

root_vectors.py              writes crates/roots_run/stdin and stdout, 4,000 patterns
root_vectors.py COUNT DIR    writes DIR/stdin and DIR/stdout with COUNT patterns

The roots are math.sqrt's, which is the C library's and correctly rounded. The seed is fixed. A NaN is printed as 7FF8000000000000.
"""
import math
import os
import random
import struct
import sys

QUIET = 0x7FF8000000000000
SIGN = 1 << 63


def root(b):
    x = struct.unpack("<d", struct.pack("<Q", b))[0]
    if x != x or x < 0:
        return QUIET
    return struct.unpack("<Q", struct.pack("<d", math.sqrt(x)))[0]


def pattern(x):
    return struct.unpack("<Q", struct.pack("<d", x))[0]


def edges():
    out = [0, SIGN, 1, 2, 3, SIGN | 1, (1 << 52) - 1, 1 << 52, (1 << 52) + 1]
    out += [0x7FEFFFFFFFFFFFFF, 0xFFEFFFFFFFFFFFFF, 0x7FF0000000000000, 0xFFF0000000000000]
    out += [QUIET, QUIET | SIGN, 0x7FF0000000000001, 0xFFF0000000000001, 0x7FFFFFFFFFFFFFFF, 0xFFFFFFFFFFFFFFFF]
    out += [0x4000000000000000, 0x4010000000000000]
    out += [1 << k for k in range(52)] + [(1 << k) - 1 for k in range(2, 53)]  # subnormals
    for field in range(1, 2047, 8):  # both ends of a binade, and a power of two
        out += [field << 52, (field << 52) + 1, (field << 52) + (1 << 52) - 1]
    return out


def near_squares(rand, n):
    out = []
    for _ in range(n):
        r = rand.randrange(1 << rand.randrange(1, 28))
        b = pattern(float(r * r))
        out += [b, b + 1, b - 1 if b else 0]
    return out


def near_half_way(rand, n):
    """Roots that lie as near to the middle of two doubles as can be: (2 q + 1)^2 / 4, to the nearest double and beside it."""
    out = []
    for _ in range(n):
        q = rand.randrange(1 << 52, 1 << 53)
        b = pattern(float((2 * q + 1) ** 2))
        out += [b, b + 1, b - 1]
    return out


def patterns(count):
    rand = random.Random(20240607)
    out = edges() + near_squares(rand, count // 12) + near_half_way(rand, count // 12)
    while len(out) < count:
        out.append(rand.getrandbits(63) if rand.randrange(16) else rand.getrandbits(64))
    return out[:count]


def write(folder, count):
    bits = patterns(count)
    with open(os.path.join(folder, "stdin"), "wb") as f:
        f.write(b"".join(struct.pack("<Q", b) for b in bits))
    with open(os.path.join(folder, "stdout"), "w") as f:
        f.write("".join("%016X\n" % root(b) for b in bits))


if __name__ == "__main__":
    here = os.path.dirname(os.path.abspath(__file__))
    if len(sys.argv) == 3:
        write(sys.argv[2], int(sys.argv[1]))
    else:
        write(os.path.join(here, "..", "crates", "roots_run"), 4000)
