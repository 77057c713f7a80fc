#!/usr/bin/env python3
"""Pairs of nets and gaps for `clearing_run` and its reference.

usage: clearing_vectors.py SEED COUNT [most points of a net] > FILE

The file has words of 64 bits, low byte first: the number of pairs; then of each the two widths, the gap, and the nets of
four numbers a point. Pairs are drawn by the kinds below, each in turn. crates/clearing_run/stdin is the output for
"7 300 3"; its stdout is what the reference, rust/clearing_driver.rs, prints for it.
"""
import math
import random
import struct
import sys

INF, NAN = float('inf'), float('nan')
MOST = 2.0 ** 25
ODD = [0.0, -0.0, INF, -INF, NAN, 5e-324, -5e-324, 2.0 ** -537, 2.0 ** -538, 1e-308, 1.7e308, -1.7e308, MOST, -MOST,
       math.nextafter(MOST, INF), math.nextafter(-MOST, -INF), 2.0 ** 24, 1.0, -1.0, 2.0 ** 511, 2.0 ** 512]


def number(r, scale):
    return r.uniform(-1, 1) * scale


def whole(r):
    return float(r.randint(-4, 4))


def net(points, weights=None):
    """Homogeneous numbers of Euclidean points."""
    out = []
    for i, p in enumerate(points):
        w = 1.0 if weights is None else weights[i]
        out += [p[0] * w, p[1] * w, p[2] * w, w]
    return out


def cloud(r, n, at, size):
    return [[at[c] + number(r, size) for c in range(3)] for _ in range(n)]


def on_line(r, n, start, way, most=1.0):
    ts = sorted(r.uniform(0, most) for _ in range(n))
    return [[start[c] + t * way[c] for c in range(3)] for t in ts]


def grid_line(r, n, start, way):
    return [[start[c] + k * way[c] for c in range(3)] for k in sorted(r.randint(0, 8) for _ in range(n))]


def weights(r, n):
    k = r.randrange(4)
    if k == 0:
        return None
    if k == 1:
        return [2.0 ** r.randint(-10, 10) for _ in range(n)]
    return [r.uniform(2.0 ** -10, 2.0 ** 10) if k == 2 else r.uniform(0.5, 2) for _ in range(n)]


def gap(r, size):
    return r.choice([0.0, -0.0, 5e-324, 1e-12, 1e-9, 1e-6 * size, 0.1 * size, 0.5, 1.0, size, 2.0 ** 24, r.uniform(0, 2) * size])


def apart(r, v, w):
    """Clouds at some distance."""
    size = 10.0 ** r.uniform(-6, 6)
    d = r.uniform(0, 4) * size
    way = [number(r, 1) for _ in range(3)]
    return net(cloud(r, v, [0, 0, 0], size), weights(r, v)), net(cloud(r, w, [d * x for x in way], size), weights(r, w)), gap(r, size)


def same(r, v, w):
    """One net twice, or all points at one place."""
    p = cloud(r, v, [number(r, 100) for _ in range(3)], r.choice([0, 1, 1e-9, 1e6]))
    a = net(p, weights(r, v))
    return a, list(a), gap(r, 1.0)


def collinear(r, v, w):
    """Points along one line, over each other or beyond each other."""
    if r.random() < 0.5:
        way, start = [whole(r) for _ in range(3)], [whole(r) for _ in range(3)]
        k = r.randint(-12, 12)
        a = grid_line(r, v, start, way)
        b = grid_line(r, w, [start[c] + k * way[c] for c in range(3)], way)
    else:
        size = 10.0 ** r.uniform(-8, 6)
        way, start = [number(r, size) for _ in range(3)], [number(r, size) for _ in range(3)]
        k = r.uniform(-2, 2)
        a = on_line(r, v, start, way)
        b = on_line(r, w, [start[c] + k * way[c] for c in range(3)], way)
    return net(a), net(b), r.choice([0.0, 1e-16, 1e-12, 1e-9, 1e-3, 0.25, 0.5, 1.0, 3.0, 2.0 ** 24])


def parallel(r, v, w):
    """Equal or opposite ways, the second beside the first: the normal of both chords is zero."""
    way, start = [whole(r) for _ in range(3)], [whole(r) for _ in range(3)]
    off = [whole(r) for _ in range(3)]
    k = r.choice([1.0, -1.0, 2.0, 0.5])
    a = [[start[c] + way[c] * (i / (v - 1 or 1)) for c in range(3)] for i in range(v)]
    b = [[start[c] + off[c] + k * way[c] * (i / (w - 1 or 1)) for c in range(3)] for i in range(w)]
    return net(a), net(b), r.choice([0.0, 0.5, 1.0, 1.5, 2.0, math.sqrt(2), math.nextafter(math.sqrt(2), 0), 3.0])


def skew(r, v, w):
    """Lines that pass each other at a distance near the gap."""
    d = r.choice([1.0, 0.5, 2.0, 1e-3, 2.0 ** 20])
    a = [[-d + 2 * d * i / (v - 1 or 1), 0.0, 0.0] for i in range(v)]
    b = [[0.0, -d + 2 * d * i / (w - 1 or 1), d] for i in range(w)]
    if r.random() < 0.5:
        t = r.uniform(0, 2 * math.pi)
        s, c = math.sin(t), math.cos(t)
        a, b = ([[c * x - s * z, y, s * x + c * z] for x, y, z in p] for p in (a, b))
    g = r.choice([d, math.nextafter(d, 0), math.nextafter(d, INF), d / 2, 0.0])
    return net(a), net(b), g


def near_gap(r):
    """Two ends and a gap where the sum and the difference may answer differently."""
    for _ in range(100):
        x, g = r.uniform(0, 1), r.uniform(0, 2)
        far = math.nextafter(x + g, INF) if r.random() < 0.5 else x + g
        if (far > x + g) != (far - x > g):
            break
    return x, g, far


def boxed(r, v, w):
    """Boxes whose distance is the gap, or an ulp off it; sizes that differ by an ulp."""
    g = r.choice([0.0, 0.5, 1.0, 0.1, 1e-9, 2.0 ** 24])
    x = r.choice([0.0, 0.1, 1.0, 2.0 ** 20, 0.3])
    far = r.choice([x + g, math.nextafter(x + g, INF), math.nextafter(x + g, -INF)])
    if r.random() < 0.4:
        x, g, far = near_gap(r)
    c = r.randrange(3)
    y = r.choice([1.0, math.nextafter(1.0, 2), math.nextafter(1.0, 0)])
    a = [[0.0] * 3 for _ in range(v)]
    b = [[0.0] * 3 for _ in range(w)]
    for p in a[1:]:
        p[c] = x
        p[(c + 1) % 3] = 1.0
    for i, p in enumerate(b):
        p[c] = far if i == 0 else far + x
        p[(c + 1) % 3] = 0.0 if i == 0 else y
    return (net(a), net(b), g) if r.random() < 0.5 else (net(b), net(a), g)


def scaled(r, v, w):
    """Huge and tiny: products that overflow or underflow."""
    e, f = r.randint(-1074, 20), r.randint(-1074, 24)
    a = cloud(r, v, [0, 0, 0], 2.0 ** e)
    b = cloud(r, w, [number(r, 2.0 ** f)] * 3, 2.0 ** e)
    return net(a), net(b), r.choice([0.0, 5e-324, 2.0 ** e, 2.0 ** f, 1.0])


def odd(r, v, w):
    """Raw numbers, some of them infinite, NaN, zero, or at the edge of the measure."""
    def some(n, share):
        return [r.choice(ODD) if r.random() < share else number(r, 2.0 ** r.randint(-3, 25)) for _ in range(n)]
    share = r.choice([0.02, 0.1, 0.5, 1.0])
    return some(4 * v, share), some(4 * w, share), r.choice(ODD + [0.5, 1e-9, 1e6])


def edge(r, v, w):
    """Coordinates at ±2^25 and an ulp beyond; weights that make them."""
    a = cloud(r, v, [0, 0, 0], MOST)
    b = cloud(r, w, [0, 0, 0], MOST)
    for p in (a, b):
        if r.random() < 0.7:
            p[r.randrange(len(p))][r.randrange(3)] = r.choice(ODD[12:16])
    return net(a, weights(r, v)), net(b), gap(r, 2.0 ** 24)


def flat(r, v, w):
    """Whole numbers in a plane: touching, crossing and equal chords."""
    a = [[whole(r), whole(r), 0.0] for _ in range(v)]
    b = [[whole(r), whole(r), r.choice([0.0, -0.0, 1.0])] for _ in range(w)]
    if r.random() < 0.3:
        b[0], b[-1] = list(a[0]), list(a[-1])
    return net(a), net(b), r.choice([0.0, 0.5, 1.0, 2.0, math.sqrt(5), NAN, INF])


def tie(r, v, w):
    """Equal chords side by side, one net bent: which line holds all points within the gap tells whose chord was taken."""
    c = r.randrange(3)
    a = [[0.0, 0.0, 0.0], [4.0, 10.0, 0.0], [8.0, 0.0, 0.0]]
    b = [[0.0, 8.0, 0.0], [8.0, 8.0, 0.0]]
    a, b = ([[p[(i + c) % 3] for i in range(3)] for p in q] for q in (a, b))
    g = r.choice([8.0, 9.0, 10.0, math.nextafter(8.0, 0), math.nextafter(10.0, 0)])
    return (net(a), net(b), g) if r.random() < 0.5 else (net(b), net(a), g)


def beside(r, v, w):
    """Lines in a plane that only the normal to the second's chord parts, or, the other way round, to the first's."""
    c, s = r.randrange(3), 2.0 ** r.randint(-3, 3)
    a, b = [[4.0, 0.0, 0.0], [6.0, 4.0, 0.0]], [[0.0, 0.0, 0.0], [8.0, 8.0, 0.0]]
    a, b = ([[s * p[(i + c) % 3] for i in range(3)] for p in q] for q in (a, b))
    g = s * r.choice([0.0, 0.5, 1.0, 1.41, math.sqrt(2), math.nextafter(math.sqrt(2), 2), 1.5])
    return (net(a), net(b), g) if r.random() < 0.5 else (net(b), net(a), g)


def in_line(r, v, w):
    """Points along one line, the second's further on: the boxes are nearer than the gap, and no plane parts them."""
    way, boxes = r.choice([([1.0, 1.0, 1.0], 0.5), ([3.0, 4.0, 0.0], 2.0), ([1.0, -2.0, 2.0], 1.0)])
    s = 2.0 ** r.randint(-3, 3)
    a = [[s * i / (v - 1 or 1) * x for x in way] for i in range(v)]
    b = [[s * (1.5 + i / (w - 1 or 1)) * x for x in way] for i in range(w)]
    g = s * boxes * r.choice([0.5, 1.0, 1.0625, 1.125, 1.5, 2.0])
    return (net(a), net(b), g) if r.random() < 0.5 else (net(b), net(a), g)


def sizes(r, v, w):
    """Boxes whose squared sizes differ by an ulp."""
    x, y = r.uniform(1, 2), r.uniform(1, 2)
    far = math.nextafter(y, r.choice([0, 4]))
    return net([[0, 0, 0], [x, y, 0]]), net([[x, 0, 0], [0, far, 0]]), 0.0


KINDS = [apart, same, collinear, parallel, skew, boxed, scaled, odd, edge, flat, tie, sizes, beside, in_line]


# some widths at and beyond the ends, by the number of the pair
WIDTHS = [(26, 2), (0, 2), (2, 26), (1, 3), (3, 27), (0, 0)]


def width(r, most):
    return r.randint(2, min(most, 4)) if r.random() < 0.6 else r.randint(2, most)


def pair(r, k, most):
    v, w = width(r, most), width(r, most)
    kind = KINDS[k % len(KINDS)]
    if k % 50 == 18:
        v, w = WIDTHS[k // 50 % len(WIDTHS)]
        if min(v, w) < 2:
            kind = odd
    a, b, g = kind(r, v, w)
    if r.random() < 0.1:
        a, b = b, a
    return a, b, g


def main():
    seed, count = int(sys.argv[1]), int(sys.argv[2])
    most = int(sys.argv[3]) if len(sys.argv) > 3 else 26
    r = random.Random(seed)
    out = [struct.pack('<Q', count)]
    for k in range(count):
        a, b, g = pair(r, k, most)
        out.append(struct.pack('<QQd', len(a) // 4, len(b) // 4, g) + struct.pack('<%dd' % (len(a) + len(b)), *a, *b))
    sys.stdout.buffer.write(b''.join(out))


main()
