#!/usr/bin/env python3
"""The sheets that bench.py times.

  bench_sheets.py DIR     writes each as DIR/NAME.sheet

MAIN    P = 3 starting pairs, S = 256, some 1,500 visits: lines of degree 1, 3, 5, 10 and 25 that meet in their
        middles, gap 0; a cubic that another one follows three times (overlap3), the same with weights (rational3);
        lines of degree 3, 10 and 25 a little nearer to each other than the gap (beside); and one search of 81 visits,
        lines of degree 5 that keep clear of each other (clear5).
GROWTH  the same lines with S from 1 to 256, P from 1 to 12, and raw lists of up to 396 regions.
CHARTS  a track of three cubics against 1, 8 and 64 cubics that cross it in its middle (crossed), with S = 256 and, searched no further than the
        opening, S = 0; and against 64 that keep clear of it (passed). Each as its lines, the track first, S and gap.
"""
import os
import sys

sys.path.insert(0, os.path.join(os.path.dirname(os.path.abspath(__file__)), '..', 'tests'))
from sheets import bezier, chart, line, pair_sheets, segment, sheet  # noqa: E402


def spans(parts, degree, weights=None):
    """The line of these Bezier parts, each starting where the one before ends."""
    poles = list(parts[0])
    for p in parts[1:]:
        poles += p[1:]
    n = len(parts)
    return line(degree, range(n + 1), [degree + 1] + [degree] * (n - 1) + [degree + 1], poles, weights)


def through_origin(degree, bend):
    """Poles from (-1, -1, 0) to (1, 1, 0), odd about the middle, which is the origin."""
    poles = []
    for i in range(degree + 1):
        s = (2 * i - degree) / degree
        poles.append((s, s + bend * s * (1 - s * s), bend * s * (1 - s * s)))
    return poles


def to_and_fro(degree, pairs):
    """A line whose spans run to and fro through the origin."""
    parts = [through_origin(degree, 0.5 + k / 4) for k in range(pairs)]
    return spans([p if k % 2 == 0 else p[::-1] for k, p in enumerate(parts)], degree)


def across(degree, bend, depth=0.0):
    """A line that crosses it there, or passes at this depth below it."""
    return bezier([(-y, x, z - depth) for x, y, z in through_origin(degree, bend)])


def meeting(degree, pairs, S):
    """The two of them."""
    return sheet(to_and_fro(degree, pairs), across(degree, 0.75), S=S)


def area(count, S, depth=0.0):
    """A track and so many lines that cross it, or pass below it: lines, S and gap of a chart."""
    return [to_and_fro(3, 3)] + [across(3, 0.75 + k / 128, depth) for k in range(count)], S, 0.25 if depth else 0.0


ARC = [(0.0, 0.0, 0.0), (1.0, 2.0, 0.0), (3.0, 2.0, 1.0), (4.0, 0.0, 2.0)]


def overlap(pairs, S, weights=None):
    """A cubic, and one that runs to and fro along it."""
    parts = [ARC if k % 2 == 0 else ARC[::-1] for k in range(pairs)]
    whole = None
    if weights:
        whole = list(weights)
        for k in range(1, pairs):
            whole += (weights if k % 2 == 0 else weights[::-1])[1:]
    return sheet(spans(parts, 3, whole), bezier(ARC, weights=weights), S=S)


def clear(S):
    """Three spans beside one line: their distance is a little more than the gap everywhere."""
    wave = [(0.0, 0.0, 0.0), (1.0, 3.0, 1.0), (2.0, -2.0, 2.0), (3.0, 3.0, -1.0), (4.0, -2.0, 0.0), (5.0, 1.0, 1.0)]
    beside = [(x, y, z + 1.0) for x, y, z in wave]
    return sheet(spans([wave, wave[::-1], wave], 5), bezier(beside), S=S, gap=0.62)


def beside(degree, S):
    """A line, and one that runs to and fro a little less than the gap away from it."""
    poles = [(4.0 * i / degree, (i * 7 % 5) / 2.0, (i * 3 % 4) / 2.0) for i in range(degree + 1)]
    off = [(x, y + 0.0009, z) for x, y, z in poles]
    return sheet(spans([poles, poles[::-1], poles], degree), bezier(off), S=S, gap=0.001)


def waves(S):
    """Twelve cubics that each cross a straight line three times, with a gap: several regions that stay apart."""
    parts = []
    for k in range(12):
        x = 4.0 * k
        up = 1.0 if k % 2 == 0 else -1.0
        parts.append([(x, -up, 0.0), (x + 1.0, 20.0 * up, 0.0), (x + 3.0, -20.0 * up, 0.0), (x + 4.0, up, 0.0)])
    return sheet(spans(parts, 3), segment((-1.0, 0.0, 0.0), (49.0, 0.0, 0.0)), S=S, gap=0.2)


MAIN = [('degree%d' % d, meeting, (d, 3, 256)) for d in (1, 3, 5, 10, 25)] + [
    ('overlap3', overlap, (3, 256)), ('rational3', overlap, (3, 256, [1.0, 0.5, 2.0, 1.0])),
    ('beside3', beside, (3, 256)), ('beside10', beside, (10, 256)), ('beside25', beside, (25, 256)), ('clear5', clear, (256,))]

GROWTH = [('degree3-P3-S%d' % s, meeting, (3, 3, s)) for s in (1, 16, 64, 256)] + [
    ('degree3-P%d-S64' % p, meeting, (3, p, 64)) for p in (1, 3, 12)] + [
    ('overlap3-P%d-S%d' % (p, s), overlap, (p, s)) for p, s in ((1, 64), (1, 256), (3, 256), (12, 67))] + [
    ('waves-P12-S%d' % s, waves, (s,)) for s in (16, 67)]

CHARTS = [('crossed-N%d-S%d' % (n, s), (n, s)) for n, s in ((1, 256), (8, 256), (64, 256), (1, 0), (64, 0))] + [('passed-N64-S256', (64, 256, 0.75))]


def chart_of(lines, S, gap):
    return chart(lines, S=S, gap=gap)


def pairs_of(lines, S, gap):
    """The sheet of the track and each line."""
    return pair_sheets(lines, S=S, gap=gap)


def main(args):
    if len(args) != 1:
        sys.exit(__doc__)
    os.makedirs(args[0], exist_ok=True)
    all_sheets = [(name, make(*what)) for name, make, what in MAIN + GROWTH] + [(name, chart_of(*area(*what))) for name, what in CHARTS]
    for name, data in all_sheets:
        with open(os.path.join(args[0], name + '.sheet'), 'wb') as f:
            f.write(data)


if __name__ == '__main__':
    main(sys.argv[1:])
