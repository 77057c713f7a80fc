#!/usr/bin/env python3
"""Sheets for the clearance search: builders, drawn sheets, random sheets.

  sheets.py --examples DIR          writes the example sheets into DIR
  sheets.py --list                  names of the drawn sheets with their sizes
  sheets.py --many SEED N           N random sheets on standard output, each a
                                    32-bit length and the bytes
  sheets.py --replay DIR PROGRAM    writes DIR/sheets.txt (tests/sheet_text.py)
                                    and, from the answers of PROGRAM,
                                    DIR/answers.txt
  sheets.py --answers DIR PROGRAM   writes DIR/answers.txt alone, from the sheets
                                    that stand in DIR/sheets.txt
  sheets.py --level L ...           --list, --many and --replay at a level of
                                    document 02: 1 (document 01, the default),
                                    100 (closed lines), 101 (stretch marks),
                                    103 (settled by box, plane or line), 104
                                    (data), 105 (charts) or 106 (a depth for
                                    each line). --list and --replay have that
                                    level's own sheets, --many those of all
                                    levels up to it

All are written in the form of M-104, with a datum on each line; in_form(data, L)
is a sheet in the form of an earlier level.

From another script:

  a = line(1, [0, 1], [2, 2], [(0, 0, 0), (2, 2, 0)])
  b = line(2, [0, 1, 2], [3, 1, 3], poles, weights)
  c = ring(1, [0, 1, 2, 3], [1, 1, 1, 1], [(0, 0, 0), (4, 0, 0), (0, 3, 0)])
  data = sheet(a, b, S=256, ranges=[(0, 1), (0, 2)], gap=0.5)
  data = chart([a, b, c], S=8, gap=0.5)     # a is the track

Ranges that are not given are the bounds of the lines, of a closed one a turn.
"""
import math
import os
import random
import re
import struct
import subprocess
import sys

from sheet_text import FORM, file_sheets, file_text, head, item_bytes, items_of, packed, sheet_from, sheet_of, spelled, text_of

NAN = math.nan
INF = math.inf
BINADE = lambda e: math.ldexp(1.0, e)
TINY = BINADE(-1074)

# ---- words ------------------------------------------------------------------


def floats(values):
    return b''.join(struct.pack('<d', v) for v in values)


def words(values):
    return b''.join(struct.pack('<I', v & 0xFFFFFFFF) for v in values)


class Line:
    """A line's description; the fields may hold anything a sheet can hold."""

    def __init__(self, degree, knots, mults, poles, weights=None, closed=False, datum=1):
        self.degree = degree
        self.knots = list(knots)
        self.mults = list(mults)
        self.poles = [tuple(p) for p in poles]
        self.weights = None if weights is None else list(weights)
        self.closed = closed
        self.datum = datum

    def copy(self):
        return Line(self.degree, self.knots, self.mults, self.poles, self.weights, self.closed, self.datum)

    def flat(self):
        return [k for k, m in zip(self.knots, self.mults) for _ in range(min(m, 200))]

    def bounds(self):
        """Flat knots number degree and number poles, where there are such; a closed line's first and last knot."""
        if self.closed and self.knots:
            return (self.knots[0], self.knots[-1])
        flat = self.flat()
        if len(flat) <= max(self.degree, len(self.poles)):
            return (0.0, 1.0)
        return (flat[self.degree], flat[len(self.poles)])

    def data(self):
        out = [head(8 if self.closed else 1, self.degree), head(2, len(self.knots)), floats(self.knots),
               head(3, len(self.mults)), words(self.mults), head(4, len(self.poles))]
        out += [floats(p) for p in self.poles]
        if self.weights is not None:
            out += [head(5, len(self.weights)), floats(self.weights)]
        return b''.join(out + [head(9, self.datum)])


def line(degree, knots, mults, poles, weights=None):
    return Line(degree, knots, mults, poles, weights)


def ring(degree, knots, mults, poles, weights=None):
    """A closed line."""
    return Line(degree, knots, mults, poles, weights, closed=True)


def segment(p, q, lo=0.0, hi=1.0):
    """The straight line from p to q, degree 1, over the knots lo and hi."""
    return line(1, [lo, hi], [2, 2], [p, q])


def bezier(poles, lo=0.0, hi=1.0, weights=None):
    """The line of one span with as many poles as its width."""
    p = len(poles) - 1
    return line(p, [lo, hi], [p + 1, p + 1], poles, weights)


def polyline(points, knots=None):
    """Degree 1 through the points, one span between two neighbours."""
    n = len(points)
    knots = list(range(n)) if knots is None else knots
    return line(1, knots, [2] + [1] * (n - 2) + [2], points)


def clamped(degree, poles, knots=None, weights=None):
    """A clamped line with inner knots of multiplicity 1."""
    spans = len(poles) - degree
    knots = list(range(spans + 1)) if knots is None else knots
    mults = [degree + 1] + [1] * (spans - 1) + [degree + 1]
    return line(degree, knots, mults, poles, weights)


def question(S, ranges, gap):
    return head(6, S) + floats([ranges[0][0], ranges[0][1], ranges[1][0], ranges[1][1], gap])


def asked(lines, ranges):
    """The ranges, the line's bounds where none is given."""
    return [l.bounds() if r is None else r for l, r in zip(lines, ranges or [None] * len(lines))]


def sheet(a, b, S=256, ranges=None, gap=0.0):
    ranges = asked((a, b), ranges)
    return a.data() + b.data() + question(S, ranges, gap) + head(7, 0)


def chart_line(l, r):
    """A line of a chart with its range."""
    return l.data() + head(11, 0) + floats(r)


def chart(lines, S=256, ranges=None, gap=0.0, unread=(0.0, 0.0)):
    """The first line is the track; kind 6 has its range and an unread one."""
    ranges = asked(lines, ranges)
    parts = [chart_line(l, r) for l, r in zip(lines[1:], ranges[1:])]
    return lines[0].data() + b''.join(parts) + question(S, [ranges[0], unread], gap) + head(7, 0)


def pair_sheets(lines, S=256, ranges=None, gap=0.0):
    """The sheet of the track and each line of a chart."""
    ranges = asked(lines, ranges)
    return [sheet(lines[0], l, S, [ranges[0], r], gap) for l, r in zip(lines[1:], ranges[1:])]


def in_form(data, level):
    """The sheet in the form of a level of document 02: before M-104 without the data of the lines that can be walked."""
    return data if level >= FORM else sheet_from(text_of(data), level)


# ---- lines and examples of document 01 ---------------------------------------

UNIT = segment((0, 0, 0), (1, 0, 0))
A = segment((0, 0, 0), (2, 2, 0))
CROSSING = segment((0, 2, 0), (2, 0, 0))
PARALLEL = segment((1, 0, 0), (3, 2, 0))
FAR = segment((10, 0, 0), (12, 2, 0))
ARCH = line(2, [0, 1, 2], [3, 1, 3], [(0, 0, 0), (0, 2, 0), (2, 2, 0), (2, 0, 0)])
NAN_NET = segment((0, 0, 0), (1, 0, 0), 0.0, BINADE(-1072))

EXAMPLE_ANSWER = (
    'unseparated pairs=1 visits=1 splits=0 settled=0 box=0 plane=0 line=0 given=1 left=0 regions=1\n'
    'region 0000000000000000 3FF0000000000000 0000000000000000 3FF0000000000000'
    ' 0000000000000000 0000000000000000 0000000000000000 3FF0000000000000'
    ' 0000000000000000 0000000000000000 0\n')


def unmarked(answer):
    """The answer as it was before M-101: a region's line is its word and ten floats."""
    return '\n'.join(' '.join(l.split(' ')[:11]) if l.startswith('region ') else l for l in answer.split('\n'))


def untagged(answer):
    """The answer as it was before M-103: without box=, plane= and line=."""
    return re.sub(r' box=\d+ plane=\d+ line=\d+', '', answer)


def at_level(answer, level):
    """The answer as it is at a level of document 02."""
    answer = untagged(answer) if level < 103 else answer
    return unmarked(answer) if level < 101 else answer


def reports(answer):
    """The reports of an answer: one of a pair, one a line of a chart, none of a refusal."""
    return re.findall(r'(?m)^(?:complete|budget|unseparated) .*\n(?:region .*\n)*', answer)


def reports_hold(answer):
    """What an answer is made of: a refusal, one report, or reports and a last line that says whether all are complete."""
    parts = reports(answer)
    complete = all(r.startswith('complete ') for r in parts)
    last = 'chart %s\n' % ('complete' if complete else 'incomplete')
    if not parts:
        return re.fullmatch(r'refused \d+ \d+\n', answer) is not None
    return answer == ''.join(parts) + last or len(parts) == 1 and answer == parts[0]


def counts(answer):
    """The counts of an answer's first line by their names; none of a refusal."""
    fields = [f.split('=') for f in answer.split('\n', 1)[0].split(' ')[1:]]
    return {f[0]: int(f[1]) for f in fields if len(f) == 2 and f[1].isdigit()}


TAGS = ('box', 'plane', 'line')


def tags(answer):
    """How many nodes were settled by box, by plane and by line, in all reports."""
    each = [counts(r) for r in reports(answer)]
    return tuple(sum(c.get(t, 0) for c in each) for t in TAGS)


def tags_hold(answer):
    """What holds of the tags in every report: they sum to settled, and a node settled by box is one of the two halves
    of a split, since the boxes of a pushed pair aren't apart."""
    each = [counts(r) for r in reports(answer)]
    return all(all(t in c for t in TAGS) and sum(c[t] for t in TAGS) == c['settled'] and c['box'] <= 2 * c['splits'] for c in each)


def marks(answer):
    """The marks of a report's regions, in the order of the list; -1 for a line that has none."""
    fields = [l.split(' ') for l in answer.split('\n') if l.startswith('region ')]
    return [int(f[11]) if len(f) == 12 and f[11].isdigit() else -1 for f in fields]


def has_group(answer):
    """Whether in a report a mark isn't its region's own place."""
    return any(m not in (i, -1) for r in reports(answer) for i, m in enumerate(marks(r)))


def example():
    """The sheet whose answer document 01 prints."""
    return sheet(UNIT, UNIT, S=0)


PLAN = clamped(3, [
    (5.0, 12.0, -12.0), (41.5, 18.25, -12.0), (78.0, 21.5, -12.5), (112.75, 14.0, -13.0), (149.0, 3.5, -13.25), (185.5, -2.25, -13.5),
    (221.0, 1.75, -13.75), (258.25, 10.5, -14.0), (296.0, 16.0, -14.0), (333.5, 13.25, -13.5), (369.75, 6.0, -13.0), (403.0, 2.5, -12.75)])


def track():
    """A planned track of some 400 m at 12 to 14 m depth that passes the head of
    an outfall; gap 5 m. Metres; z is up."""
    outfall = clamped(2, [(214.0, 88.0, -9.5), (216.5, 60.0, -11.0), (219.0, 38.0, -12.5),
                          (221.0, 19.0, -13.5), (222.5, 6.5, -14.25)])
    return sheet(PLAN, outfall, S=64, gap=5.0)


EXAMPLES = [('example', example),
            ('crossing', lambda: sheet(A, CROSSING, S=256, gap=0.0)),
            ('track', track)]


def basin_passed():
    """A turning basin, closed, asked all the way round from a place inside its northern side, and a track along that side; gap 3 m (document 02, M-100)."""
    poles = [(300, 0, -12), (210, 210, -12), (0, 300, -12), (-210, 210, -12), (-300, 0, -12), (-210, -210, -12), (0, -300, -12), (210, -210, -12)]
    edge = ring(2, list(range(9)), [1] * 9, poles)
    return sheet(edge, segment((-80, 262, -12.5), (90, 274, -12.5)), S=256, ranges=[(1.375, 9.375), None], gap=3.0)


CLOSED_EXAMPLES = [('basin', basin_passed)]


def chart_passed():
    """The track of track() and three lines of its chart: an outfall that ends just over 5 m beside it, a cable that it crosses, the toe of a quay far off;
    gap 5 m (document 02, M-105)."""
    outfall = clamped(2, [(214.0, 88.0, -9.5), (216.5, 60.0, -11.0), (219.0, 38.0, -12.5), (221.0, 19.0, -13.5), (223.0, 8.0, -13.75)])
    cable = clamped(2, [(96.0, -60.0, -15.0), (101.5, -20.0, -15.5), (108.0, 24.0, -15.25), (121.0, 70.0, -14.5)])
    toe = segment((-40.0, 240.0, -11.0), (420.0, 236.0, -11.0))
    return chart([PLAN, outfall, cable, toe], S=64, gap=5.0)


CHART_EXAMPLES = [('chart', chart_passed)]


# ---- drawn sheets -------------------------------------------------------------


def checks():
    """The lines drawn for checking, and each of them with the lines changed over."""
    yield 'example', example()
    for s in (0, 1, 2, 3, 255, 256):
        yield 'crossing-S%d' % s, sheet(A, CROSSING, S=s)
        yield 'crossing-back-S%d' % s, sheet(CROSSING, A, S=s)
    for gap in (0.0, 0.5, 0.7071067811865475, 0.7071067811865476, 0.75, 1.0, 2.0):
        yield 'parallel-gap%r' % gap, sheet(A, PARALLEL, gap=gap)
        yield 'parallel-back-gap%r' % gap, sheet(PARALLEL, A, gap=gap)
    yield 'far', sheet(A, FAR)
    yield 'far-gap8', sheet(A, FAR, gap=8.0)
    yield 'far-gap-below-8', sheet(A, FAR, gap=7.999999999999999)
    yield 'arch-itself', sheet(ARCH, ARCH, S=8)
    yield 'arch-unit', sheet(ARCH, UNIT, S=64)
    yield 'arch-inner', sheet(ARCH, A, S=16, ranges=[(0.25, 1.75), (0.125, 0.5)])
    yield 'nan-net', sheet(NAN_NET, UNIT, S=4)
    yield 'nan-net-far', sheet(segment((9e6, 0, 0), (9e6, 1, 0)), NAN_NET, S=4)
    yield 'nan-net-both', sheet(NAN_NET, NAN_NET, S=4)
    for degree in (1, 2, 7, 8, 24, 25, 26):
        poles = [(i, i * i % 7, i % 3) for i in range(degree + 1)]
        yield 'degree%d' % degree, sheet(bezier(poles), A, S=3)
        yield 'degree%d-second' % degree, sheet(UNIT, bezier(poles), S=3)
    # depth 64: an isolated tangent contact with a wide allowance
    tangent = bezier([(0, 1, 0), (2, -1, 0), (4, 1, 0)])
    yield 'tangent', sheet(tangent, segment((0, 0, 0), (4, 0, 0)))
    yield 'tangent-uneven', sheet(tangent, segment((0.1, 0, 0), (3.7, 0, 0)))


def point_contacts():
    """Lines with points that coincide: depth 32 is reached on both."""
    loop = bezier([(0, 0, 0), (0, 0, 0), (1, 0, 0), (0, 1, 0)])
    yield 'loop-itself', sheet(loop, loop)
    for n in (2, 3, 5):
        still = bezier([(1, 1, 1)] * n)
        yield 'point-point-%d' % n, sheet(still, still)
        yield 'point-line-%d' % n, sheet(still, segment((1, 1, 1), (2, 2, 2)))
        yield 'point-line-back-%d' % n, sheet(segment((0, 0, 0), (2, 2, 2)), still)
        yield 'point-loose-%d' % n, sheet(still, segment((0, 0, 0.5), (2, 2, 2)), gap=0.1)
    yield 'point-underflow', sheet(segment((0, 0, 0), (BINADE(-600), 0, 0)),
                                   segment((0, 0, 0), (0, BINADE(-600), 0)))
    yield 'point-depth', sheet(bezier([(0, 0, 0), (1, 1, 0), (0, 0, 0)]), bezier([(0, 0, 0)] * 3))
    there_and_back = bezier([(0, 0, 0), (1, 0, 0), (0, 0, 0)])
    yield 'there-and-back', sheet(there_and_back, there_and_back)
    yield 'there-and-back-point', sheet(there_and_back, bezier([(0.25, 0, 0)] * 2))


def word_faults():
    """Numbers 1 to 3, word by word."""
    good = example()
    a, q, end = UNIT.data(), question(0, [(0, 1), (0, 1)], 0.0), head(7, 0)
    body, datum = a[:-4], a[-4:]
    for n in (0, 1, 2, 3, 4, 5, 16380, 16384, 16385, 16388, 20000):
        yield 'length-%d' % n, (good + bytes(20000))[:n]
    for n in (16384, 16385, 16388):
        yield 'length-zero-%d' % n, bytes(n)
    yield 'length-odd', good + b'\0'
    for at in range(0, len(good), 4):
        yield 'cut-%d' % at, good[:at]
    yield 'words-after-end', good + words([0])
    yield 'words-after-end-7', good + head(7, 0)
    yield 'end-count-1', a + a + q + head(7, 1)
    yield 'end-count-1-and-words', a + a + q + head(7, 1) + words([5])
    yield 'end-missing', a + a + q
    yield 'end-kind-8', a + a + q + head(8, 0)
    yield 'question-missing', a + a + end
    yield 'second-missing', a + q + end
    yield 'second-stops', a
    yield 'weights-0', body + head(5, 0) + datum + a + q + end
    yield 'weights-0-second', a + body + head(5, 0) + datum + q + end
    yield 'weights-0-last-word', body + head(5, 0)
    yield 'weights-twice', body + head(5, 2) + floats([1, 1]) + head(5, 2) + floats([1, 1]) + datum + a + q + end
    yield 'weights-huge', body + head(5, 0x0FFFFFFF) + datum + a + q + end
    for kind in range(16):
        yield 'first-kind-%d' % kind, head(kind, 1) + good[4:]
        yield 'second-kind-%d' % kind, a + head(kind, 1) + a[4:] + q + end
        yield 'knots-kind-%d' % kind, a[:4] + head(kind, 2) + good[8:]
        yield 'question-kind-%d' % kind, a + a + head(kind, 0) + q[4:] + end
    huge = 0x0FFFFFFF
    for n in (huge, 0x08000000, 0x0AAAAAAA, 0x0AAAAAAB, 0x05555556, 0x02AAAAAB, 4096, 4095, 1365):
        yield 'knots-count-%x' % n, head(1, 1) + head(2, n) + good[8:]
        yield 'mults-count-%x' % n, a[:24] + head(3, n) + good[28:]
        yield 'poles-count-%x' % n, a[:36] + head(4, n) + good[40:]
    yield 'S-huge', a + a + head(6, huge) + q[4:] + end
    yield 'degree-huge', head(1, huge) + good[4:]


def empty_parts():
    """Counts of 0, and counts that do not go together."""
    q, end = question(0, [(0, 1), (0, 1)], 0.0), head(7, 0)
    u = UNIT.data()
    empty = {
        'knots': line(1, [], [2, 2], UNIT.poles), 'mults': line(1, [0, 1], [], UNIT.poles),
        'poles': line(1, [0, 1], [2, 2], []), 'all': line(1, [], [], []),
        'sum-2': line(1, [0, 1], [1, 1], []), 'sum-below': line(3, [0, 1], [1, 1], []),
        'sum-below-poles': line(3, [0, 1], [1, 1], UNIT.poles),
        'one-pole': line(3, [0, 1], [4, 1], [(1, 2, 3)]),
        'one-pole-1': line(1, [0, 1], [2, 1], [(1, 2, 3)]),
        'no-length': line(2, [0, 1, 2], [2, 2, 2], [(0, 0, 0), (1, 1, 0), (2, 0, 0)]),
    }
    for name, l in empty.items():
        yield 'empty-%s' % name, l.data() + u + q + end
        yield 'empty-%s-second' % name, u + l.data() + q + end
    flat = empty['no-length']
    for r in ((1, 1), (0, 2), (1, 2), (0.5, 1), (0.5, 1.5)):
        yield 'no-length-%g-%g' % r, sheet(flat, UNIT, ranges=[r, None])
        yield 'no-length-second-%g-%g' % r, sheet(UNIT, flat, ranges=[None, r])


def after(x):
    """The double above x > 0."""
    return struct.unpack('<d', struct.pack('<q', struct.unpack('<q', struct.pack('<d', x))[0] + 1))[0]


def below(x):
    """The double below x > 0."""
    return struct.unpack('<d', struct.pack('<q', struct.unpack('<q', struct.pack('<d', x))[0] - 1))[0]


BAD_FLOATS = [NAN, -NAN, INF, -INF]


def spoilt(number, rng):
    """A line refused with the number 4 to 14, and perhaps with later ones."""
    l = line(2, [0.0, 1.0, 2.0, 3.0], [3, 1, 2, 3], [(i, i * i, 1) for i in range(6)])
    k = rng.below(4)
    if number == 4:
        l.degree = rng.pick([0, 26, 27, 1000, 0x0FFFFFFF])
    elif number == 5:
        way = rng.below(4)
        if way == 0:
            l.knots, l.mults = l.knots[:1], l.mults[:1]
        elif way == 1:
            l.knots = [float(i) for i in range(129)]
            l.mults = [1] * 129
        elif way == 2:
            l.mults = l.mults + [1]
        else:
            l.mults = l.mults[:-1]
    elif number == 6:
        l.knots[k] = rng.pick(BAD_FLOATS + [after(BINADE(20)), -after(BINADE(20)), 1e300])
    elif number == 7:
        k = 1 + rng.below(3)
        l.knots[k] = rng.pick([l.knots[k - 1], l.knots[k - 1] - 1.0, -5.0])
        if rng.below(4) == 0:
            l.knots[:2] = [0.0, -0.0]
    elif number == 8:
        l.mults[k] = rng.pick([4, 5, 0xFFFFFFFF, 0x80000000])
        if rng.below(3) == 0:
            l.mults[1] = 3
    elif number == 9:
        l.mults[k] = 0
        if rng.below(2):
            l.poles = l.poles[:max(0, sum(l.mults) - 3)]
    elif number == 10:
        l.poles = rng.pick([l.poles[:5], l.poles + [(7, 7, 7)], [], l.poles * 3])
    elif number == 11:
        if rng.below(2):
            l = line(3, [0, 1, 2], [1, 2, rng.pick([2, 4])], [])
            l.poles = [(1.0, 2.0, 3.0)] * (sum(l.mults) - 4)
        else:
            n = 44
            l = line(3, list(range(n)), [4] + [3] * (n - 2) + [4], [(i, 0, 0) for i in range(3 * n - 2)])
    elif number == 12:
        l.weights = [1.0] * rng.pick([1, 5, 7, 12])
    elif number == 13:
        l.weights = [1.0] * 6
        l.weights[rng.below(6)] = rng.pick(BAD_FLOATS + [
            0.0, -0.0, -1.0, below(BINADE(-10)), after(BINADE(10)), TINY, -BINADE(-10)])
    elif number == 14:
        i, c = rng.below(6), rng.below(3)
        p = list(l.poles[i])
        p[c] = rng.pick(BAD_FLOATS + [after(BINADE(24)), -after(BINADE(24)), 1e300])
        l.poles[i] = tuple(p)
    return l


def spoil_into(l, number, rng):
    """Adds a fault of the number to the line l where the fields allow it."""
    k = rng.below(max(1, len(l.knots)))
    if number == 4:
        l.degree = rng.pick([0, 26])
    elif number == 5:
        l.mults = l.mults + [1]
    elif number == 6 and l.knots:
        l.knots[-1] = rng.pick([NAN, INF, -INF, 2e6])
    elif number == 7 and len(l.knots) > 1:
        l.knots[1] = l.knots[0] - 1.0
    elif number == 8 and l.mults:
        l.mults[k % len(l.mults)] = 99
    elif number == 9 and l.mults:
        l.mults[k % len(l.mults)] = 0
    elif number == 10:
        l.poles = l.poles + [(0, 0, 0)]
    elif number == 12:
        l.weights = [1.0] * (len(l.poles) + 1)
    elif number == 13:
        l.weights = [1.0] * max(1, len(l.poles))
        l.weights[-1] = rng.pick([0.0, NAN, 1025.0])
    elif number == 14 and l.poles:
        l.poles[0] = (rng.pick([NAN, 2e7, -INF]), 0.0, 0.0)


def line_faults():
    """Numbers 4 to 14 on either line, alone and together."""
    rng = Rng(401)
    for number in range(4, 15):
        for i in range(6):
            l = spoilt(number, rng)
            yield 'no%d-%d-first' % (number, i), sheet(l, A, S=2, ranges=[(0, 1), None])
            yield 'no%d-%d-second' % (number, i), sheet(A, l, S=2, ranges=[None, (0, 1)])
    for one in range(4, 15):
        for two in range(4, 15):
            a, b = spoilt(one, rng), spoilt(two, rng)
            yield 'no%d-with-no%d' % (one, two), sheet(a, b, ranges=[(0, 1), (0, 1)])
            both = spoilt(one, rng)
            spoil_into(both, two, rng)
            yield 'no%d-and-no%d' % (one, two), sheet(both, A, ranges=[(0, 1), None])
    for name, mults in (('inner-over', [3, 3, 3]), ('inner-full', [3, 2, 3]),
                        ('first-over', [4, 1, 3]), ('last-over', [3, 1, 4])):
        l = line(2, [0, 1, 2], mults, [(i, i % 2, 0) for i in range(sum(mults) - 3)])
        yield 'mults-%s-first' % name, sheet(l, A, S=20)
        yield 'mults-%s-second' % name, sheet(A, l, S=20)
    yield 'knots-at-limit', sheet(segment((0, 0, 0), (1, 0, 0), -BINADE(20), BINADE(20)), A)
    yield 'weights-at-limit', sheet(bezier([(0, 0, 0), (1, 1, 0)], weights=[BINADE(-10), BINADE(10)]), A)
    far = BINADE(24)
    yield 'coordinates-at-limit', sheet(segment((-far, -far, -far), (far, far, far)), A)
    yield 'coordinates-at-limit-gap', sheet(segment((-far, far, -far), (far, far, far)),
                                            segment((-far, -far, far), (far, -far, -far)), gap=far)
    n = 128
    yield 'knots-128', sheet(polyline([(i, 0, 0) for i in range(n)]), segment((3.5, -1, 0), (3.5, 1, 0)), S=20)
    yield 'knots-129', sheet(polyline([(i, 0, 0) for i in range(n + 1)]), A)
    yield 'poles-128', sheet(clamped(3, [(i, 0, 0) for i in range(128)]), segment((50.5, -9, 3), (50.5, 9, 3)))
    yield 'poles-129', sheet(clamped(3, [(i, 0, 0) for i in range(129)]), A)


def question_faults():
    """Numbers 15 to 18, alone and together."""
    bad = [(NAN, 1), (0, NAN), (-INF, 1), (0, INF), (0.5, 0.5), (1, 0), (-TINY, 1), (0, after(1.0)),
           (-1, 2), (0.0, -0.0), (-0.0, 0.0)]
    for i, r in enumerate(bad):
        yield 'no15-%d-first' % i, sheet(A, CROSSING, ranges=[r, (0, 1)])
        yield 'no15-%d-second' % i, sheet(A, CROSSING, ranges=[(0, 1), r])
        yield 'no15-%d-gap' % i, sheet(A, CROSSING, ranges=[(0, 1), r], gap=NAN)
    yield 'no15-both', sheet(A, A, ranges=[(1, 0), (NAN, 0)])
    for i, g in enumerate(BAD_FLOATS + [-TINY, -1.0, after(BINADE(24)), 1e308]):
        yield 'no16-%d' % i, sheet(A, CROSSING, gap=g)
        yield 'no16-%d-S' % i, sheet(A, CROSSING, gap=g, S=257)
    for s in (257, 258, 1000, 0x0FFFFFFF):
        yield 'no17-%d' % s, sheet(A, CROSSING, S=s)
        yield 'no17-%d-breaks' % s, sheet(A, CROSSING, S=s, ranges=[(0, TINY), (0, 1)])
    narrow = [(0.0, TINY), (0.5, after(0.5)), (below(1.0), 1.0), (TINY, 2 * TINY)]
    for i, r in enumerate(narrow):
        yield 'no18-%d-first' % i, sheet(A, CROSSING, ranges=[r, (0, 1)])
        yield 'no18-%d-second' % i, sheet(A, CROSSING, ranges=[(0, 1), r])
        yield 'no18-%d-then-15' % i, sheet(A, CROSSING, ranges=[r, (1, 0)])
        yield 'no18-%d-then-16' % i, sheet(A, CROSSING, ranges=[r, (0, 1)], gap=-1.0)
    near = line(1, [0.0, 1.0, after(1.0), 2.0], [2, 1, 1, 2], [(0, 0, 0), (1, 0, 0), (2, 0, 0), (3, 0, 0)])
    yield 'no18-knots', sheet(near, A)
    yield 'no18-knots-second', sheet(A, near)
    yield 'near-knots-outside', sheet(near, A, ranges=[(0.25, 1.0), None])
    yield 'near-knots-from', sheet(near, A, ranges=[(after(1.0), 2.0), None])
    for i, r in enumerate([(0.0, 2 * TINY), (0.0, 3 * TINY), (TINY, 3 * TINY),
                           (0.5, after(after(0.5))), (below(below(1.0)), 1.0), (-0.0, 1.0)]):
        yield 'narrow-%d' % i, sheet(A, CROSSING, ranges=[r, (0, 1)], S=40)
        yield 'narrow-%d-second' % i, sheet(A, CROSSING, ranges=[(0, 1), r], S=40)
    yield 'gap-negative-zero', sheet(A, CROSSING, S=3, gap=-0.0)
    yield 'gap-at-limit', sheet(A, CROSSING, gap=BINADE(24))
    yield 'gap-tiny', sheet(A, A, gap=TINY)


def comb(n, height=1.0, step=1.0):
    """A zigzag of n spans along x."""
    return polyline([(i * step, height * (i % 2), 0.0) for i in range(n + 1)])


def memory_faults():
    """Number 19, and sheets that just pass it."""
    for p in (11, 12, 13):
        for s in sorted({819 // p - 2, 819 // p - 1, 819 // p, 62, 63, 67, 68, 256} - {-1}):
            if 0 <= s <= 256:
                a = comb(p)
                b = segment((-0.5, 0.5, 0.0), (p + 0.5, 0.5, 0.0))
                yield 'pairs-%d-S-%d' % (p, s), sheet(a, b, S=s)
    for p, s in ((1, 256), (2, 256), (3, 255), (3, 256), (4, 203), (4, 204), (7, 116), (9, 90), (9, 91)):
        yield 'regions-%d-%d' % (p, s), sheet(comb(p), segment((-1, 0.25, 0), (p + 1, 0.75, 0)), S=s)
    for pieces in (113, 126, 127):
        knots = list(range(pieces + 1))
        flat = line(15, knots, [16] + [1] * (pieces - 1) + [16], [(i, 0, 0) for i in range(pieces + 15)])
        yield 'pieces-%d-degree-15' % pieces, sheet(flat, segment((0, 5, 0), (200, 5, 0)))
        yield 'pieces-%d-degree-15-second' % pieces, sheet(segment((0, 5, 0), (200, 5, 0)), flat)
    knots = list(range(-15, 128))[:128]
    even = line(15, knots, [1] * 128, [(i * 0.25, 0, 0) for i in range(112)])
    yield 'unclamped-97-degree-15', sheet(even, segment((0, 5, 0), (30, 5, 0)))
    for degree, pieces in ((25, 78), (25, 79), (25, 103), (18, 106), (18, 107), (17, 111), (17, 112)):
        if pieces + degree <= 128:
            l = clamped(degree, [(i, 0, 0) for i in range(pieces + degree)])
            yield 'pieces-%d-degree-%d' % (pieces, degree), sheet(l, segment((0, 5, 0), (9, 5, 0)))
            yield 'pieces-%d-degree-%d-second' % (pieces, degree), sheet(segment((0, 5, 0), (9, 5, 0)), l)
            part = [(l.knots[1] + 0.5, float(l.knots[-2])), None]
            yield 'pieces-%d-degree-%d-inner' % (pieces, degree), sheet(l, segment((0, 5, 0), (9, 5, 0)), ranges=part)
    long = polyline([(i, 0, 0) for i in range(128)])
    yield 'pairs-16129', sheet(long, long, S=256, gap=1000.0)
    yield 'pairs-16129-S0', sheet(long, long, S=0, gap=1000.0)
    yield 'pairs-0', sheet(long, segment((0, 9, 0), (9, 9, 0)), S=256)


def merging():
    """Regions that join in several passes, equal first starts, either zero."""
    for n in (3, 4, 6):
        star = polyline([(math.cos(t), math.sin(t), 0.0) for t in
                         [4 * math.pi * i / (2 * n + 1) for i in range(n + 1)]])
        yield 'star-%d' % n, sheet(star, star, S=819 // ((n * n + n) or 1))
    for n in (2, 3, 4, 6):
        b = segment((-1, 0.5, 0), (n + 1, 0.5, 0))
        for s in (0, 5, 20, 60):
            yield 'comb-%d-%d' % (n, s), sheet(comb(n), b, S=s)
            yield 'comb-back-%d-%d' % (n, s), sheet(b, comb(n), S=s)
    # pairs (0,1), (1,2) and (2,0): the last two do not touch; the first joins
    # the second, and both together reach the third in another pass
    f = [(0, 0, 0), (10, 0, 0), (10, 10, 0), (-5, 10, 0)]
    g = [(-3, 12, 0), (-1, -1, 0), (2, 1, 0), (12, 6, 0)]
    for s in (0, 1, 2, 40):
        yield 'two-passes-S%d' % s, sheet(polyline(f), polyline(g), S=s)
        yield 'two-passes-turned-S%d' % s, sheet(polyline(f[::-1]), polyline(g[::-1]), S=s)
        yield 'two-passes-back-S%d' % s, sheet(polyline(g), polyline(f), S=s)
    same = [segment((0, 0, 0), (2, 0, 0)), polyline([(0, 0, 0), (1, 0, 0), (2, 0, 0)]),
            polyline([(0, 0, 0), (0.5, 0, 0), (1.5, 0, 0), (2, 0, 0)])]
    for i, a in enumerate(same):
        for j, b in enumerate(same):
            yield 'overlap-%d-%d' % (i, j), sheet(a, b, S=10)
    # one first piece that meets several second ones: equal first starts
    bar = segment((0, 0, 0), (0, 0, 1))
    gate = polyline([(0, 0, 0), (0, 0, 1), (5, 0, 1), (5, 0, 0), (0, 0, 0), (0, 0, 1)])
    yield 'equal-starts', sheet(bar, gate, S=20)
    yield 'equal-starts-back', sheet(gate, bar, S=20)
    through = polyline([(0, 0, 0), (1, 0, 0), (1, 1, 0), (0, 1, 0), (0, 0, 0), (1, 0, 0), (1, 1, 0)])
    yield 'twice-round', sheet(through, through, S=10)
    yield 'twice-round-unit', sheet(UNIT, through, S=50)
    yield 'twice-round-unit-back', sheet(through, UNIT, S=50)
    shifted = polyline([(-2, 0, 0), (-1, 0, 0), (-0.0, 0, 0), (1, 0, 0)], [-2.0, -1.0, -0.0, 1.0])
    plain = polyline([(-2, 0, 0), (-1, 0, 0), (0, 0, 0), (1, 0, 0)], [-2.0, -1.0, 0.0, 1.0])
    for i, a in enumerate((shifted, plain)):
        for j, b in enumerate((shifted, plain)):
            yield 'zeros-%d-%d' % (i, j), sheet(a, b, S=30)
            yield 'zeros-inner-%d-%d' % (i, j), sheet(a, b, S=30, ranges=[(-0.0, 1.0), (-1.0, 0.0)])
            yield 'zeros-out-%d-%d' % (i, j), sheet(a, gate, S=12, ranges=[(-0.0, 0.5), None])
    minus = segment((-0.0, -0.0, -0.0), (2.0, -0.0, 0.0))
    yield 'minus-zero-poles', sheet(minus, segment((0.0, -1.0, -0.0), (-0.0, 1.0, 0.0)), S=30)
    yield 'minus-zero-poles-itself', sheet(minus, minus, S=30)
    # merging works on ranges alone: pieces that are listed apart in space
    zig = polyline([(0, 0, 0), (4, 0, 0), (4, 1, 0), (0, 1, 0), (0, 2, 0), (4, 2, 0)])
    for g in (0.0, 0.25, 1.0):
        yield 'zig-gap%g' % g, sheet(zig, segment((2, -1, 0), (2, 3, 0)), S=60, gap=g)
        yield 'zig-back-gap%g' % g, sheet(segment((2, -1, 0), (2, 3, 0)), zig, S=60, gap=g)


def zero_starts(name='zero-starts', past=-20):
    """Two regions whose first starts are -0 and +0: halving -2^-1074 to 0 has
    the middle -0. The first line is a parabola of length 2^-50; the second has
    one end at the middle of its parameters and one just below it, each 2^past
    of the range behind a start. A node of the first line at depth 32 is longer
    than that only for a past below -32."""
    x, y, h = BINADE(-50), BINADE(-118), BINADE(-22)
    first = bezier([(0, 0, 0), (BINADE(20), 0, 0), (BINADE(21), BINADE(24), 0)], -4 * TINY, BINADE(-1000))
    at = lambda s, z: (x * s, y * s * s, z)
    low, high = 7 / 16 + BINADE(past), 8 / 16 + BINADE(past)
    for way, (s, t) in (('', (high, low)), ('-back', (low, high))):
        second = polyline([at(s, 0.0), at(s, h), at(t, h), at(t, 0.0)])
        yield name + way, sheet(first, second, S=200, ranges=[(-4 * TINY, 4 * TINY), None])


def tiny_coordinates():
    """Coordinates of a few times 2^-1074: all products underflow."""
    t = TINY
    ends = [((t, 0, 0), (5 * t, 0, 0)), ((3 * t, 0, 0), (7 * t, 0, 0)), ((0, t, 0), (5 * t, 6 * t, 0))]
    for i, (p, q) in enumerate(ends):
        still = segment((2 * t, 0, 0), (2 * t, 0, 0))
        yield 'tiny-%d' % i, sheet(still, segment(p, q), S=100)
        yield 'tiny-%d-back' % i, sheet(segment(p, q), still, S=100)
        yield 'tiny-%d-gap' % i, sheet(still, segment(p, q), S=100, gap=t)


def measures():
    """Nets that are out of measure, or near it."""
    for e in range(-1074, -1015, 4):
        tiny = segment((0, 0, 0), (1, 0, 0), 0.0, BINADE(e))
        yield 'span-2^%d' % e, sheet(tiny, UNIT, S=4)
        yield 'span-2^%d-second' % e, sheet(FAR, tiny, S=4)
    for e in (-1022, -1023, -1024, -1030, -1060, -1070, -1072, -1073):
        h = BINADE(e)
        l = line(2, [0.0, h, 1.0], [3, 1, 3], [(0, 0, 0), (1, 1, 0), (2, 0, 0), (3, 1, 0)])
        yield 'first-span-2^%d' % e, sheet(l, UNIT, S=4)
        yield 'first-span-2^%d-from' % e, sheet(l, UNIT, S=4, ranges=[(h, 1.0), None])
        yield 'first-span-2^%d-far' % e, sheet(segment((500, 0, 0), (600, 0, 0)), l, S=4)
        m = line(3, [0.0, h, 1.0, 2.0], [2, 1, 2, 3], [(i, i % 2, 0) for i in range(4)])
        yield 'mixed-2^%d' % e, sheet(m, UNIT, S=4)
    w = bezier([(1e7, 1e7, 0), (-1e7, 1e7, 0), (1e7, -1e7, 3)], weights=[BINADE(-10), BINADE(10), BINADE(-10)])
    yield 'weights-wide', sheet(w, w, S=20)
    # f0 rounds to 1: the upper cut is left out
    yield 'f0-is-1', sheet(segment((0, 0, 0), (1, 0, 0), -BINADE(20), BINADE(-1060)), UNIT,
                           ranges=[(0.0, BINADE(-1060)), None], S=4)
    yield 'f0-is-1-degree-3', sheet(bezier([(0, 0, 0), (1, 0, 0), (1, 2, 0), (3, 3, 1)], -1.0, BINADE(-70)), UNIT,
                                    ranges=[(0.0, BINADE(-70)), None], S=4)
    yield 'f0-near-1', sheet(bezier([(0, 0, 0), (1, 0, 0), (1, 2, 0), (3, 3, 1)], -1.0, BINADE(-52)), UNIT,
                             ranges=[(0.0, BINADE(-52)), None], S=4)
    far = BINADE(24)
    cut = bezier([(far, -far, far), (below(far), -far, below(far)), (far, -below(far), far)])
    for i, r in enumerate([(0.1, 0.9), (1 / 3, 2 / 3), (0.7, 1.0), (0.0, 0.3)]):
        yield 'cut-at-limit-%d' % i, sheet(cut, cut, ranges=[r, r], S=10)


def pairs_of_lines():
    """Crossing, parallel, overlapping, touching, tangent and near lines."""
    base = segment((0, 0, 0), (4, 0, 0))
    others = {
        'cross': ((2, -1, 0), (2, 1, 0)), 'cross-third': ((4 / 3, -1, 0), (1.5, 1, 0)),
        'touch-end': ((4, 0, 0), (5, 3, 0)), 'touch-inside': ((1, 0, 0), (1, 3, 1)),
        'touch-start': ((0, 0, 0), (0, 0, 1)), 'parallel': ((0, 1, 0), (4, 1, 0)),
        'parallel-shifted': ((1, 0.5, 0), (7, 0.5, 0)), 'overlap': ((1, 0, 0), (6, 0, 0)),
        'inside': ((1, 0, 0), (2, 0, 0)), 'turned': ((4, 0, 0), (0, 0, 0)),
        'in-line': ((5, 0, 0), (7, 0, 0)), 'in-line-touching': ((4, 0, 0), (7, 0, 0)),
        'skew': ((2, -1, 0.5), (2, 1, 0.5)), 'near': ((0, 1e-9, 0), (4, 1e-9, 0)),
        'nearly-parallel': ((0, -1e-12, 0), (4, 1e-12, 0)), 'still': ((2, 0, 0), (2, 0, 0)),
    }
    for name, (p, q) in others.items():
        for gap in (0.0, 1e-9, 0.5, 1.0, 3.0):
            yield 'lines-%s-gap%g' % (name, gap), sheet(base, segment(p, q), S=60, gap=gap)
        yield 'lines-%s-back' % name, sheet(segment(p, q), base, S=60, gap=0.5)
    arc = bezier([(1, 0, 0), (1, 1, 0), (0, 1, 0)], weights=[1, math.sqrt(0.5), 1])
    arc2 = bezier([(2, 0, 0), (2, 2, 0), (0, 2, 0)], weights=[1, math.sqrt(0.5), 1])
    for gap in (0.0, 0.5, 0.999, 1.0, 1.001):
        yield 'arcs-gap%g' % gap, sheet(arc, arc2, S=100, gap=gap)
        yield 'arcs-itself-gap%g' % gap, sheet(arc, arc, S=100, gap=gap)
    tangent = segment((1, -1, 0), (1, 1, 0))
    for gap in (0.0, 1e-6, 0.01):
        yield 'arc-tangent-gap%g' % gap, sheet(arc, tangent, gap=gap)
        yield 'arc-tangent-back-gap%g' % gap, sheet(tangent, arc, gap=gap)
    cubic = bezier([(0, 0, 0), (1, 3, 0), (2, -3, 0), (3, 0, 0)])
    yield 'cubic-three-meetings', sheet(cubic, segment((0, -0.1, 0), (3, 0.1, 0)))
    yield 'cubics', sheet(cubic, bezier([(0, 0.5, 0), (1, -3, 1), (2, 3, -1), (3, 0, 0)]))


def axes():
    """Verdicts that hang on which of two chords counts as longer, and on the direction of an axis: sums
    and the gap are rounded, so an axis and its opposite can differ."""
    # 64 and 64 + 2^-46 have the same rounded root
    yield 'chords-by-squares', sheet(bezier([(0, 0, 0), (4, 10, 0), (8, 0, 0)]),
                                     segment((0, 8, 0), (8, 8, BINADE(-23))), S=0, gap=9.0)
    yield 'normal-direction', sheet(segment((-1, 0, 0.3), (3, 0, 0.3)), segment((0, -1, 0.4), (0.5, 1, 0.4)), S=0, gap=0.1)
    yield 'chord-direction', sheet(segment((0, 0.3, 0), (3, 0.3, 0)), segment((1, 1, 0), (2, 2, 0)), S=0, gap=0.7)
    yield 'line-direction', sheet(
        segment((0, 0, 0), (0.8, 0.5, 0.30000000000000004)),
        segment((1.0424366106925307, 0.6515228816828317, 0.390913729009699),
                (1.4424366106925306, 0.9015228816828316, 0.540913729009699)), S=0, gap=0.3)


def limits():
    """All of the lent memory needed, and a weight beyond the limit by a factor of 2."""
    rail = lambda pieces: clamped(25, [(i, 0, 0) for i in range(pieces + 25)])
    far, along = segment((0, 500, 0), (9, 500, 0)), segment((0, 0, 0), (36, 0, 0))
    yield 'pieces-8112', sheet(rail(78), far, S=1)
    yield 'pieces-8112-second', sheet(far, rail(78), S=1)
    yield 'nets-7904', sheet(rail(12), along, S=0)
    yield 'nets-7904-second', sheet(along, rail(12), S=0)
    heavy = bezier([(0, 0, 0), (1, 1, 0)], weights=[1.0, BINADE(11)])
    yield 'weight-2^11', sheet(heavy, A)
    yield 'weight-2^11-second', sheet(A, heavy)


PICKED = [('edge', [17, 33, 51, 56, 135, 273]),
          ('limit', [107, 675, 1676, 1774, 2067, 3547, 3603, 3652, 3894]),
          ('lines', [21, 342, 1162, 1280, 1371, 1497, 1682, 3383]),
          ('small_pieces', [336, 748, 892, 2222, 2828])]


def picked():
    """Sheets of the random kinds whose answers hang on a single rounding, an
    equality or the order of two tests."""
    for kind, seeds in PICKED:
        for seed in seeds:
            yield 'picked-%s-%d' % (kind, seed), globals()['kind_' + kind](Rng(seed))


def drawn():
    """All drawn sheets: (name, bytes)."""
    for part in (checks, point_contacts, word_faults, empty_parts, line_faults, question_faults,
                 memory_faults, merging, zero_starts, tiny_coordinates, measures, pairs_of_lines,
                 picked, axes, limits):
        yield from part()
    for name, make in EXAMPLES:
        yield 'example-' + name, make()


# ---- drawn sheets with closed lines (document 02, M-100) ---------------------------


def beside(x, n):
    """The double n doubles above x, or below for a negative n."""
    bits = struct.unpack('<q', struct.pack('<d', x))[0]
    at = (bits if bits >= 0 else -(bits & 0x7FFFFFFFFFFFFFFF)) + n
    return math.copysign(struct.unpack('<d', struct.pack('<q', abs(at)))[0], at)


def period(l):
    return l.knots[-1] - l.knots[0]


def round_poles(n, radius=10.0):
    """n poles round the z axis."""
    angles = [2 * math.pi * i / n for i in range(n)]
    return [(round(radius * math.cos(t), 3), round(radius * math.sin(t), 3), i % 3 * 0.5) for i, t in enumerate(angles)]


def basin(degree, seam, spans, knots=None, inner=1, weights=None):
    """A ring of so many spans; both ends have the seam's multiplicity."""
    knots = [float(i) for i in range(spans + 1)] if knots is None else knots
    mults = [seam] + [inner] * (spans - 1) + [seam]
    return ring(degree, knots, mults, round_poles(sum(mults) - seam), weights)


def turn_from(l, lo):
    """A whole turn from lo, its end rounded."""
    return (lo, lo + period(l))


TRIANGLE = ring(1, [0, 1, 2, 3], [1, 1, 1, 1], [(0, 0, 0), (4, 0, 0), (0, 3, 0)])
SQUARE = ring(1, [0, 1, 2, 3, 4], [1, 1, 1, 1, 1], [(0, 0, 0), (8, 0, 0), (8, 8, 0), (0, 8, 0)])
SPOKE = segment((-1, 2, 0), (30, 3, 1))


def turns():
    """Every multiplicity of the seam; whole turns and stretches over the seam from
    a knot, from inside a span and from the doubles beside a knot."""
    for degree in (1, 2, 3, 4, 5):
        for seam in range(1, degree + 1):
            l = basin(degree, seam, degree + 2)
            starts = {'first': 0.0, 'knot': 2.0, 'inside': 1.375, 'after': beside(2.0, 1), 'below': beside(2.0, -1),
                      'last-span': degree + 1.25, 'below-last': beside(degree + 2.0, -2)}
            for start, lo in starts.items():
                for part, length in (('turn', period(l)), ('half', 0.5 * period(l)), ('span', 1.0)):
                    name = 'ring-%d-%d-%s-%s' % (degree, seam, start, part)
                    yield name, sheet(l, SPOKE, S=3, ranges=[(lo, lo + length), None])
    for degree, seam, spans in ((8, 1, 9), (8, 5, 4), (8, 8, 2), (25, 1, 26), (25, 25, 2), (25, 13, 14)):
        l = basin(degree, seam, spans)
        yield 'ring-%d-%d' % (degree, seam), sheet(l, SPOKE, S=0)
        yield 'ring-%d-%d-over' % (degree, seam), sheet(SPOKE, l, S=0, ranges=[None, (spans - 0.5, spans + 0.75)])


def seam_spans():
    """The spans at the seam one by one, with uneven knots and poles; the gap lists
    each, with the box of its net."""
    for degree in (1, 2, 3, 4, 5):
        for seam in range(1, degree + 1):
            n = degree + 2
            l = basin(degree, seam, n, [i + 0.1 * (i % 3) for i in range(n + 1)])
            l.poles = [(x * (1 + i % 2), y, z + i) for i, (x, y, z) in enumerate(l.poles)]
            for way, weights in (('plain', None), ('weights', [1.0 + i % 3 * 0.5 for i in range(len(l.poles))])):
                l.weights = weights
                over = l.knots[n - 1] + 0.5
                for at, r in (('first', l.knots[:2]), ('last', l.knots[n - 1:]), ('again', (over, over + 0.875))):
                    yield 'seam-%d-%d-%s-%s' % (degree, seam, way, at), sheet(l, UNIT, S=0, ranges=[r, None], gap=60.0)


def seams():
    """Rings against each other, with weights, inner multiplicities, far knots."""
    for i, (a, b) in enumerate([(TRIANGLE, SQUARE), (SQUARE, TRIANGLE), (TRIANGLE, TRIANGLE), (SQUARE, A), (A, SQUARE)]):
        for lo in (0.0, 0.5, 2.5):
            ranges = [turn_from(l, lo) if l.closed else None for l in (a, b)]
            yield 'closed-pair-%d-%g' % (i, lo), sheet(a, b, S=2, ranges=ranges)
    for degree in (1, 2, 3):
        for inner in range(1, degree + 1):
            l = basin(degree, degree, 4, inner=inner)
            l.weights = [1.0 + i % 3 * 0.5 for i in range(len(l.poles))]
            yield 'closed-weights-%d-%d' % (degree, inner), sheet(l, SPOKE, S=4)
            yield 'closed-weights-%d-%d-over' % (degree, inner), sheet(l, SPOKE, S=4, ranges=[(3.3, 5.9), None])
    for lo in (0.0, 3.3):
        for i, m in enumerate(([1, 2, 1, 3, 1], [2, 1, 3, 1, 2], [3, 1, 2, 1, 3], [1, 3, 3, 3, 1])):
            l = ring(3, [0, 1, 2, 3, 4], m, round_poles(sum(m) - m[0]))
            yield 'closed-mults-%d-%g' % (i, lo), sheet(l, SPOKE, S=6, ranges=[turn_from(l, lo), None])
    far = [-BINADE(20), -3.0, 0.5, BINADE(20)]
    for lo in (far[0], -7.5, 0.5, 9.0):
        l = basin(2, 1, 3, far)
        yield 'closed-far-%g' % lo, sheet(l, SPOKE, S=2, ranges=[turn_from(l, lo), None])
    # few poles: the knots of a span come round more than once
    for degree, m in ((2, [2, 1, 2]), (3, [3, 1, 3]), (3, [2, 2, 2]), (3, [1, 3, 1]), (5, [3, 3, 3]), (5, [1, 5, 1]),
                      (2, [1, 1, 1, 1])):
        l = ring(degree, [0.0, 0.75, 2.0, 2.5][:len(m)], m, round_poles(sum(m) - m[0]))
        for lo in (0.0, 1.9):
            yield 'closed-least-%d-%d-%g' % (degree, m[0], lo), sheet(l, SPOKE, S=2, ranges=[turn_from(l, lo), None])


ROUNDING = [[-0.7, -0.3, 0.1, 0.3, 0.6], [-0.697481702000372, -0.5, -0.1, 0.45022719274630707], [0.1, 0.2, 0.3, 0.7],
            [-0.1, 0.05, 1 / 3, 0.9], [1e-3, 0.1, 17.3, 1000.1], [-1000.3, -7.7, 0.1, 3.3], [-1.0, 0.0, 1.0, 2.0]]


def rounded_periods():
    """Periods that round: first + period isn't last, or in_period leaves the turn."""
    for i, knots in enumerate(ROUNDING):
        n = len(knots) - 1
        for degree, seam in ((1, 1), (2, 1), (2, 2), (3, 2)):
            l = basin(degree, seam, n, knots, inner=2 if degree == 3 else 1)
            if len(l.poles) <= degree:
                continue
            last = knots[-1]
            half = 0.5 * (knots[n - 1] + last)
            for name, r in (('turn', (knots[0], last)), ('inner', turn_from(l, knots[1])),
                            ('past', (beside(last, -3), beside(last, 5))), ('below', (beside(last, -4), last)),
                            ('over', (half, half + 0.5 * period(l)))):
                yield 'rounded-%d-%d-%d-%s' % (i, degree, seam, name), sheet(l, SPOKE, S=1, ranges=[r, None])
    yield 'rounded-to-turn', sheet(basin(1, 1, 3, ROUNDING[6]), SPOKE, S=0, ranges=[(beside(2.0, -2), 3.0), None])


E43 = BINADE(-43)
LAST_SIDE = ring(1, [-1000.0, -1.0, 0.0, BINADE(-60)], [1] * 4, [(0, 0, 0), (1000, 0, 0), (1000, 1000, 0)])
FIRST_SIDE = ring(1, [-1000 + E43, -1000 + 2 * E43, -500.0, 0.0, 1 + E43], [1] * 5,
                  [(0, 0, 0), (1000, 0, 0), (1000, 1000, 0), (0, 1000, 0)])


def lost_spans():
    """Spans that in_period alone doesn't find: a kilometre of the ring is crossed."""
    last, first = segment((300, 500, 0), (500, 300, 0)), segment((500, -1, 0), (500, 1, 0))
    for s in (0, 20):
        yield 'lost-last-S%d' % s, sheet(LAST_SIDE, last, S=s, ranges=[(-1000.0, BINADE(-60)), None], gap=1.0)
        yield 'lost-last-second-S%d' % s, sheet(last, LAST_SIDE, S=s, ranges=[None, (-1000.0, BINADE(-60))], gap=1.0)
        yield 'lost-first-S%d' % s, sheet(FIRST_SIDE, first, S=s, ranges=[(-400.0, 600.0), None])
        yield 'lost-first-second-S%d' % s, sheet(first, FIRST_SIDE, S=s, ranges=[None, (-400.0, 600.0)])
    # the last doubles of a turn, whose quotient rounds to 1; the gap lists them
    rings = [(4, [-0.7, 0.6, 0.7, 0.8], 1), (4, [-3.3, -2.0, -1.374, -1.274, 0.026, 0.326], 2),
             (5, [-3.3, -2.0, -1.3, -1.0, -0.663, -0.585], 4), (3, [-1.0, 0.0, 1.0, 2.0], 2)]
    for i, (degree, knots, seam) in enumerate(rings):
        l = basin(degree, seam, len(knots) - 1, knots, inner=degree - 1)
        for name, hi in (('to', knots[-1]), ('over', knots[-1] + 0.05)):
            yield 'last-doubles-%d-%s' % (i, name), sheet(l, UNIT, S=0, ranges=[(beside(knots[-1], -2), hi), None], gap=20.0)


CLOSED_SPOILS = {
    22: lambda l: l.mults.__setitem__(0, 1), 4: lambda l: setattr(l, 'degree', 26), 5: lambda l: l.mults.insert(1, 1),
    6: lambda l: l.knots.__setitem__(2, NAN), 7: lambda l: l.knots.__setitem__(1, l.knots[0]),
    8: lambda l: l.mults.__setitem__(1, 3), 9: lambda l: l.mults.__setitem__(1, 0), 10: lambda l: l.poles.append((1, 1, 1)),
    12: lambda l: setattr(l, 'weights', [1.0] * 9), 13: lambda l: setattr(l, 'weights', [0.0] * len(l.poles)),
    14: lambda l: l.poles.__setitem__(0, (NAN, 0, 0))}


def closed_faults():
    """4 to 14 and 22 of a closed line, and 22 with each of the others, on either line."""
    pairs = [(n, None) for n in CLOSED_SPOILS] + [(22, n) for n in CLOSED_SPOILS if n != 22]
    for number, other in pairs:
        l = basin(2, 2, 3)
        CLOSED_SPOILS[number](l)
        if other is not None:
            CLOSED_SPOILS[other](l)
        name = 'closed-no%d' % number + ('' if other is None else '-with-%d' % other)
        yield name, sheet(l, A, ranges=[(0, 1), None])
        yield name + '-second', sheet(A, l, ranges=[None, (0, 1)])
    wrong = basin(2, 2, 3)
    wrong.mults[-1] = 1
    for name, a, b in (('22-22', wrong, wrong), ('22-4', wrong, line(0, [], [], [])),
                       ('14-22', segment((NAN, 0, 0), (1, 0, 0)), wrong)):
        yield 'closed-' + name, sheet(a, b, ranges=[(0, 1), (0, 1)])
    yield 'closed-22-15', sheet(wrong, A, ranges=[(9, 1), None])


HUGE = 0xFFFFFFFF
END_MULTS = {'huge-first': (1, [HUGE, 1, 1]), 'huge-last': (1, [1, 1, HUGE]), 'huge': (1, [HUGE, 1, HUGE]),
             'over': (2, [3, 1, 3]), 'over-1': (1, [2, 1, 2]), 'full': (2, [2, 2, 2]), 'zero': (1, [0, 2, 0]),
             'zeros': (2, [0, 1, 1, 1, 0]), 'zero-last': (1, [1, 1, 0]), 'inner-over': (2, [2, 3, 2]),
             'over-differ': (2, [3, 1, 4]), 'over-less': (2, [2, 1, 3])}


def closed_ends():
    """End multiplicities: huge ones, one over the degree, 0; as many poles as a closed
    line has and as many as an open one; the same of an open line."""
    for name, (degree, m) in END_MULTS.items():
        poles = lambda beyond: round_poles(9)[:max(0, min(9, sum(m) - beyond))]
        closed = lambda beyond: ring(degree, range(len(m)), m, poles(beyond))
        yield 'closed-ends-%s-last' % name, sheet(closed(m[-1]), A, S=1, ranges=[(0, 1), None])
        yield 'closed-ends-%s-degree' % name, sheet(closed(degree + 1), A, S=1, ranges=[(0, 1), None])
        plain = line(degree, range(len(m)), m, poles(degree + 1))
        yield 'open-ends-%s' % name, sheet(plain, A, S=1, ranges=[(0, 1), None])


def closed_poles():
    """10 and 11: a pole more, a pole less, one span, as many poles as the degree, 128 and 129 poles."""
    even = lambda degree, m, n: ring(degree, range(len(m)), m, round_poles(n))
    lines = {'more': even(1, [1] * 4, 4), 'fewer': even(1, [1] * 4, 2), 'none': even(1, [1] * 3, 0),
             'one-span': even(2, [2, 2], 2), 'one-span-25': even(25, [25, 25], 25), 'degree': even(3, [1, 2, 1], 3),
             'width': even(3, [1, 3, 1], 4), '128': even(2, [2] * 65, 128), '129': even(2, [1] + [2] * 64 + [1], 129)}
    other = segment((9.5, -1, 0), (9.5, 1, 1))
    for name, l in lines.items():
        yield 'closed-poles-%s' % name, sheet(l, other, S=0)
        yield 'closed-poles-%s-second' % name, sheet(other, l, S=0)


def closed_ranges():
    """Number 15 of a closed line, at each of its ends."""
    unit = ring(1, [0.0, 0.25, 0.5, 1.0], [1] * 4, TRIANGLE.poles)
    half = BINADE(-53)
    ranges = {
        'whole': (0.0, 1.0), 'at-first': (0.0, 0.5), 'minus-zero': (-0.0, 1.0), 'below-first': (-TINY, 0.5),
        'at-last': (1.0, 1.5), 'at-last-turn': (1.0, 2.0), 'below-last': (beside(1.0, -1), 1.5),
        'below-last-turn': (beside(1.0, -1), beside(2.0, -1)), 'after-last': (1.25, 1.5), 'second-turn': (1.5, 1.75),
        'period': (0.25, 1.25), 'over-period': (0.25, beside(1.25, 1)), 'under-period': (0.25, beside(1.25, -1)),
        'rounded-period': (half, beside(1.0, 1)), 'rounded-longer': (1.5 * half, beside(1.0, 1)),
        'rounded-two': (half, beside(1.0, 2)), 'rounded-back': (0.5 * half, beside(1.0, 1)), 'empty': (0.5, 0.5),
        'falling': (0.75, 0.5), 'falling-over': (0.75, -0.5), 'nan': (NAN, 1.0), 'nan-hi': (0.0, NAN), 'inf': (0.5, INF),
        'minus-inf': (-INF, 0.5), 'inf-both': (-INF, INF), 'inf-lo': (INF, INF), 'max': (0.5, 1.7e308),
        'two-turns': (0.0, 2.0)}
    for name, r in ranges.items():
        yield 'closed-range-%s' % name, sheet(unit, A, S=0, ranges=[r, None])
        yield 'closed-range-%s-second' % name, sheet(A, unit, S=0, ranges=[None, r])
    shifted = ring(1, [-0.7, -0.3, 0.1, 0.3, 0.6], [1] * 5, SQUARE.poles)
    p = period(shifted)
    for lo in (-0.7, -0.3, 0.1, 0.5, beside(0.6, -1)):
        for n in (-1, 0, 1, 2):
            yield 'closed-range-rounds-%g-%d' % (lo, n), sheet(shifted, A, S=0, ranges=[(lo, beside(lo + p, n)), None])
    # an open line's bounds are other flat knots
    yield 'closed-range-inner-bounds', sheet(basin(3, 1, 5), SPOKE, S=0, ranges=[(0.0, 5.0), None])
    yield 'closed-no15-before-16', sheet(unit, A, S=300, ranges=[(1.0, 1.5), None], gap=-1.0)
    yield 'closed-no15-second-before-18', sheet(unit, unit, ranges=[(0.5, beside(0.5, 1)), (1.0, 1.5)])


FALLING = [[-0.623, beside(-0.623, 1), 1.0, 3.0, 7.42], [-0.036, beside(-0.036, 1), 0.1, 0.5, 0.993]]


def closed_breaks():
    """Number 18: knots that come again at or below a break; and lists that just pass."""
    onto = ring(1, [0.0, BINADE(-60), 0.5, 1.0], [1] * 4, TRIANGLE.poles)
    for name, r in (('onto', (0.25, 1.25)), ('onto-short', (0.5, 1.0)), ('onto-past', (0.5, beside(1.0, 2))),
                    ('onto-turn', (0.0, 1.0)), ('onto-half', (BINADE(-61), 1.0)), ('onto-last', (beside(1.0, -2), 1.5))):
        yield 'closed-%s' % name, sheet(onto, A, S=0, ranges=[r, None])
        yield 'closed-%s-second' % name, sheet(A, onto, S=0, ranges=[None, r])
    near = ring(1, [0.0, BINADE(-52), 0.5, 1.0], [1] * 4, TRIANGLE.poles)
    wide = ring(1, [0.0, BINADE(-51), 0.5, 1.0], [1] * 4, TRIANGLE.poles)
    for name, l in (('near', near), ('wide', wide)):
        for r in ((0.25, 1.25), (0.0, 1.0), (0.5, beside(1.0, 3)), (BINADE(-53), 1.0)):
            yield 'closed-%s-%g-%g' % (name, r[0], r[1]), sheet(l, A, S=0, ranges=[r, None])
    # the second knot comes again below the last one
    for i, knots in enumerate(FALLING):
        l = basin(1, 1, len(knots) - 1, knots)
        for r in ((knots[2], knots[2] + period(l)), (knots[-2], beside(knots[-1], 3)), (knots[0], knots[-1])):
            yield 'closed-falling-%d-%g' % (i, r[0]), sheet(l, SPOKE, S=0, ranges=[r, None])
    # 126 knots come again at the last one: 255 breaks
    first = -BINADE(-30)
    crowded = ring(1, [first + i * BINADE(-80) for i in range(127)] + [first + 2.0], [1] * 128, round_poles(127))
    yield 'closed-crowded', sheet(crowded, A, ranges=[(first, first + 2.0 + BINADE(-52)), None])
    yield 'closed-crowded-second', sheet(A, crowded, ranges=[None, (first, first + 2.0 + BINADE(-52))])


def closed_memory():
    """Number 19 and what just passes: pieces of a turn from a knot and from inside a span."""
    off = segment((0, 500, 0), (9, 500, 0))
    for degree, spans in ((25, 77), (25, 78), (25, 79), (15, 126), (15, 127), (1, 127)):
        l = basin(degree, 1, spans)
        name = 'closed-pieces-%d-%d' % (degree, spans)
        yield name, sheet(l, off, S=1)
        yield name + '-inside', sheet(l, off, S=1, ranges=[turn_from(l, 3.5), None])
        yield name + '-knot', sheet(off, l, S=1, ranges=[None, turn_from(l, 3.0)])
        yield name + '-inside-second', sheet(off, l, S=1, ranges=[None, turn_from(l, spans - 0.5)])
    many = basin(1, 1, 127)
    yield 'closed-pairs', sheet(many, many, S=0, ranges=[(0.5, 127.5), (0.5, 127.5)], gap=100.0)
    for n in (12, 13):
        l = ring(1, range(n + 1), [1] * (n + 1), [(i % 2, i, 0) for i in range(n)])
        along = segment((0.5, -1, 0), (0.5, n, 0))
        yield 'closed-pairs-%d' % n, sheet(l, along, S=0)
        yield 'closed-pairs-%d-inside' % n, sheet(l, along, S=0, ranges=[turn_from(l, 0.5), None])


def closed_words():
    """The word that opens a line: kind 8 on one line, on both, and other kinds."""
    q, end = question(0, [(0, 1), (0, 1)], 0.0), head(7, 0)
    r, u = TRIANGLE.data(), UNIT.data()
    for name, a, b in (('first', r, u), ('second', u, r), ('both', r, r), ('neither', u, u)):
        yield 'closed-%s' % name, a + b + q + end
        for kind in (0, 1, 7, 8, 9, 15):
            yield 'closed-%s-kind-%d' % (name, kind), head(kind, 1) + a[4:] + b + q + end
            yield 'closed-%s-kind-%d-second' % (name, kind), a + head(kind, 1) + b[4:] + q + end
    for at in (0, 4, 8, 40, len(r), len(r) + 4):
        yield 'closed-cut-%d' % at, (r + r + q + end)[:at]
    for degree in (0, 26, 0x0FFFFFFF):
        yield 'closed-degree-%d' % degree, head(8, degree) + r[4:] + u + q + end
    yield 'closed-twice', head(8, 1) + r + u + q + end
    yield 'closed-after-open', head(1, 1) + r + u + q + end
    yield 'closed-weights-0', r[:-4] + head(5, 0) + r[-4:] + u + q + end
    yield 'closed-as-end', u + u + q + head(8, 0)


def closed_drawn():
    """All drawn sheets with closed lines: (name, bytes)."""
    for part in (turns, seam_spans, seams, rounded_periods, lost_spans, closed_faults, closed_ends, closed_poles,
                 closed_ranges, closed_breaks, closed_memory, closed_words):
        yield from part()
    for name, make in CLOSED_EXAMPLES:
        yield 'example-' + name, make()


# ---- drawn sheets with stretch marks (document 02, M-101) --------------------------

OPPOSITE = ring(1, [0, 1, 2, 3, 4], [1] * 5, [(0, 0, 0), (-8, 0, 0), (-8, -8, 0), (0, -8, 0)])  # meets SQUARE at both seams
DIAGONAL = segment((-1, 1, 0), (1, -1, 0))


def loops(path):
    """Degree 1 round the corner of SQUARE at its seam: a crosses the first side, b the last, c both,
    at the corner; d after b goes round outside, after a through the corner."""
    at = {'a': (1, 1, 0), 'b': (-1, 1, 0), 'c': (1, -1, 0), 'd': (-1, -1, 0), 'e': (1, -1, 0)}
    return polyline([(1, -1, 0)] + [at[step] for step in path.replace('d', 'de')])


def both_ways(name, a, b, S=256, ranges=(None, None), gap=0.0):
    """The sheet and, as -back, the one with the lines changed over."""
    yield name, sheet(a, b, S, ranges, gap)
    yield name + '-back', sheet(b, a, S, ranges[::-1], gap)


def seam_groups():
    """Groups over the seam of the first line, of the second and of both; chains whose ends aren't
    neighbours; groups beside other regions."""
    for s in (0, 1, 5, 20, 60):
        yield from both_ways('group-one-S%d' % s, SQUARE, DIAGONAL, s)
        yield from both_ways('group-corners-S%d' % s, SQUARE, OPPOSITE, s)
    # two regions that meet over both seams, and no others
    quay = ring(1, range(5), [1] * 5, [(0, 0, 0), (0, 10, 0), (10, 10, 0), (10, 0, 0)])
    pipe = ring(1, range(5), [1] * 5, [(5, -5, -6), (5, 5, 6), (-10, 20, 20), (-1, 7, 1.2)])
    yield from both_ways('group-both-seams', quay, pipe, 0, gap=0.01)
    # a, b, c: each round begins where the last one ended, so all are one chain
    for path in ('ab', 'abc', 'abca', 'abcab', 'abcabc', 'abcabcab', 'bcab'):
        for s in (0, 2):
            yield from both_ways('chain-%s-S%d' % (path, s), SQUARE, loops(path), s)
    # a, b, d: each round is a group by itself; a alone and b alone are in none
    for path in ('abd', 'abdabd', 'abdabdabdabd', 'abdabdabdabdabdabd', 'abdad', 'adabd', 'abcdabd', 'adabdad', 'abdabcdab'):
        for s in (0, 3, 67):
            yield from both_ways('groups-%s-S%d' % (path, s), SQUARE, loops(path), s)
    # a region between the members of a group, and one behind the last member's start
    long = polyline([(-2, 1, 0), (2, -1, 0), (9, 4, 0), (7, 5, 0), (4, 9, 0), (3, 7, 0), (-1, 4, 0)])
    for s in (0, 20, 60):
        yield from both_ways('group-among-S%d' % s, SQUARE, long, s)
    # one region from lo to hi
    yield 'group-itself', sheet(SQUARE, SQUARE, S=0)


SIDES = [0.0, 0.5, 0.75, 1.0]
YARD = [(0, 0, 0), (8, 0, 0), (0, 6, 0)]


def point_at(l, t):
    """About where a closed line is at t of its turn; weights aside."""
    p, n, turn = l.degree, len(l.poles), l.flat()[:len(l.poles)]
    knot = lambda i: turn[i % n] + period(l) * (i // n)
    s = max(i for i in range(n) if turn[i] <= t)
    d = [l.poles[(s + 1 - l.mults[0] + j) % n] for j in range(p + 1)]
    for r in range(1, p + 1):
        for j in range(p, r - 1, -1):
            lo, hi = knot(s - p + j), knot(s + 1 + j - r)
            f = (t - lo) / (hi - lo) if hi > lo else 0.0
            d[j] = tuple(x + f * (y - x) for x, y in zip(d[j - 1], d[j]))
    return d[p]


def across(l, t, reach=1.0):
    """A short segment through the closed line's point at t."""
    x, y, z = point_at(l, t)
    return segment((x - reach, y + reach, z), (x + reach, y - reach, z))


TURN_RANGES = {
    'first': (0.0, 1.0), 'minus-zero': (-0.0, 1.0), 'inside': (0.25, 1.25), 'knot': (0.5, 1.5), 'last-side': (0.875, 1.875),
    'less': (0.0, beside(1.0, -1)), 'inside-less': (0.25, beside(1.25, -1)), 'inside-later': (beside(0.25, 1), 1.25),
    'inside-later-2': (beside(0.25, 2), 1.25), 'more': (0.25, beside(1.25, 1)), 'half': (0.25, 0.75),
    # hi - lo rounds to the period; lo + period rounds below hi, and with the second there is no middle (18)
    'rounds-longer': (0.25 + BINADE(-53), 1.25 + BINADE(-52)), 'rounds-longest': (BINADE(-53), 1 + BINADE(-52)),
    # lo + period rounds to hi; hi - lo rounds below the period
    'rounds-shorter': (0.125 + 3 * BINADE(-55), 1.125), 'first-shorter': (3 * BINADE(-55), 1.0)}


def whole_turns():
    """What a whole turn is, and where its seam: at the asked ends, of a closed line only."""
    yard, fence = ring(1, SIDES, [1] * 4, YARD), polyline(YARD + YARD[:1], SIDES)
    for name, r in TURN_RANGES.items():
        for s in (0, 9):
            yield from both_ways('turn-%s-S%d' % (name, s), yard, across(yard, r[0]), s, [r, None], 0.01)
    for name in ('first', 'minus-zero', 'less', 'first-shorter'):
        for s in (0, 9):
            yield from both_ways('open-%s-S%d' % (name, s), fence, across(yard, 0.0), s, [TURN_RANGES[name], None], 0.01)
    # four corners: one group if both are whole turns, two if one is, none if neither
    less = (0.0, beside(4.0, -1))
    around = polyline(OPPOSITE.poles + OPPOSITE.poles[:1])
    for s in (0, 30):
        yield from both_ways('corners-first-S%d' % s, SQUARE, OPPOSITE, s, [None, less], 0.01)
        yield from both_ways('corners-none-S%d' % s, SQUARE, OPPOSITE, s, [less, less], 0.01)
        yield from both_ways('corners-open-S%d' % s, SQUARE, around, s, gap=0.01)
    # turns whose length rounds
    for i, knots in enumerate(ROUNDING):
        l = basin(1, 1, len(knots) - 1, knots)
        for j, lo in enumerate([knots[0], knots[1], 0.5 * (knots[0] + knots[1]), 0.7 * knots[0] + 0.3 * knots[-1]]):
            yield from both_ways('turn-rounded-%d-%d' % (i, j), l, across(l, lo), 0, [turn_from(l, lo), None], 0.01)


def curved_turns():
    """Rings of degree 2 to 5 with a seam at a pole or in a curve; weights."""
    for degree in (2, 3, 5):
        for seam in (1, degree):
            l = basin(degree, seam, degree + 2)
            for lo in (0.0, 0.375, 1.0):
                for s in (0, 4):
                    yield from both_ways('curved-%d-%d-%g-S%d' % (degree, seam, lo, s), l, across(l, lo, 2.0), s, [turn_from(l, lo), None], 0.1)
            near = across(l, 0.0, 2.0)
            l.weights = [1.0 + i % 3 * 0.5 for i in range(len(l.poles))]
            yield from both_ways('curved-weights-%d-%d' % (degree, seam), l, near, 2, gap=0.5)


def choose(n, k):
    out = 1
    for i in range(k):
        out = out * (n - i) // (i + 1)
    return out


def product(f, g):
    """Of two polynomials as whole numbers over the Bernstein polynomials times their binomials."""
    out = [0] * (len(f) + len(g) - 1)
    for i, x in enumerate(f):
        for j, y in enumerate(g):
            out[i + j] += x * y
    return out


def wave(degree, turns):
    """A ring that passes the origin degree - 1 times a span, to and fro: (T, T (2t - 1)) with
    Chebyshev's polynomial T of one degree less."""
    n = degree - 1
    t = [(-1) ** (n - i) * choose(2 * n, 2 * i) for i in range(n + 1)]
    span = [(x / choose(degree, i), y / choose(degree, i), 0.0)
            for i, (x, y) in enumerate(zip(product(t, [1, 1]), product(t, [-1, 1])))]
    poles = (span[:-1] + span[:0:-1]) * (turns // 2)
    return ring(degree, range(turns + 1), [degree] * (turns + 1), poles)


def many_marks():
    """Lists of over 10 and over 100 regions."""
    point = segment((0, 0, 0), (BINADE(-40), 0, 0))
    for degree, turns, lo, s in ((6, 2, 2 - 0.5, 200), (7, 4, 0.5, 100), (9, 6, 2.5, 100), (21, 6, 2 + 565423 * BINADE(-20), 116)):
        l = wave(degree, turns)
        yield from both_ways('wave-%d-%d' % (degree, turns), l, point, s, [turn_from(l, lo), None], 0.005)
        yield 'wave-%d-%d-first' % (degree, turns), sheet(l, point, s, gap=0.005)


def marked_drawn():
    """All drawn sheets with stretch marks: (name, bytes)."""
    for part in (seam_groups, whole_turns, curved_turns, many_marks):
        yield from part()


# ---- drawn sheets by the test that clears (document 02, M-103) ---------------------

RISING = segment((0, 0, 0), (4, 4, 4))
RISEN = segment((4.5, 4.5, 4.5), (6, 6, 6))  # at the gap 0.5 the boxes aren't apart, and there is no plane


def along(start, way, places, lifts=()):
    """One span whose poles are start + place times way, then the first ones lifted along z."""
    lifts = list(lifts) + [0.0] * (len(places) - len(lifts))
    return bezier([tuple(s + u * w for s, w in zip(start, (way[0], way[1]))) + (start[2] + u * way[2] + z,) for u, z in zip(places, lifts)])


def one_test():
    """A pair that one test clears, and no other; the same with that test failing by the last float."""
    for s in (0, 1, 256):
        yield from both_ways('line-only-S%d' % s, RISING, RISEN, s, gap=0.5)
        yield from both_ways('plane-only-S%d' % s, A, PARALLEL, s, gap=0.5)
    for gap in (0.75, 0.866025403784438, 0.8660254037844382, 1.0):
        yield from both_ways('line-gap%r' % gap, RISING, RISEN, 4, gap=gap)
    # 5 apart along the line, and the boxes 4
    steep, on = segment((0, 0, 0), (3, 4, 0)), segment((6, 8, 0), (9, 12, 0))
    for gap in (3.9999999999999996, 4.0, 4.999999999999998, 4.999999999999999, 5.0):
        yield from both_ways('line-3-4-gap%r' % gap, steep, on, 4, gap=gap)
    for n in (2, 3, 4, 5, 8):
        lower, upper = [i / (n - 1) for i in range(n)], [1.1 + i / (2 * n - 2) for i in range(n)]
        for lift in (0.0, 0.1, 0.4, 0.6, 2.0):
            lifts = [0.0] + [lift] * (n - 2)
            yield from both_ways('line-degree%d-lift%g' % (n - 1, lift), along((0, 0, 0), (4, 4, 4), lower, lifts), along((0, 0, 0), (4, 4, 4), upper), 16, gap=0.5)
    # only the normal of both chords; only that of one chord in their plane
    for gap in (0.25, 0.7276068751089989, 0.75):
        yield from both_ways('plane-normal-gap%r' % gap, segment((-2, -2, -0.5), (2, 2, 0.5)), segment((-2, 2, 0.25), (2, -2, 1.25)), 4, gap=gap)
    for gap in (0.5, 0.7071067811865475, 0.75):
        yield from both_ways('plane-one-chord-gap%r' % gap, segment((0, 0, 0), (4, 4, 0)), segment((2.5, 1.5, 0), (4, 0, 0)), 4, gap=gap)


def two_tests():
    """Nodes that more than one test clears: the first in document 01's order is said."""
    # a short chord across the other's line: a plane of it clears, and so does the line
    for size in (0.25, 0.5, 0.75):
        short = segment((10.6 + size / 2, 10.6 - size / 2, 0), (10.6 - size / 2, 10.6 + size / 2, 0))
        for s in (0, 4):
            yield from both_ways('plane-and-line-%g-S%d' % (size, s), segment((0, 0, 0), (10, 10, 0)), short, s, gap=0.5)
    # a bulge in the first half alone: the second is in line, and its box apart
    for lift in (0.55, 0.63, 0.65, 0.9, 2.5):
        bulge = along((0, 0, 0), (8, 8, 8), [0.0, 1 / 3, 2 / 3, 1.0], [0.0, lift])
        for s in (0, 1, 60):
            yield from both_ways('box-and-line-%g-S%d' % (lift, s), bulge, segment((-1, -1, -1), (-0.4, -0.4, -0.4)), s, gap=0.5)
    # halves beside the other line: boxes and planes apart
    for gap in (0.0, 0.25, 0.5):
        yield from both_ways('box-and-plane-gap%g' % gap, bezier([(0, 0, 0), (1, 4, 0), (3, 4, 0), (4, 0, 0)]), segment((1, 1.5, 0), (3, 1.5, 0)), 30, gap=gap)


def three_tags():
    """Searches in which all three counts are over 0, and some in which they are not yet."""
    # the first span's halves are cleared by box and by line, the others by plane or not at all
    span = [(0, 0, 0), (2, 2, 0), (2, 2, 2), (4, 4, 4)]
    walk = line(3, [0, 1, 2, 3], [4, 3, 3, 4], span + [(5, 3, 4), (6, 2, 4), (8, 0, 4), (9, 4, 6), (6, 8, 8), (7, 8, 9)])
    for name, other in (('near', RISEN), ('bent', polyline([(4.5, 4.5, 4.5), (6, 6, 6), (9, 3, 5), (10, 9, 0)])),
                        ('met', polyline([(4.5, 4.5, 4.5), (6, 6, 6), (7, 1, 4)]))):
        for s in (0, 1, 3, 20, 60):
            yield from both_ways('three-%s-S%d' % (name, s), walk, other, s, gap=0.5)


def never_halved():
    """No split is allowed, so no node is halved and none is settled by box; boxes that touch at the gap."""
    fan = polyline([(0, 0, 0), (4, 4, 0), (4, 4, 4), (8, 8, 4), (6, 9, 6)])
    for k in range(6):
        d = 0.25 * k
        near = polyline([(1 + d, 0, 0), (5 + d, 4, 0), (5, 4 - d, 4), (9 + d, 8, 4)])
        for gap in (0.0, 0.25, 0.5, below(0.5)):
            yield 'never-halved-%d-gap%r' % (k, gap), sheet(fan, near, 0, gap=gap)
    for gap in (1.9999999999999996, below(2.0), 2.0):
        yield from both_ways('boxes-at-the-gap%r' % gap, A, segment((4, 4, 0), (6, 6, 1)), 0, gap=gap)


def tagged_drawn():
    """All drawn sheets for the tags: (name, bytes)."""
    for part in (one_test, two_tests, three_tags, never_halved):
        yield from part()


# ---- drawn sheets with data (document 02, M-104) -----------------------------------

MAX_COUNT = 0x0FFFFFFF
# each with a fault of the second line and of the question
HELD = [(0, 0), (1, 2), (9999, 9999), (10000, 10000), (65537, 1), (1, 0)]
DATA = HELD + [(1, 1), (2, 2), (9998, 9998), (2, 1), (0, 1), (9999, 10000), (10000, 9999), (9999, 9998), (1, 9999), (1, 10000), (10000, 1),
               (1, 65537), (65537, 65537), (257, 1), (1, 257), (1 << 27 | 1, 1), (1, 1 << 27 | 1), (0, MAX_COUNT), (MAX_COUNT, MAX_COUNT),
               (65536, 65536), (65536, 0), (0, 10000), (16385, 1), (1, 16385)]
WEIGHED = bezier([(0, 1, 0), (1, -1, 0), (2, 1, 0)], weights=[1, 2, 0.5])


def dated(data, numbers):
    """The sheet with these numbers as the data of its lines."""
    left = list(numbers)
    return sheet_of([['datum', str(left.pop(0))] if item[0] == 'datum' and left else item for item in spelled(items_of(data))])


def data_pairs():
    """Each pair of numbers, on lines open and closed, with and without weights."""
    for pair in DATA:
        for name, a, b in (('plain', A, CROSSING), ('weights', WEIGHED, A), ('weights-second', A, WEIGHED), ('closed', TRIANGLE, SPOKE)):
            yield 'data-%d-%d-%s' % (pair + (name,)), dated(sheet(a, b, S=1), pair)


def question_spoils():
    """15 to 19 of A and a line that crosses it: the sheet's S, ranges and gap."""
    yield '15', 2, [(0, 2), None], 0.0
    yield '15-second', 2, [None, (NAN, 1)], 0.0
    yield '16', 2, None, -1.0
    yield '17', 257, None, 0.0
    yield '18', 2, [(0, TINY), None], 0.0
    yield '18-second', 2, [None, (0.5, after(0.5))], 0.0


def data_faults():
    """The numbers of HELD with each fault of a line, 4 to 14 and 22, in the second, the first and both, and with each of the question; with 19."""
    rng = Rng(104)
    for pair in HELD:
        name = 'data-%d-%d' % pair
        for number in list(range(4, 15)) + [22]:
            bad = spoilt(number, rng) if number != 22 else basin(2, 2, 3)
            if number == 22:
                bad.mults[0] = 1
            yield '%s-no%d-second' % (name, number), dated(sheet(A, bad, ranges=[None, (0, 1)]), pair)
            yield '%s-no%d-first' % (name, number), dated(sheet(bad, A, ranges=[(0, 1), None]), pair)
        yield name + '-both', dated(sheet(spoilt(14, rng), spoilt(4, rng), ranges=[(0, 1), (0, 1)]), pair)
        for fault, s, ranges, gap in question_spoils():
            yield '%s-no%s' % (name, fault), dated(sheet(A, CROSSING, s, ranges, gap), pair)
        yield name + '-no19', dated(sheet(comb(13), segment((-1, 0.5, 0), (14, 0.5, 0)), S=0), pair)
        yield name + '-nan-net', dated(sheet(NAN_NET, UNIT, S=4), pair)


def data_words():
    """The datum's word: missing, cut off, twice, another kind in its place, in other places."""
    q, end, one = question(0, [(0, 1), (0, 1)], 0.0), head(7, 0), head(9, 1)
    for name, l in (('plain', UNIT), ('weights', bezier([(0, 0, 0), (1, 0, 0)], weights=[1, 2])), ('closed', TRIANGLE)):
        body = l.data()[:-4]
        a = body + one
        heads = {'first': 0, 'knots': 4, 'mults': 8 + 8 * len(l.knots), 'poles': 12 + 12 * len(l.knots), 'weights': 16 + 12 * len(l.knots) + 24 * len(l.poles)}
        for kind in range(16):
            yield 'datum-%s-kind-%d' % (name, kind), body + head(kind, 1) + a + q + end
            yield 'datum-%s-kind-%d-second' % (name, kind), a + body + head(kind, 1) + q + end
        for where, at in heads.items():
            moved = body[:at] + one + body[at:]
            yield 'datum-%s-before-%s' % (name, where), moved + a + q + end
            yield 'datum-%s-before-%s-second' % (name, where), a + moved + q + end
            yield 'datum-%s-before-%s-too' % (name, where), moved + one + a + q + end
        yield 'datum-%s-twice' % name, a + one + a + q + end
        yield 'datum-%s-twice-second' % name, a + a + one + q + end
        yield 'datum-%s-and-a-word' % name, body + head(9, 1) + words([0]) + a + q + end
        yield 'datum-%s-after-question' % name, body + body + q + one + one + end
        yield 'datum-%s-after-end' % name, a + a + q + end + one
        yield 'datum-%s-weights-behind' % name, a + head(5, 2) + floats([1, 1]) + a + q + end
        for cut, part in (('before', body), ('at', a), ('before-second', a + body), ('at-second', a + a)):
            yield 'datum-%s-stops-%s' % (name, cut), part
            yield 'datum-%s-stops-%s-in-the-word' % (name, cut), part + one[:2]
        # sheets of before M-104
        yield 'datum-%s-none' % name, body + body + q + end
        yield 'datum-%s-none-first' % name, body + a + q + end
        yield 'datum-%s-none-second' % name, a + body + q + end
    for name, make in EXAMPLES + CLOSED_EXAMPLES:
        yield 'old-' + name, in_form(make(), 103)
    yield 'old-second-stops', in_form(example(), 103)[:len(UNIT.data()) - 4]
    yield 'old-question-stops', in_form(example(), 103)[:2 * len(UNIT.data()) - 8]


def dated_drawn():
    """All drawn sheets with data: (name, bytes)."""
    for part in (data_pairs, data_faults, data_words):
        yield from part()


# ---- drawn charts (document 02, M-105) ----------------------------------------------

RAIL = segment((-1, 0.5, 0), (14, 0.5, 0))
GATE = segment((1, -2, 0), (3, 2.5, 0))  # crosses RAIL
BESIDE = bezier([(0, 1.5, 0), (4, 0, 0), (8, 1.5, 0)])  # the boxes meet at a gap of 0.25, the lines don't
OFF = segment((0, 900, 0), (9, 900, 0))  # without pairs
LAID = segment((2, 0.5, 0), (5, 0.5, 0))  # on RAIL: given up
BOLLARD = bezier([(6, 0, 0), (6, 1, 0), (6, 2, 0)])
AREA = [RAIL, GATE, OFF, BESIDE, LAID]
HOLLOW = line(1, [], [], [])
BAD_RANGE, NO_MIDDLE = (0.5, 0.5), (0.5, after(0.5))


def sized(name, good, counts):
    """Charts of so many lines: none of which is searched, all of which are complete, or the last of which isn't."""
    for n in counts:
        if name == 'empty':
            yield 'chart-empty-%d-%s' % (n, 'track' if good else 'all'), chart([RAIL if good else HOLLOW] + [HOLLOW] * n)
        else:
            yield 'chart-%s-%d' % (name, n), chart([RAIL] + [OFF] * (n - 1) + [OFF if good else LAID], S=1)


def chart_sizes():
    """0 to 407 lines: of empty parts, of which 407 fill a sheet, and such as are searched."""
    yield from sized('empty', False, (0, 1, 2, 64, 65, 320, 407))
    yield from sized('empty', True, (0, 1, 64, 65))
    yield from sized('clear', True, (1, 2, 3, 64, 66))
    yield from sized('last', False, (1, 2, 3, 63, 64, 65))
    for n in (1, 2, 64):
        yield 'chart-first-%d' % n, chart([RAIL, GATE] + [OFF] * (n - 1), S=0)
    for number in (4, 23, 15, 18, 19):
        yield 'chart-64-no%d' % number, faulty([RAIL] + [OFF] * 64, [(number, 65)])
    yield 'chart-64-no14-place-64', faulty([RAIL] + [OFF] * 64, [(14, 64), (14, 65)])
    yield 'chart-65-no15', faulty([RAIL] + [OFF] * 65, [(15, 66)])
    # too many lines, and 2 or 3 in the last one or after it
    many = RAIL.data() + chart_line(HOLLOW, (0, 1)) * 65
    asks, end = question(0, [(0, 1), (0, 0)], 0.0), head(7, 0)
    for name, tail in (('line-kind', head(1, 1) + head(3, 0) + asks + end), ('no-range', HOLLOW.data() + asks + end), ('stops', b''), ('no-end', asks),
                       ('words', asks + end + end), ('end-count', asks + head(7, 1)), ('range-count', HOLLOW.data() + head(11, 1) + floats((0, 1)) + asks + end)):
        yield 'chart-many-' + name, many + tail
        yield 'chart-none-' + name, RAIL.data() + tail


def chart_longer():
    """More of these."""
    yield from sized('empty', False, (3, 63, 66, 255, 256, 257, 319, 321, 406, 408))
    yield from sized('empty', True, (2, 63, 66, 256, 320, 404, 405, 406))
    yield from sized('clear', True, (62, 63, 65, 128))
    yield from sized('last', False, (62, 66, 128))


def faulty(lines, faults, S=1, gap=0.25):
    """The chart of these lines with faults, each a number and a place, the track's being 1."""
    lines, ranges = [l.copy() for l in lines], [None] * len(lines)
    for number, place in faults:
        k = place - 1
        if number in (14, 13, 12, 10):
            spoil_into(lines[k], number, Rng(number))
        elif number == 22:
            lines[k] = basin(2, 2, 3)
            lines[k].mults[0] = 1
        elif number <= 11:
            lines[k], ranges[k] = spoilt(number, Rng(number)), (0, 1)
        elif number == 23:
            lines[k].datum = 2
        elif number == 15:
            ranges[k] = BAD_RANGE
        elif number == 16:
            gap = -1.0
        elif number == 17:
            S = 257
        elif number == 18:
            ranges[k] = NO_MIDDLE
        elif number == 19 and place > 1:
            lines[k] = comb(13)
        elif number == 19:
            lines[k] = clamped(25, [(i, 0.5, 0) for i in range(104)])
    return chart(lines, S, ranges, gap)


def chart_faults():
    """Each number at the track, the first, a middle and the last line; the track and lines of other data."""
    for number in list(range(4, 15)) + [22, 23, 15, 18, 19]:
        for place in (1, 2, 3, 5):
            yield 'chart-no%d-%d' % (number, place), faulty(AREA, [(number, place)])
    for number in (16, 17):
        yield 'chart-no%d' % number, faulty(AREA, [(number, 1)])
    for data in ((0,) * 5, (9999,) * 5, (10000,) * 5, (1, 1, 1, 1, 0), (1, 1, 2, 1, 1), (1, 2, 2, 2, 2), (1, 2, 1, 2, 1), (7, 7, 7, 8, 9), (7, 7, 65543, 7, 7),
                 (10000, 1, 1, 1, 1), (2, 2, 2, 2, 1 << 27 | 2)):
        yield 'chart-data-%s' % '-'.join('%d' % n for n in data), dated(chart(AREA, S=1, gap=0.25), data)
    # a line's 14 before a datum, also the track's that is no datum; a datum before the next line's 4
    for name, data in (('none', (0,) * 5), ('other', (1, 2, 2, 2, 2)), ('last', (1, 1, 1, 1, 2))):
        for number, place in ((14, 2), (14, 5), (4, 3)):
            yield 'chart-data-%s-no%d-%d' % (name, number, place), dated(faulty(AREA, [(number, place)]), data)
    # of the track alone where there is no line, or too many: 24 is met first
    for number in (4, 14):
        yield 'chart-none-no%d' % number, faulty(AREA[:1], [(number, 1)])
        yield 'chart-none-many-no%d' % number, faulty([RAIL] + [HOLLOW] * 65, [(number, 1)])


def chart_orders():
    """Two faults at once: the order of all tests."""
    faults = [(n, p) for n in (14, 23, 15, 18, 19) for p in (1, 2, 5)] + [(16, 0), (17, 0), (4, 2), (4, 5), (22, 3)]
    faults.remove((19, 1))
    for i, one in enumerate(faults):
        for two in faults[:i]:
            ranges, line = {one[0], two[0]} == {15, 18}, {one[0], two[0]} & {4, 19, 22}
            if one[1] != two[1] or one[1] == 0 or not ranges and not line:
                yield 'chart-no%d-%d-no%d-%d' % (two + one), faulty(AREA, [one, two])
    for other in ((15, 5), (17, 0), (18, 5), (19, 5)):
        yield 'chart-no19-1-no%d-%d' % other, faulty(AREA, [(19, 1), other])
    # line 2 has no middle, line 3 an empty range
    yield 'chart-no18-2-no15-3', chart([A, CROSSING, PARALLEL], S=1, ranges=[None, (0.5, after(0.5)), (0.5, 0.5)])
    # the same where line 2 could be searched: 15 of the last line before anything is printed
    yield 'chart-no15-last', chart([A, CROSSING, PARALLEL], S=1, ranges=[None, None, (0.5, 0.5)])
    yield 'chart-no19-last', chart([RAIL, GATE, OFF, comb(13)], S=1)
    yield 'chart-no19-all', chart([RAIL, comb(13), comb(13)], S=0)
    yield 'chart-no19-regions', chart([RAIL, GATE, comb(12)], S=68)
    yield 'chart-no19-regions-first', chart([RAIL, comb(12), GATE], S=68)


def chart_unread():
    """Kind 6's second range is anything."""
    for i, r in enumerate([(0, 0), (NAN, NAN), (1, 0), (NAN, 0), (0, INF), (-INF, INF), (0.25, 0.5), (0.5, after(0.5)), (-0.0, 0.0), (1e308, -1e308)]):
        yield 'chart-unread-%d' % i, chart(AREA, S=1, gap=0.25, unread=r)
        yield 'chart-unread-%d-none' % i, chart(AREA[:1], S=1, gap=0.25, unread=r)
    # the track's range is kind 6's first, a line's its own
    halves = [(0.0, 0.5), (0.5, 1.0), (0.25, 0.75)]
    for i, r in enumerate(halves):
        yield 'chart-track-range-%d' % i, chart(AREA, S=1, ranges=[r] + [None] * 4, gap=0.25, unread=halves[i - 1])
        yield 'chart-line-range-%d' % i, chart(AREA, S=1, ranges=[None] + [halves[(i + k) % 3] for k in range(4)], gap=0.25)
    yield 'chart-one-line-three-ranges', chart([RAIL] + [GATE] * 3, S=1, ranges=[None] + halves)


def chart_words():
    """The words of a chart: kind 11 missing, doubled, elsewhere, with a count, cut off; each kind after the track, after a line and after a range."""
    t, a, q, end = UNIT.data(), UNIT.data(), question(0, [(0, 1), (0, 0)], 0.0), head(7, 0)
    r = head(11, 0) + floats((0, 1))
    whole = t + a + r + a + r + q + end
    for at in range(0, len(whole), 4):
        if at >= len(t) - 4:
            yield 'chart-cut-%d' % at, whole[:at]
    for kind in range(16):
        for count in (0, 1):
            yield 'chart-kind-%d-%d-after-track' % (kind, count), t + head(kind, count) + q[4:] + end
            yield 'chart-kind-%d-%d-after-second' % (kind, count), t + a + head(kind, count) + r[4:] + q + end
            yield 'chart-kind-%d-%d-after-range' % (kind, count), t + a + r + head(kind, count) + a[4:] + r + q + end
            yield 'chart-kind-%d-%d-after-third' % (kind, count), t + a + r + a + head(kind, count) + r[4:] + q + end
        yield 'chart-kind-%d-in-line' % kind, t + head(kind, 1) + a[4:] + r + q + end
        yield 'chart-kind-%d-end' % kind, t + a + r + q + head(kind, 0)
    parts = {'no-line': t + q + end, 'range-after-track': t + r + q + end, 'range-after-track-and-lines': t + r + a + r + q + end,
             'third-without': t + a + r + a + q + end, 'third-without-of-four': t + a + r + a + a + r + q + end, 'second-without': t + a + a + r + q + end,
             'pair-and-third': t + a + a + q + end, 'range-twice': t + a + r + r + q + end, 'range-twice-third': t + a + r + a + r + r + q + end,
             'range-before-datum': t + a[:-4] + r + a[-4:] + q + end, 'range-before-datum-too': t + a[:-4] + r + a[-4:] + r + q + end,
             'range-after-question': t + a + q + r + end, 'range-after-end': t + a + r + q + end + r, 'line-after-question': t + a + r + q + a + r + end,
             'line-after-end': t + a + r + q + end + a + r, 'datum-after-range': t + a[:-4] + r + a[-4:] + q + end, 'no-datum': t + a[:-4] + r + q + end,
             'weights-after-range': t + a + r + head(5, 2) + floats((1, 1)) + q + end, 'one-float': t + a + head(11, 0) + floats((0,)) + q + end,
             'three-floats': t + a + r + floats((0,)) + q + end, 'range-count-1': t + a + head(11, 1) + r[4:] + q + end, 'range-count-2': t + a + head(11, 2) + r[4:] + q + end,
             'range-count-huge': t + a + head(11, MAX_COUNT) + r[4:] + q + end, 'range-count-1-third': t + a + r + a + head(11, 1) + r[4:] + q + end,
             'range-count-1-stops': t + a + head(11, 1), 'range-count-1-cut': t + a + head(11, 1) + r[4:12], 'range-stops': t + a + head(11, 0), 'range-cut': t + a + r[:12],
             'question-missing': t + a + r + end, 'end-missing': t + a + r + q, 'end-count': t + a + r + q + head(7, 1), 'words-after-end': t + a + r + q + end + end,
             'no-line-end-missing': t + q, 'no-line-words-after-end': t + q + end + end, 'no-line-end-count': t + q + head(7, 1), 'no-line-question-cut': t + q[:-4],
             'no-line-S-huge': t + head(6, MAX_COUNT) + q[4:] + end, 'S-huge': t + a + r + head(6, MAX_COUNT) + q[4:] + end}
    for name, data in parts.items():
        yield 'chart-words-' + name, data
    for name, l in (('closed', TRIANGLE), ('weights', WEIGHED)):
        x, y = l.data(), head(11, 0) + floats(l.bounds())
        yield 'chart-words-%s-second' % name, t + x + y + a + r + q + end
        yield 'chart-words-%s-third' % name, t + a + r + x + y + q + end
        yield 'chart-words-%s-both' % name, t + x + y + x + y + q + end
        yield 'chart-words-%s-track' % name, x + a + r + q + end
        yield 'chart-words-%s-track-alone' % name, x + q + end
        yield 'chart-words-%s-third-without' % name, t + a + r + x + q + end


def chart_reports():
    """Charts whose lines are complete, out of allowance and given up, without pairs, with 12 and with 13, in every order."""
    ones = {'gate': GATE, 'off': OFF, 'beside': BESIDE, 'laid': LAID, 'bollard': BOLLARD, 'comb': comb(12), 'teeth': comb(13), 'weighed': WEIGHED, 'ring': TRIANGLE,
            'nan': NAN_NET, 'itself': RAIL}
    for name, l in ones.items():
        for s in (0, 2, 67):
            yield 'chart-one-%s-S%d' % (name, s), chart([RAIL, l], S=s, gap=0.25)
    some = {'c': BESIDE, 'o': OFF, 'b': GATE, 'u': LAID}
    for order in ('cc', 'oo', 'co', 'oc', 'cb', 'bc', 'cu', 'uc', 'bu', 'ub', 'ou', 'uo', 'ob', 'bo', 'bb', 'uu', 'cou', 'uoc', 'cub', 'buc', 'bcb', 'cbc', 'ccu', 'uccb', 'obuc'):
        yield 'chart-order-' + order, chart([RAIL] + [some[x] for x in order], S=1, gap=0.25)
    # as many pairs and regions as one line may have, on every line
    yield 'chart-full', chart([RAIL] + [comb(12)] * 3, S=67)
    yield 'chart-full-and-13', chart([RAIL, comb(12), comb(12), comb(13)], S=0)
    # an allowance for each line
    for s in (0, 1, 2, 3, 5, 256):
        yield 'chart-allowance-S%d' % s, chart([A, CROSSING, CROSSING, segment((0, 1, 0), (2, 0, 0))], S=s)
        yield 'chart-allowance-kept-S%d' % s, chart([A, FAR, CROSSING], S=s)
    # closed tracks and lines: each report has its marks from 0
    for s in (0, 3):
        yield 'chart-closed-track-S%d' % s, chart([SQUARE, DIAGONAL, OPPOSITE, loops('abd'), OFF], S=s, gap=0.01)
        yield 'chart-closed-lines-S%d' % s, chart([DIAGONAL, SQUARE, TRIANGLE, SQUARE, OFF], S=s, ranges=[None, None, None, (0.5, 4.5), None], gap=0.01)
        yield 'chart-closed-turns-S%d' % s, chart([SQUARE] + [loops('abd')] * 3, S=s, ranges=[(0.5, 4.5), None, (0, 4.5), (2, 5)])
        yield 'chart-groups-S%d' % s, chart([SQUARE, loops('abdabd'), loops('ab'), loops('abcabc')], S=s)
    for i, data in enumerate(pair_sheets(AREA, S=1, gap=0.25)):
        yield 'chart-pair-%d' % i, data
    yield 'chart-same', chart([RAIL] * 4, S=0)


def charts_drawn():
    """All drawn charts: (name, bytes)."""
    for part in (chart_sizes, chart_longer, chart_faults, chart_orders, chart_unread, chart_words, chart_reports):
        yield from part()
    for name, make in CHART_EXAMPLES:
        yield 'example-' + name, make()


# ---- two depths (document 02, M-106) --------------------------------------------

OUTFALL = segment((-300.0, 0.0, 0.0), (1000.0, 1.0, 0.0))
QUAY = segment((0.25, -0.5, 0.0), (0.0, 1.0, 0.0))  # crosses OUTFALL off every middle
RATIOS = (0, 1, 2, 5, 8, 11, 16, 20, 24, 30, 31, 32, 33, 34, 40, 50)


def crossing_of(ratio, at=1 / 3, other=0.3, bend=0.0):
    """Two lines that cross at these places, the first 2^ratio times as long; bent, of degree 2, the first upwards."""
    l = BINADE(min(ratio, 20))
    m = BINADE(min(ratio, 20) - ratio)
    if bend == 0.0:
        return segment((-at * l, 0.0, 0.0), ((1 - at) * l, 0.0, 0.0)), segment((0.0, -other * m, 0.0), (0.0, (1 - other) * m, 0.0))
    places = lambda t: zip((-t, 0.5 - t, 1 - t), (t * t, t * t - t, (1 - t) * (1 - t)))  # the Bernstein points of u - t and of its square
    return bezier([(x * l, 0.0, bend * l * z) for x, z in places(at)]), bezier([(bend * m * z, y * m, 0.0) for y, z in places(other)])


def outfalls():
    """A long line against a short one: the longer is halved to 32, then the other."""
    for s in (256, 100, 31, 32, 33):
        yield from both_ways('outfall-S%d' % s, OUTFALL, QUAY, s)
    for ratio in RATIOS:
        yield from both_ways('outfall-2^%d' % ratio, *crossing_of(ratio))
        yield from both_ways('outfall-bent-2^%d' % ratio, *crossing_of(ratio, 0.25, 0.625, bend=0.125))
        yield from both_ways('outfall-bent-third-2^%d' % ratio, *crossing_of(ratio, bend=0.5), gap=BINADE(-36))
    for ratio in (0, 11, 24, 33):
        # at both starts every later half waits, so as many nodes as there is room for; at both ends none does
        for at in (0.0, 1.0):
            yield from both_ways('outfall-ends-%g-2^%d' % (at, ratio), *crossing_of(ratio, at, at))
        yield from both_ways('outfall-ends-apart-2^%d' % ratio, *crossing_of(ratio, 0.0, 1.0))
        yield from both_ways('outfall-middles-2^%d' % ratio, *crossing_of(ratio, 0.5, 0.5))
        for gap in (BINADE(-40), BINADE(-20), 1e-6, 0.01):
            yield from both_ways('outfall-gap-%g-2^%d' % (gap, ratio), *crossing_of(ratio), gap=gap)
    weighed = bezier([(-1000, 0, 0), (0, 0, 0), (700, 0, 0)], weights=[1, 3, 0.5])
    yield from both_ways('outfall-weighed', weighed, QUAY)
    yield from both_ways('outfall-part', OUTFALL, QUAY, ranges=[(0.125, 0.7), (0.0, 0.9)])


def equal_boxes():
    """Boxes of one size: the second is halved, at 32 of it the first."""
    for at, other in ((0.5, 0.5), (1 / 3, 1 / 3), (0.3, 0.7), (0.0, 0.0), (1.0, 1.0), (0.0, 1.0)):
        yield from both_ways('equal-%g-%g' % (at, other), *crossing_of(0, at, other))
    for n in (2, 3, 4):
        still = bezier([(1, 1, 1)] * n)
        for s in (0, 31, 32, 33, 63, 64, 65, 66, 67, 68, 100, 256):
            yield 'equal-points-%d-S%d' % (n, s), sheet(still, still, s)
    for k in range(20, 36):
        yield 'equal-point-S%d' % k, sheet(bezier([(0, 0, 0)] * 2), bezier([(0, 0, 0)] * 3), k)


def deep_points():
    """A point on a curve: the curve to 32, then the point."""
    curves = {'arch': bezier([(0, 0, 0), (1, 2, 0), (2, 0, 0)]), 'cubic': bezier([(0, 0, 0), (1, 3, 1), (2, -3, 1), (3, 0, 0)]),
              'line': segment((0, 0, 0), (3, 4, 5)), 'weighed': bezier([(1, 0, 0), (1, 1, 0), (0, 1, 0)], weights=[1, 0.5, 2])}
    for name, c in curves.items():
        places = {'start': c.poles[0], 'end': c.poles[-1], 'middle': point_at(c, 0.5), 'third': point_at(c, 1 / 3)}
        for place, p in places.items():
            for n in (2, 4):
                yield from both_ways('deep-point-%s-%s-%d' % (name, place, n), bezier([p] * n), c, gap=0.0 if place != 'third' else 1e-15)
        short = segment(places['third'], tuple(x + BINADE(-30) for x in places['third']))
        yield from both_ways('deep-short-%s' % name, short, c)
        for s in (31, 32, 33, 63, 64, 65):
            yield from both_ways('deep-point-%s-S%d' % (name, s), bezier([places['start']] * 2), c, s)
    yield from both_ways('deep-tangent', bezier([(0, 1, 0), (2, -1, 0), (4, 1, 0)]), segment((-3e5, 0, 0), (4e5, 0, 0)))


def deep_allowances():
    """Allowances that are dry at the last halvings, at 32 on both lines and behind them."""
    for ratio in (0, 11, 33):
        for at, other in ((1 / 3, 0.3), (0.0, 0.0), (1.0, 1.0)):
            for s in list(range(30, 35)) + list(range(60, 70)) + [128, 255]:
                yield from both_ways('deep-S%d-%g-2^%d' % (s, at, ratio), *crossing_of(ratio, at, other), S=s)


def deep_pairs():
    """Up to 12 pairs, the last pushed down to 32 on both lines: 76 nodes wait."""
    for n in (1, 2, 3, 6, 11, 12, 13):
        s = min(256, 819 // n - 1)
        far = segment((-3e4, 0.3, 0.0), (5e4, 0.3, 0.0))
        yield from both_ways('deep-comb-%d' % n, far, comb(n), s)
        start = polyline([(n - 0.5 * k, 0.01 * (n - k), 0.0) for k in range(n)] + [(0.0, 0.0, 0.0), (0.0, 4e4, 0.0)])
        yield from both_ways('deep-corner-%d' % n, start, segment((0, 0, 0), (0, -1, 1)), s)


def deep_rings():
    """Closed lines with a long side, and stretches that meet at the seam."""
    long = ring(1, [0, 1, 2, 3], [1] * 4, [(0, 0, 0), (3e5, 1, 0), (0, 2e5, 0)])
    for s in (0, 31, 33, 64, 90, 128):
        yield from both_ways('deep-ring-S%d' % s, long, segment((1.5, -1, 0), (1, 1, 0)), s)
        yield from both_ways('deep-seam-S%d' % s, long, DIAGONAL, s)
        yield from both_ways('deep-seam-turned-S%d' % s, long, DIAGONAL, s, ranges=[turn_from(long, 1.5), None])
        yield from both_ways('deep-two-rings-S%d' % s, long, ring(1, [0, 1, 2], [1] * 3, [(0, 0, 0), (-1, 0, 0)]), s)
    curved = basin(3, 1, 4)
    for t in (0.0, 0.3):
        yield from both_ways('deep-basin-%g' % t, curved, across(curved, t, 3e5), 64)
        yield from both_ways('deep-basin-point-%g' % t, curved, bezier([point_at(curved, t)] * 2), 64)


def deep_zeros():
    """Two first starts, -0 and +0, of regions at depth 32."""
    yield from zero_starts('deep-zeros', -40)


def deep_charts():
    """Charts of which some lines go down to 32 with the track, and some don't."""
    longs = [crossing_of(ratio)[0] for ratio in (0, 11, 24)]
    shorts = [crossing_of(ratio)[1] for ratio in (0, 11, 24)]
    for s in (0, 33, 64, 66, 256):
        yield 'deep-chart-outfall-S%d' % s, chart([OUTFALL, QUAY, OFF, CROSSING, bezier([(0.0, 0.0, 0.0)] * 2), QUAY], S=s)
        yield 'deep-chart-quay-S%d' % s, chart([QUAY, OUTFALL, OFF, UNIT, OUTFALL], S=s)
        yield 'deep-chart-longs-S%d' % s, chart([shorts[0]] + longs, S=s)
        yield 'deep-chart-shorts-S%d' % s, chart([longs[2]] + shorts, S=s)
        yield 'deep-chart-gap-S%d' % s, chart([longs[1]] + shorts + [TRIANGLE], S=s, gap=BINADE(-33))


def deep_drawn():
    """All drawn sheets for two depths: (name, bytes)."""
    for part in (outfalls, equal_boxes, deep_points, deep_allowances, deep_pairs, deep_rings, deep_zeros, deep_charts):
        yield from part()


# ---- random sheets --------------------------------------------------------------


class Rng:
    """Random numbers that are the same on every Python 3."""

    def __init__(self, seed):
        self.source = random.Random(seed)

    def unit(self):
        return self.source.random()

    def below(self, n):
        return int(self.source.random() * n)

    def pick(self, items):
        return items[self.below(len(items))]

    def between(self, lo, hi):
        return lo + (hi - lo) * self.unit()

    def chance(self, p):
        return self.unit() < p

    def bits(self):
        """A float of any bits."""
        raw = self.below(1 << 32) << 32 | self.below(1 << 32)
        return struct.unpack('<d', struct.pack('<Q', raw))[0]


def random_coordinate(rng, style):
    if style == 'grid':
        return float(rng.below(5) - 2)
    if style == 'fine':
        return (rng.below(65) - 32) / 16.0
    if style == 'metres':
        return rng.between(-200.0, 200.0)
    if style == 'huge':
        return rng.between(-1.0, 1.0) * BINADE(24)
    if style == 'tiny':
        return (rng.below(17) - 8) * TINY
    if style == 'small':
        return rng.between(-1.0, 1.0) * BINADE(-rng.below(1080))
    return rng.between(-2.0, 2.0)


STYLES = ['grid', 'grid', 'fine', 'metres', 'unit', 'unit', 'huge', 'small', 'tiny']


def random_degree(rng):
    return rng.pick([1, 1, 1, 2, 2, 3, 3, 4, 5, 6, 7, 8, 9, 12, 25, 1 + rng.below(25)])


def random_knots(rng, n):
    """n rising knots in one of several manners."""
    way = rng.below(8)
    if way == 0:
        return [float(i) for i in range(n)]
    if way == 1:
        return [i / (n - 1) for i in range(n)]
    if way == 2:
        lo = rng.between(-5.0, 5.0)
        out = [lo]
        for _ in range(n - 1):
            out.append(out[-1] + rng.between(0.05, 2.0))
        return out
    if way == 3:
        return [float(i - n // 2) if i != n // 2 else rng.pick([0.0, -0.0]) for i in range(n)]
    if way == 4:
        at = rng.below(n)
        out = [float(i) for i in range(n)]
        if at > 0:
            out[at] = out[at - 1] + BINADE(-rng.below(53)) if out[at - 1] != 0 else BINADE(-rng.below(1075))
        return sorted(set(out)) if len(set(out)) == n else [float(i) for i in range(n)]
    if way == 5:
        scale = rng.pick([1e-3, 1e-9, 1e3, BINADE(-300), BINADE(-1000), BINADE(-1060), BINADE(12)])
        return [i * scale for i in range(n)]
    if way == 6:
        return [-BINADE(20)] + [float(i) for i in range(n - 2)] + [BINADE(20)]
    return [math.ldexp(1.0, i - n) for i in range(n)] if n < 900 else [float(i) for i in range(n)]


def random_mults(rng, degree, n):
    out = [rng.pick([1, 1, 1, 1 + rng.below(degree)]) for _ in range(n)]
    ends = rng.below(4)
    if ends == 0:
        out[0], out[-1] = 1 + rng.below(degree + 1), 1 + rng.below(degree + 1)
    elif ends == 1:
        out[0], out[-1] = degree, degree + 1
    else:
        out[0] = out[-1] = degree + 1
    return out


def random_weights(rng, n):
    way = rng.below(4)
    if way == 0:
        return [rng.pick([1.0, 2.0, 0.5]) for _ in range(n)]
    if way == 1:
        return [BINADE(rng.below(21) - 10) for _ in range(n)]
    return [rng.between(0.2, 5.0) for _ in range(n)]


def random_poles(rng, n, style):
    way = rng.below(6)
    if way == 0:  # along a straight line
        p, d = [random_coordinate(rng, style) for _ in range(3)], [random_coordinate(rng, 'grid') for _ in range(3)]
        return [tuple(p[c] + d[c] * i for c in range(3)) for i in range(n)]
    if way == 1:  # advancing along x
        step = rng.pick([0.25, 1.0, 10.0])
        return [(i * step, random_coordinate(rng, style) * 0.5, 0.0) for i in range(n)]
    if way == 2:  # in a plane
        z = random_coordinate(rng, style)
        return [(random_coordinate(rng, style), random_coordinate(rng, style), z) for _ in range(n)]
    return [tuple(random_coordinate(rng, style) for _ in range(3)) for _ in range(n)]


def in_limits(poles):
    top = BINADE(24)
    return [tuple(max(-top, min(top, x)) for x in p) for p in poles]


def random_line(rng, style, pieces=None):
    """An admitted line."""
    while True:
        degree = random_degree(rng)
        n = 2 + (rng.pick([0, 0, 1, 2, 3, rng.below(12)]) if pieces is None else pieces - 1)
        knots, mults = random_knots(rng, n), random_mults(rng, degree, n)
        poles = sum(mults) - degree - 1
        if degree + 1 <= poles <= 128:
            weights = random_weights(rng, poles) if rng.chance(0.25) else None
            return line(degree, knots, mults, in_limits(random_poles(rng, poles, style)), weights)


def random_range(rng, l):
    lo, hi = l.bounds()
    way = rng.below(8)
    if way < 4 or not lo < hi:
        return (lo, hi)
    if way == 4:
        return (l.knots[rng.below(len(l.knots))], l.knots[rng.below(len(l.knots))])
    s, t = rng.between(lo, hi), rng.between(lo, hi)
    if way == 5:
        t = s + (hi - lo) * BINADE(-rng.below(60))
    if way == 6:
        return rng.pick([(lo, s), (s, hi)])
    return (min(s, t), min(hi, max(s, t)))


def random_gap(rng, style):
    way = rng.below(8)
    if way < 3:
        return rng.pick([0.0, 0.0, -0.0])
    if way == 3:
        return BINADE(-rng.below(1075))
    if way == 4:
        return rng.pick([0.25, 0.5, 1.0, 2.0, 3.0])
    if way == 5:
        return rng.between(0.0, 1.0) * {'metres': 50.0, 'huge': BINADE(23)}.get(style, 1.0)
    if way == 6:
        return BINADE(rng.below(25))
    return rng.between(0.0, 0.1)


def random_S(rng):
    return rng.pick([0, 1, 2, 3, 5, 8, 13, 20, 40, 60, 67, 68, 100, 200, 255, 256, rng.below(257)])


def turned_over(rng, l):
    """The line with its poles in the opposite order, or moved, or cut."""
    way = rng.below(5)
    out = l.copy()
    if way == 0:
        out.poles = out.poles[::-1]
    elif way == 1:
        d = [random_coordinate(rng, 'grid') * rng.pick([0.5, 1.0, 1e-6]) for _ in range(3)]
        out.poles = in_limits([tuple(x + y for x, y in zip(p, d)) for p in out.poles])
    elif way == 2:
        out.poles = [(p[1], p[0], p[2]) for p in out.poles]
    elif way == 3:
        out.knots = random_knots(rng, len(out.knots))
    return out


def with_zeros(rng, l):
    """The line with zeros given either sign."""
    out = l.copy()
    sign = lambda x: rng.pick([0.0, -0.0]) if x == 0 else x
    out.knots = [sign(k) for k in out.knots]
    out.poles = [tuple(sign(x) for x in p) for p in out.poles]
    return out


def kind_lines(rng):
    style = rng.pick(STYLES)
    a, b = random_line(rng, style), random_line(rng, style)
    if rng.chance(0.3):
        b = turned_over(rng, a)
    if rng.chance(0.2):
        a, b = with_zeros(rng, a), with_zeros(rng, b)
    return sheet(a, b, random_S(rng), [random_range(rng, a), random_range(rng, b)], random_gap(rng, style))


def kind_segments(rng):
    style = rng.pick(['grid', 'grid', 'fine', 'unit'])
    point = lambda: tuple(random_coordinate(rng, style) for _ in range(3 if rng.chance(0.5) else 2)) + (0.0,)
    a, b = (segment(point()[:3], point()[:3]) for _ in range(2))
    return sheet(a, b, random_S(rng), None, random_gap(rng, style))


def kind_small_pieces(rng):
    """Few pairs, so that number 19 is not met and the allowance is wide."""
    style = rng.pick(['grid', 'fine', 'unit'])
    a, b = random_line(rng, style, 1 + rng.below(3)), random_line(rng, style, 1 + rng.below(2))
    if rng.chance(0.2):
        b = turned_over(rng, a)
    return sheet(a, b, rng.pick([10, 30, 60, 100, 135, 203, 256]), None, random_gap(rng, style))


def kind_comb(rng):
    """Pair counts near 12, regions near 819, merging."""
    n = rng.pick([2, 3, 4, 6, 10, 11, 12, 13])
    a = comb(n, rng.pick([1.0, 2.0, 0.1]), rng.pick([1.0, 0.5, 1 / 3]))
    y = rng.pick([0.0, 0.5, 0.25, 1.0, rng.unit()])
    b = segment((-1.0, y, 0.0), (n + 1.0, rng.pick([y, y, 1.0 - y]), 0.0))
    s = max(0, min(256, 819 // n - 2 + rng.below(4) if rng.chance(0.5) else rng.below(819 // n)))
    if rng.chance(0.5):
        a, b = b, a
    return sheet(a, b, s, None, rng.pick([0.0, 0.0, 0.01, 0.1]))


def kind_cells(rng):
    """Lines of several spans with hardly any allowance: whole pieces are listed."""
    style = rng.pick(['grid', 'fine', 'unit'])
    broken = lambda n: polyline([tuple(random_coordinate(rng, style) * 2 for _ in range(3)) for _ in range(n + 1)])
    a, b = broken(2 + rng.below(6)), broken(2 + rng.below(6))
    return sheet(a, b, rng.pick([0, 0, 1, 2, 5]), None, rng.pick([0.0, 0.0, 0.1]))


def kind_many_pieces(rng):
    """Many pieces, few pairs."""
    degree = rng.pick([1, 2, 3, 7, 8, 15, 17, 18, 25])
    pieces = rng.pick([20, 60, 78, 79, 100, 113, 126])
    pieces = min(pieces, 128 - degree)
    poles = [(float(i), random_coordinate(rng, 'unit') * 0.1, 0.0) for i in range(pieces + degree)]
    a = clamped(degree, poles)
    x = rng.between(0.0, pieces + degree)
    y = rng.pick([0.0, 0.0, 0.3, 5.0])
    b = segment((x, y - 1.0, 0.0), (x + rng.unit(), y + 1.0, 0.0))
    ranges = [random_range(rng, a), None]
    pair = (a, b) if rng.chance(0.5) else (b, a)
    return sheet(pair[0], pair[1], rng.below(30), ranges if pair[0] is a else ranges[::-1], rng.pick([0.0, 0.1]))


def kind_tangent(rng):
    """Contacts: curved lines that touch a straight one or each other."""
    h = rng.pick([1.0, 0.5, 3.0, 1 / 3])
    curve = rng.pick([
        bezier([(0, h, 0), (2, -h, 0), (4, h, 0)]),
        bezier([(0, 0, 0), (1, 0, 0), (2, h, 0)]),
        bezier([(0, -h, 0), (1, h, 0), (3, -h, 0), (4, h, 0)]),
        bezier([(1, 0, 0), (1, 1, 0), (0, 1, 0)], weights=[1, math.sqrt(0.5), 1]),
    ])
    other = rng.pick([segment((0, 0, 0), (4, 0, 0)), segment((0.1, 0, 0), (3.3, 0, 0)),
                      segment((1, -1, 0), (1, 1, 0)), bezier([(0, -h, 0), (2, h, 0), (4, -h, 0)])])
    if rng.chance(0.5):
        curve, other = other, curve
    return sheet(curve, other, random_S(rng), None, rng.pick([0.0, 0.0, 1e-12, 1e-6, 0.01, 0.1]))


def kind_edge(rng):
    """Straight lines side by side, the gap their distance or one float off."""
    scale = rng.pick([1.0, 100.0, 1e-3, 1e5])
    p = [rng.between(-1.0, 1.0) * scale for _ in range(3)]
    d = [rng.between(-1.0, 1.0) * scale for _ in range(3)]
    off = rng.pick([[-d[1], d[0], 0.0], [0.0, -d[2], d[1]], [0.1 * scale, 0.0, 0.0], [0.0, 0.0, 0.3 * scale]])
    f = rng.pick([1.0, 0.1, rng.unit()])
    q = [p[c] + f * off[c] for c in range(3)]
    shift = rng.pick([0.0, 0.0, rng.unit(), 1.0])
    end = lambda o, t: tuple(o[c] + t * d[c] for c in range(3))
    a, b = segment(end(p, 0.0), end(p, 1.0)), segment(end(q, shift), end(q, 1.0 + shift))
    gap = math.sqrt(sum((f * x) ** 2 for x in off))
    gap = rng.pick([gap, gap, after(gap), below(gap), abs(f * off[0]) + abs(f * off[2])])
    if rng.chance(0.3):
        b = bezier([b.poles[0], end(q, 0.5 + shift), b.poles[1]])
    return sheet(a, b, rng.below(60), None, gap) if rng.chance(0.5) else sheet(b, a, rng.below(60), None, gap)


def kind_limit(rng):
    """Coordinates at 2^24 and one or two floats below, cut to inner ranges."""
    top, degree = BINADE(24), 2 + rng.below(8)
    n = 2 + rng.below(3)
    values = [top, top, below(top), below(below(top)), -top, -below(top)]
    knots, mults = random_knots(rng, n), random_mults(rng, degree, n)
    poles = max(degree + 1, sum(mults) - degree - 1)
    far = rng.chance(0.7)
    a = line(degree, knots, mults, [tuple(rng.pick(values[:4] if far else values) for _ in range(3))
                                    for _ in range(poles)])
    if rng.chance(0.4):
        a.weights = random_weights(rng, poles)
    ranges = [random_range(rng, a), None]
    return sheet(a, segment((top, top, top), (below(top), top, top)), rng.below(10), ranges, rng.pick([0.0, 1.0]))


def kind_measure(rng):
    """Knots so near that reciprocals overflow."""
    h = BINADE(-1010 - rng.below(64)) * (1 + rng.below(3))
    degree = 1 + rng.below(4)
    n = 2 + rng.below(4)
    knots = [0.0]
    for i in range(n - 1):
        knots.append(knots[-1] + (h if rng.chance(0.6) else rng.pick([1.0, h * 8, BINADE(-500)])))
    if len(set(knots)) < n:
        knots = [i * h for i in range(n)]
    mults = random_mults(rng, degree, n)
    poles = max(0, sum(mults) - degree - 1)
    a = line(degree, knots, mults, random_poles(rng, poles, 'grid'))
    b = random_line(rng, 'grid', 1 + rng.below(2))
    ranges = [random_range(rng, a) if poles > degree else (0.0, 1.0), None]
    if rng.chance(0.4):
        a, b, ranges = b, a, ranges[::-1]
    return sheet(a, b, rng.below(20), ranges, rng.pick([0.0, 1.0]))


def kind_spoilt(rng):
    """One or more faults of the table."""
    number = 4 + rng.below(15)
    a, b = random_line(rng, 'grid', 2), random_line(rng, 'grid', 1)
    ranges, gap, s = [None, None], rng.pick([0.0, 1.0]), rng.below(40)
    if number <= 14:
        l = spoilt(number, rng)
        while rng.chance(0.3):
            spoil_into(l, 4 + rng.below(11), rng)
        a, b = (l, b) if rng.chance(0.5) else (a, l)
        if rng.chance(0.2):
            a = spoilt(4 + rng.below(11), rng)
    if number == 15 or rng.chance(0.1):
        ranges[rng.below(2)] = rng.pick([(1, 0), (NAN, 1), (0, INF), (-1e9, 1), (0, 1e9), (0.5, 0.5)])
    if number == 16 or rng.chance(0.1):
        gap = rng.pick(BAD_FLOATS + [-1.0, 2e7])
    if number == 17 or rng.chance(0.1):
        s = 257 + rng.below(5000)
    if number == 18:
        k = rng.below(2)
        lo = (a, b)[k].bounds()[0]
        up = abs(lo) if lo != 0 else 0.0
        ranges[k] = (lo, after(up)) if lo >= 0 else (lo, -below(up))
    return sheet(a, b, s, ranges, gap)


def kind_damaged(rng):
    """A sheet cut short, with bits turned, or with words changed."""
    data = bytearray(rng.pick([kind_lines, kind_segments, kind_comb, kind_spoilt])(rng)[:16384])
    way = rng.below(6)
    if way == 0:
        return bytes(data[:rng.below(len(data) + 1)])
    if way == 1:
        return bytes(data[:4 * rng.below(len(data) // 4 + 1)])
    if way == 2:
        for _ in range(1 + rng.below(3)):
            data[rng.below(len(data))] ^= 1 << rng.below(8)
        return bytes(data)
    at = 4 * rng.below(len(data) // 4)
    new = rng.pick([head(rng.below(16), rng.below(6)), words([rng.below(1 << 32)]),
                    head(1 + rng.below(7), 0x0FFFFFFF)])
    if way == 3:
        data[at:at + 4] = new
    elif way == 4:
        data[at:at] = new
    else:
        del data[at:at + 4]
    return bytes(data)


def kind_wild(rng):
    """Admitted counts with floats of any bits in places."""
    a, b = random_line(rng, 'grid', 1 + rng.below(3)), random_line(rng, 'grid', 1)
    for l in (a, b):
        if rng.chance(0.5):
            i = rng.below(len(l.poles))
            p = list(l.poles[i])
            p[rng.below(3)] = rng.pick([rng.bits(), BINADE(24), -BINADE(24), TINY, -TINY, BINADE(-500)])
            l.poles[i] = tuple(p)
        if rng.chance(0.15):
            l.knots[rng.below(len(l.knots))] = rng.bits()
        if rng.chance(0.15):
            l.weights = [rng.pick([1.0, 2.0, rng.bits()]) for _ in l.poles]
    return sheet(a, b, random_S(rng), None, rng.pick([0.0, 1.0, abs(rng.bits())]))


def kind_bytes(rng):
    """Words at random."""
    n = rng.pick([0, 1, 4, 8, 16384, 16388, rng.below(200), 4 * rng.below(60)])
    if n > 1000:
        return (kind_segments(rng) + bytes(n))[:n]
    return bytes(rng.below(256) for _ in range(n))


KINDS = [(kind_lines, 30), (kind_segments, 12), (kind_small_pieces, 18), (kind_comb, 8), (kind_cells, 6),
         (kind_many_pieces, 4), (kind_tangent, 6), (kind_measure, 5), (kind_edge, 5), (kind_limit, 3),
         (kind_spoilt, 10), (kind_damaged, 10), (kind_wild, 5), (kind_bytes, 2)]


def ring_knots(rng, n):
    """n rising knots; often with spans of a few doubles, or with a period that rounds."""
    way = rng.below(4)
    if way == 0:
        return random_knots(rng, n)
    if way == 1:
        out = sorted({rng.between(-1.0, 1.0) for _ in range(n)})
        return out if len(out) == n else [float(i) for i in range(n)]
    at = rng.pick([-1000.0, -1.0, -0.7, -0.1, 0.0, 0.3, 1.0, 700.0, -BINADE(20), rng.between(-2.0, 2.0)])
    out = [at]
    for _ in range(n - 1):
        step = rng.below(5)
        if step == 0:
            at = beside(at, 1 + rng.below(4))
        elif step == 1:
            at = max(beside(at, 1), 0.0) if at < 0 else at + BINADE(-rng.below(60))
        else:
            at = at + rng.pick([0.1, 0.5, 1.0, 3.0, rng.unit(), 500.0])
        at = beside(out[-1], 1) if not out[-1] < at <= BINADE(20) else at
        out.append(at)
    return out


def random_ring(rng, style, spans=None, degree=None):
    """An admitted closed line."""
    while True:
        p = random_degree(rng) if degree is None else degree
        n = (2 + rng.pick([0, 1, 1, 2, 3, rng.below(12)])) if spans is None else spans
        seam = rng.pick([1, 1, p, 1 + rng.below(p)])
        mults = [seam] + [rng.pick([1, 1, 1, p, 1 + rng.below(p)]) for _ in range(n - 1)] + [seam]
        poles = sum(mults) - seam
        if p + 1 <= poles <= 128:
            weights = random_weights(rng, poles) if rng.chance(0.25) else None
            return ring(p, ring_knots(rng, n + 1), mults, in_limits(random_poles(rng, poles, style)), weights)


def ring_range(rng, l):
    """A range that is nearly always admitted: from a knot, beside one, or from inside;
    a turn, a part or a few doubles."""
    first, last = l.bounds()
    if not l.closed or not first < last:
        return random_range(rng, l)
    k = l.knots[rng.below(len(l.knots) - 1)]
    lo = rng.pick([first, first, k, beside(k, 1 + rng.below(3)), beside(k, -1 - rng.below(3)),
                   beside(last, -1 - rng.below(4)), rng.between(first, last), rng.between(first, last)])
    lo = lo if first <= lo < last else first
    way = rng.below(8)
    if way < 3:
        return (lo, lo + (last - first))
    if way == 3:
        return (lo, beside(lo + (last - first), rng.below(5) - 2))
    if way == 4:
        return (lo, lo + (last - first) * rng.unit())
    if way == 5:
        return (lo, rng.pick([last, beside(last, 1 + rng.below(6)), k + (last - first)]))
    if way == 6:
        return (lo, beside(lo, 1 + rng.below(40)))
    return (lo, max(l.knots[rng.below(len(l.knots))], beside(lo, 8)))


def kind_rings(rng):
    """A ring and an open line, or two rings."""
    style = rng.pick(STYLES)
    a = random_ring(rng, style, 2 + rng.below(5))
    b = random_ring(rng, style, 2 + rng.below(3)) if rng.chance(0.3) else random_line(rng, style, 1 + rng.below(2))
    if rng.chance(0.1):
        b = turned_over(rng, a)
    if rng.chance(0.1):
        a, b = with_zeros(rng, a), with_zeros(rng, b)
    if rng.chance(0.4):
        a, b = b, a
    return sheet(a, b, rng.pick([0, 0, 1, 2, 5, 20, 60]), [ring_range(rng, a), ring_range(rng, b)], random_gap(rng, style))


def kind_ring_doubles(rng):
    """Rings with spans of a few doubles: in_period and the list may disagree."""
    a = random_ring(rng, 'grid', 3 + rng.below(3), rng.pick([1, 1, 1, 2, 3, 4]))
    at = rng.pick([-1000.0, -500.0, -1.0, -0.7, 0.3, 1.0, rng.between(-2.0, 2.0)])
    n = len(a.knots) - 1
    steps = [rng.pick([0.5, 1.0, 500.0, rng.unit()]) for _ in range(n)]
    tight = rng.pick([0, 0, n - 1, n - 1, rng.below(n)])
    a.knots = [at]
    for i in range(n):
        top = a.knots[-1]
        a.knots.append(beside(top, 1 + rng.below(3)) if i == tight else top + steps[i])
    if rng.chance(0.4):  # the last span near 0, or the last but one knot 0
        e = BINADE(-rng.pick([40, 52, 53, 60, 300]))
        a.knots = [k - a.knots[-1] - 1.0 for k in a.knots[:-1]] + [rng.pick([e, 1.0 + E43])]
        a.knots[-2] = rng.pick([0.0, a.knots[-2]])
    if sorted(set(a.knots)) != a.knots:
        a.knots = [float(i) for i in range(n + 1)]
    point = lambda: tuple(rng.pick([-1.0, 0.0, 0.5, 1.0, 2.0, rng.between(-2.0, 2.0)]) for _ in range(3))
    b = segment(point(), point())
    first, last = a.bounds()
    lo = rng.pick([first, a.knots[1], 0.5 * (a.knots[n - 2] + a.knots[n - 1]), a.knots[n - 1], rng.between(first, last)])
    lo = lo if first <= lo < last else first
    hi = rng.pick([lo + (last - first), last, lo + (last - first), max(last, lo + (last - first) * rng.unit())])
    pair = [(a, (lo, hi)), (b, None)]
    (a, ra), (b, rb) = pair if rng.chance(0.5) else pair[::-1]
    return sheet(a, b, rng.pick([0, 0, 1, 10]), [ra, rb], rng.pick([0.0, 0.0, 0.25]))


def kind_ring_spoilt(rng):
    """One or more faults, 22 among them."""
    number = rng.pick([22, 22, 22] + list(range(4, 19)))
    a, b = random_ring(rng, 'grid', 2 + rng.below(3)), random_line(rng, 'grid', 1)
    ranges, gap, s = [None, None], rng.pick([0.0, 1.0]), rng.below(20)
    if number == 22:
        a.mults[rng.pick([0, -1])] = rng.pick([0, 1, a.degree, a.degree + 1, 99, 0xFFFFFFFF, 1 + rng.below(a.degree + 1)])
    elif number <= 14:
        spoil_into(a, number, rng)
    while rng.chance(0.3):
        spoil_into(a, 4 + rng.below(11), rng)
    if number == 15 or rng.chance(0.1):
        first, last = a.bounds()
        ranges[0] = rng.pick([(last, last + 1.0), (beside(last, -1), INF), (NAN, last), (beside(first, -1), last),
                              (first, beside(last, 1)), (first, first)])
    if number == 16:
        gap = rng.pick(BAD_FLOATS + [-1.0, 2e7])
    if number == 17:
        s = 257 + rng.below(5000)
    if number == 18:
        first = a.bounds()[0]
        ranges[0] = (first, beside(first, 1))
    if rng.chance(0.2):
        b = random_ring(rng, 'grid', 2)
        spoil_into(b, 4 + rng.below(11), rng)
    if rng.chance(0.4):
        a, b, ranges = b, a, ranges[::-1]
    return sheet(a, b, s, ranges, gap)


def kind_ring_damaged(rng):
    """A sheet with a closed line, with words or bits changed, or a line's kind turned."""
    data = bytearray(rng.pick([kind_rings, kind_ring_doubles])(rng)[:16384])
    way = rng.below(4)
    if way == 0:
        return bytes(data[:4 * rng.below(len(data) // 4 + 1)])
    if way == 1:
        data[rng.below(len(data))] ^= 1 << rng.below(8)
        return bytes(data)
    if way == 2:
        data[0:4] = head(rng.pick([1, 8, 9, rng.below(16)]), data[0])
        return bytes(data)
    at = 4 * rng.below(len(data) // 4)
    data[at:at + 4] = head(rng.below(16), rng.below(6))
    return bytes(data)


def kind_ring_pieces(rng):
    """Many pieces, few pairs."""
    degree = rng.pick([1, 2, 3, 8, 15, 25])
    spans = max(degree + 1, rng.pick([20, 60, 77, 78, 79, 100, 126, 127]))
    knots = ring_knots(rng, spans + 1) if rng.chance(0.3) else range(spans + 1)
    a = ring(degree, knots, [1] * (spans + 1), round_poles(spans, 50.0))
    b = segment((rng.between(-60.0, 60.0), rng.between(-60.0, 60.0), 0.0), (rng.between(30.0, 60.0), rng.unit(), 1.0))
    ranges = [ring_range(rng, a), None]
    pair = (a, b) if rng.chance(0.5) else (b, a)
    return sheet(pair[0], pair[1], rng.below(10), ranges if pair[0] is a else ranges[::-1], rng.pick([0.0, 0.1]))


CLOSED_KINDS = [(kind_rings, 40), (kind_ring_doubles, 30), (kind_ring_spoilt, 12), (kind_ring_damaged, 8),
                (kind_ring_pieces, 10)]


def seam_ring(rng):
    """A ring of few spans, and where its turn starts."""
    degree = rng.pick([1, 1, 1, 1, 2, 3, 4])
    n = max(2 + rng.below(5), 2 if degree == 1 else degree)
    l = basin(degree, rng.pick([1, degree]), n, inner=rng.pick([1, 1, degree]))
    while len(l.poles) <= degree:
        l = basin(degree, degree, n + 1)
    way = rng.below(3)
    if way == 0:
        l.poles = [tuple(random_coordinate(rng, 'fine') * 4 for _ in range(3)) for _ in l.poles]
    elif way == 1:
        l.poles = [(x * (1 + i % 2), y, 0.0) for i, (x, y, _) in enumerate(l.poles)]
    if rng.chance(0.3):
        l.knots = ring_knots(rng, len(l.knots))
    if rng.chance(0.1):
        l.weights = random_weights(rng, len(l.poles))
    first, last = l.bounds()
    lo = rng.pick([first, first, l.knots[rng.below(len(l.knots) - 1)], 0.5 * (l.knots[0] + l.knots[1]), rng.between(first, last)])
    return l, lo if first <= lo < last else first


def seam_range(rng, l, lo):
    """A turn from lo, as a rule a whole one; or a few doubles more or less, or a part."""
    lo, hi = turn_from(l, lo)
    way = rng.below(10)
    if way == 0:
        return (lo, beside(hi, -1 - rng.below(2)))
    if way == 1:
        return (lo, beside(hi, 1)) if rng.chance(0.5) else (beside(lo, 1 + rng.below(3)), hi)
    if way == 2:
        return (lo, lo + (hi - lo) * rng.pick([0.5, 0.75, rng.unit()]))
    return (lo, hi)


def kind_turns(rng):
    """A ring, and an open line that passes the ring's seam, once or more often."""
    l, lo = seam_ring(rng)
    at = point_at(l, lo)
    near = lambda reach: tuple(x + reach * random_coordinate(rng, 'unit') for x in at[:2]) + (at[2],)
    way = rng.below(4)
    if way == 0:
        other = across(l, lo, rng.pick([0.5, 1.0, 4.0]))
    elif way == 1:
        p = near(1.0)
        other = segment(p, tuple(2 * x - y for x, y in zip(at, p)))
    else:
        other = polyline([near(rng.pick([0.5, 2.0])) for _ in range(3 + rng.below(5))])
    pair, ranges = [l, other], [seam_range(rng, l, lo), None]
    if rng.chance(0.5):
        pair, ranges = pair[::-1], ranges[::-1]
    return sheet(pair[0], pair[1], rng.pick([0, 0, 0, 1, 2, 3, 5, 10, 30, 60]), ranges, rng.pick([0.0, 0.01, 0.1, 0.1, 0.5]))


def kind_two_turns(rng):
    """Two rings whose seams are one place, or beside each other."""
    (a, p), (b, q) = seam_ring(rng), seam_ring(rng)
    off = [x - y for x, y in zip(point_at(a, p), point_at(b, q))]
    if rng.chance(0.2):
        off[rng.below(3)] += rng.pick([0.25, -0.5, 2.0])
    b.poles = in_limits([tuple(x + y for x, y in zip(pole, off)) for pole in b.poles])
    return sheet(a, b, rng.pick([0, 0, 0, 1, 1, 2, 5, 20, 60]), [seam_range(rng, a, p), seam_range(rng, b, q)],
                 rng.pick([0.0, 0.01, 0.1]))


def kind_loops(rng):
    """Rounds about the corner of a square at its seam: several groups and chains."""
    path = ''.join(rng.pick(['abd', 'abd', 'abc', 'ad', 'bc', 'a', 'b', 'abcabd']) for _ in range(1 + rng.below(5)))
    pair = [SQUARE, loops(path)]
    ranges = [rng.pick([None, None, None, seam_range(rng, SQUARE, 0.0), turn_from(SQUARE, 3.5)]), None]
    if rng.chance(0.5):
        pair, ranges = pair[::-1], ranges[::-1]
    return sheet(pair[0], pair[1], rng.pick([0, 0, 1, 2, 3, 8, 20, 60]), ranges, rng.pick([0.0, 0.0, 0.01]))


MARKED_KINDS = [(kind_turns, 50), (kind_two_turns, 30), (kind_loops, 20)]


def way_of(rng):
    """A direction for lines in line: not along an axis as a rule, so that the boxes may overlap."""
    return rng.pick([(1, 1, 1), (1, 1, 0), (3, 4, 0), (1, -2, 2), (1, 0, 0), tuple(random_coordinate(rng, 'unit') for _ in range(3))])


def kind_in_line(rng):
    """Two lines on one straight line or within the gap of it, the second further on by about the gap."""
    way, size = way_of(rng), rng.pick([1.0, 4.0, 100.0])
    gap = size * rng.pick([0.1, 0.25, 0.5, rng.unit()])
    start = tuple(size * random_coordinate(rng, rng.pick(['grid', 'unit'])) for _ in range(3))
    way = tuple(size * x for x in way)
    lift = gap * rng.pick([0.0, 0.0, 0.25, 0.5, 0.9, 1.0, 1.5, 8.0])
    places = lambda lo, hi: [lo] + sorted(rng.between(lo, hi) for _ in range(rng.pick([0, 0, 1, 2, 4]))) + [hi]
    between = gap / max(math.sqrt(sum(x * x for x in way)), 1e-9) * rng.pick([0.5, 1.0, 1.0, 1.1, 1.3, 1.7, 2.0])
    lifts = [0.0] + [lift * rng.pick([0.0, 1.0, -1.0]) for _ in range(3)]
    ends = places(0.0, 1.0), places(1.0 + between, 1.0 + between + rng.pick([0.1, 0.5, 1.0, 2.0]))
    a, b = (along(start, way, p, lifts[:rng.pick([0, len(p) - 1])]) for p in ends)
    a, b = (b, a) if rng.chance(0.5) else (a, b)
    return sheet(a, b, rng.pick([0, 1, 8, 60, 256]), None, gap)


def kind_cleared(rng):
    """Lines of a few spans that pass each other at about the gap, side by side, in line and across."""
    gap = rng.pick([0.125, 0.25, 0.5, 0.5, 1.0])
    at = [[0.0, 0.0, 0.0]]
    for _ in range(2 + rng.below(3)):
        way, far = way_of(rng), rng.pick([1.0, 2.0, 4.0])
        at.append([x + far * w for x, w in zip(at[-1], way)])
    a = polyline([tuple(p) for p in at])
    i = rng.below(len(at) - 1)
    way = [y - x for x, y in zip(at[i], at[i + 1])]
    off = [gap * rng.pick([0.0, 0.0, 1.0, 1.2, 2.0]) * rng.pick([1, -1]) for _ in range(3)]
    on = rng.pick([1.0, 1.1, 1.2, 0.5, -0.5])
    p = [x + on * w + o for x, w, o in zip(at[i], way, off)]
    q = [x + rng.pick([0.2, 0.5, 1.0]) * w for x, w in zip(p, way)]
    points = [tuple(p), tuple(q)] + [tuple(y + 4 * random_coordinate(rng, 'unit') for y in q) for _ in range(rng.below(3))]
    b = polyline(points) if rng.chance(0.6) else bezier(points)
    a, b = (b, a) if rng.chance(0.5) else (a, b)
    return sheet(a, b, rng.pick([0, 2, 8, 20, 60, 100]), None, gap)


TAGGED_KINDS = [(kind_in_line, 50), (kind_cleared, 50)]


def random_data(rng):
    """Two data: often equal, or alike in some of their bits."""
    a = rng.pick([0, 1, 2, 9998, 9999, 10000, 10001, 65536, 65537, MAX_COUNT, 1 + rng.below(9999), 1 + rng.below(9999), rng.below(1 << 28)])
    return (a, rng.pick([a, a, a, 1, 0, a + 1, a - 1, a ^ 1 << rng.below(28), a + 65536, a + 256, rng.below(1 << 28)]) & MAX_COUNT)


def any_sheet(rng):
    return rng.pick([kind_lines, kind_segments, kind_small_pieces, kind_rings, kind_loops, kind_in_line, kind_spoilt, kind_ring_spoilt, kind_measure])(rng)


def kind_data(rng):
    """Any sheet with other data than 1 and 1."""
    return dated(any_sheet(rng), random_data(rng))


def kind_datum_word(rng):
    """Any sheet with one of its data words dropped, doubled, moved, changed, or as the last one."""
    parts = [(item[0], item_bytes(item[0], item[1:], 0)) for item in spelled(items_of(any_sheet(rng))) if item[0] != 'zeros']
    at = rng.pick([i for i, part in enumerate(parts) if part[0] == 'datum'] or [0])
    word = parts.pop(at) if parts else ('', b'')
    way = rng.below(6)
    if way == 1:
        parts[at:at] = [word, word]
    elif way == 2:
        parts.insert(max(0, at - 1 - rng.below(2)), word)
    elif way == 3:
        parts.insert(rng.below(len(parts) + 1), word)
    elif way == 4:
        parts.insert(at, ('', head(rng.below(16), rng.pick([0, 1, 2, rng.below(1 << 28)]))))
    elif way == 5:
        parts = parts[:at] + [word] * rng.below(2)
    return b''.join(part[1] for part in parts)


DATED_KINDS = [(kind_data, 60), (kind_datum_word, 40)]


def moved_off(rng, l):
    """The line so far off that it has no pairs with one near the origin."""
    out = l.copy()
    d = rng.pick([1e4, -1e4, 1e6])
    out.poles = in_limits([(x + d, y, z) for x, y, z in out.poles])
    return out


def line_for(rng, track, style):
    """A line for the track's chart, open or closed."""
    way = rng.below(8)
    if way == 0:
        return turned_over(rng, track)
    if way == 1:
        return random_ring(rng, style, 2 + rng.below(2), rng.pick([1, 1, 2, 3]))
    if way == 2:
        return moved_off(rng, random_line(rng, 'grid', 1))
    if way == 3:
        return segment(track.poles[0], tuple(random_coordinate(rng, style) for _ in range(3)))
    l = random_line(rng, style, 1 + rng.below(2))
    return with_zeros(rng, l) if rng.chance(0.1) else l


MAX_BYTES = 16384


def cut_to_size(lines, ranges):
    """The track and as many lines as a sheet holds."""
    while len(lines) > 2 and len(chart(lines, 0, ranges)) > MAX_BYTES:
        lines, ranges = lines[:-1], ranges[:-1]
    return lines, ranges


def random_chart(rng):
    """Lines, the track first, S, ranges and gap of a chart that is seldom refused."""
    style = rng.pick(STYLES)
    closed = rng.chance(0.2)
    track = random_ring(rng, style, 2 + rng.below(2), rng.pick([1, 1, 2, 3])) if closed else random_line(rng, style, 1 + rng.below(3))
    lines = [track] + [line_for(rng, track, style) for _ in range(rng.pick([1, 1, 2, 2, 2, 3, 3, 4, 5, 7]))]
    lines, ranges = cut_to_size(lines, [ring_range(rng, l) if rng.chance(0.15) else None for l in lines])
    return lines, rng.pick([0, 0, 1, 1, 2, 3, 5, 20, 60]), ranges, random_gap(rng, style)


def kind_chart(rng):
    return chart(*random_chart(rng))


def kind_chart_comb(rng):
    """Lines with up to 13 pairs, of which an allowance near the limit may be asked."""
    n = rng.pick([2, 6, 10, 11, 12, 13])
    y = rng.pick([0.5, 0.25, rng.unit()])
    track = segment((-1.0, y, 0.0), (n + 1.0, rng.pick([y, 1.0 - y]), 0.0))
    few = lambda: rng.pick([n, n, n, n - 1, 1, 1 + rng.below(n)])
    lines = [moved_off(rng, comb(2)) if rng.chance(0.2) else comb(few(), rng.pick([1.0, 2.0])) for _ in range(1 + rng.below(4))]
    s = rng.pick([0, 0, 1, 3, max(0, min(256, 819 // n - 2 + rng.below(4)))])
    return chart([track] + lines, s, None, rng.pick([0.0, 0.0, 0.01, 0.1]))


def kind_chart_many(rng):
    """About as many lines as a chart may have, or as a sheet can hold."""
    if rng.chance(0.3):
        return chart([rng.pick([HOLLOW, UNIT])] + [HOLLOW] * rng.pick([62, 63, 64, 65, 66, 100, 256, 257, 320, 400, 405, 406, 407, 408]))
    point = lambda: tuple(random_coordinate(rng, 'fine') * 4 for _ in range(3))
    lines = [segment(point(), point()) for _ in range(1 + rng.pick([20, 50, 62, 63, 64, 64, 64, 65, 66]))]
    ranges = [None] * len(lines)
    if rng.chance(0.3):
        ranges[rng.below(len(lines))] = rng.pick([BAD_RANGE, NO_MIDDLE, (0.25, 0.5)])
    if rng.chance(0.2):
        spoil_into(lines[rng.below(len(lines))], 4 + rng.below(11), rng)
    if rng.chance(0.1):
        lines[rng.below(len(lines))].datum = rng.pick([0, 2, 10000])
    return chart(lines, rng.pick([0, 0, 1, 4]), ranges, rng.pick([0.0, 0.1, 1.0]))


def kind_chart_spoilt(rng):
    """One or more faults of the table, at any place."""
    lines, s, ranges, gap = random_chart(rng)
    for _ in range(rng.pick([1, 1, 2, 2, 3])):
        k, number = rng.below(len(lines)), rng.pick(list(range(4, 15)) + [22, 23, 23, 15, 15, 16, 17, 18, 18, 19])
        l = lines[k] = lines[k].copy()
        if number == 22:
            lines[k] = random_ring(rng, 'grid', 2)
            lines[k].mults[0] += 1
        elif number in (11, 5, 6):
            lines[k] = spoilt(number, rng)
        elif number <= 14:
            spoil_into(l, number, rng)
        elif number == 23:
            l.datum = rng.pick([0, 2, 9999, 10000, 65537])
        elif number == 15:
            ranges[k] = rng.pick([(NAN, 1), (0, INF), BAD_RANGE, (1, 0), (-1e9, 1e9)])
        elif number == 16:
            gap = rng.pick(BAD_FLOATS + [-1.0, 2e7])
        elif number == 17:
            s = 257 + rng.below(5000)
        elif number == 18:
            lo = l.bounds()[0]
            ranges[k] = (lo, beside(lo, 1))
        else:
            lines[k] = rng.pick([comb(13), polyline([(i, 0, 0) for i in range(80)])])
    return chart(lines, s, ranges, gap, rng.pick([(0.0, 0.0), (NAN, NAN), (1.0, 0.0), (rng.bits(), rng.bits())]))


def kind_chart_data(rng):
    """Charts with other data than 1."""
    lines, s, ranges, gap = random_chart(rng)
    datum, other = random_data(rng)
    for l in lines:
        l.datum = datum
    if rng.chance(0.5):
        lines[rng.below(len(lines))].datum = other
    return chart([l.copy() for l in lines], s, ranges, gap)


def kind_chart_words(rng):
    """A chart with a word dropped, doubled, moved or changed, often one of a range; or cut short."""
    data = rng.pick([kind_chart, kind_chart, kind_chart_comb, kind_chart_spoilt])(rng)
    parts = [(item[0], item_bytes(item[0], item[1:], 0)) for item in spelled(items_of(data)) if item[0] != 'zeros']
    names = rng.pick([('range',), ('range', 'datum'), ('line', 'ring'), ('question',), ('end',)])
    at = rng.pick([i for i, part in enumerate(parts) if part[0] in names] or [0])
    name, word = parts[at]
    way = rng.below(8)
    if way == 0:
        parts.pop(at)
    elif way == 1:
        parts.insert(at, parts[at])
    elif way == 2:
        parts.insert(rng.below(len(parts)), parts.pop(at))
    elif way == 3:
        parts[at] = (name, head(rng.below(16), rng.pick([0, 0, 1, 2, rng.below(1 << 28)])) + word[4:])
    elif way == 4:
        parts[at] = (name, words([struct.unpack('<I', word[:4])[0] ^ 1 << rng.below(32)]) + word[4:])
    elif way == 5:
        parts = parts[:at] + [(name, word[:rng.below(len(word) + 1)])]
    elif way == 6:  # without its lines, or with a pair's
        first = next((i for i, part in enumerate(parts) if part[0] == 'datum'), 0)
        last = next((i for i, part in enumerate(parts) if part[0] == 'question'), len(parts))
        parts = parts[:first + 1] + parts[last:]
    else:
        parts = [part for i, part in enumerate(parts) if part[0] != 'range' or rng.chance(0.5)]
    return b''.join(part[1] for part in parts)


CHART_KINDS = [(kind_chart, 40), (kind_chart_spoilt, 22), (kind_chart_words, 14), (kind_chart_comb, 12), (kind_chart_many, 6), (kind_chart_data, 6)]


def deep_S(rng):
    return rng.pick([256, 256, 256, 200, 100, 128, 31, 32, 33, 60 + rng.below(10), rng.below(257)])


def turned(rng, a, b):
    """Both lines by one turn of the axes and one shift, as a rule none, in either order."""
    order = rng.pick([(0, 1, 2), (1, 2, 0), (2, 1, 0)])
    off = rng.pick([(0.0, 0.0, 0.0), (0.0, 0.0, 0.0), tuple(random_coordinate(rng, 'unit') for _ in range(3))])
    for l in (a, b):
        l.poles = in_limits([tuple(p[i] + x for i, x in zip(order, off)) for p in l.poles])
    return (b, a) if rng.chance(0.5) else (a, b)


def random_crossing(rng):
    """Two lines that cross, one up to 2^50 times as long as the other; or a point, or end at end."""
    place = lambda: rng.pick([0.0, 1.0, 0.5, 1 / 3, rng.unit(), rng.unit()])
    at = place()
    a, b = crossing_of(rng.pick(RATIOS + (rng.below(51),)), at, at if rng.chance(0.3) else place(), rng.pick([0.0, 0.0, 0.125, rng.unit()]))
    if rng.chance(0.15):
        b = bezier([point_at(a, place())] * (2 + rng.below(3)))
    if rng.chance(0.15):
        a.weights = random_weights(rng, len(a.poles))
    return turned(rng, a, b)


def deep_gap(rng):
    return rng.pick([0.0, 0.0, 0.0, 0.0, BINADE(-20 - rng.below(40)), 1e-6, 0.01])


def kind_outfall(rng):
    a, b = random_crossing(rng)
    return sheet(a, b, deep_S(rng), None, deep_gap(rng))


def kind_outfall_spans(rng):
    """A line of a few spans, one of them long, against a short one."""
    points = [tuple(random_coordinate(rng, 'unit') for _ in range(3)) for _ in range(2 + rng.below(3))]
    far = BINADE(rng.below(24))
    long = polyline([tuple(x * far for x in points[0])] + points[1:])
    p = point_at(long, rng.pick([0.0, 1.0, rng.unit()]))
    size = BINADE(-rng.below(24))
    way = [random_coordinate(rng, 'unit') * size for _ in range(3)]
    short = segment(tuple(x - 0.3 * w for x, w in zip(p, way)), tuple(x + 0.7 * w for x, w in zip(p, way)))
    a, b = (long, short) if rng.chance(0.5) else (short, long)
    return sheet(a, b, rng.pick([60, 64, 66, 100, 200]), None, rng.pick([0.0, BINADE(-30), BINADE(-12)]))


def kind_outfall_ring(rng):
    """A ring, and a long line across it or a point on it."""
    l, lo = seam_ring(rng)
    t = rng.pick([lo, rng.between(*l.bounds())])
    other = across(l, t, BINADE(rng.below(24))) if rng.chance(0.7) else bezier([point_at(l, t)] * 2)
    if not all(abs(x) <= BINADE(24) for p in other.poles for x in p):
        other = across(l, t, 4.0)
    pair, ranges = [l, other], [seam_range(rng, l, lo), None]
    if rng.chance(0.5):
        pair, ranges = pair[::-1], ranges[::-1]
    return sheet(pair[0], pair[1], rng.pick([32, 60, 64, 68, 100, 200]), ranges, deep_gap(rng))


def kind_outfall_chart(rng):
    """A chart whose lines, longer and shorter, cross the track."""
    track, first = random_crossing(rng)
    lines = [track, first] + [rng.pick(random_crossing(rng)) for _ in range(rng.below(3))]
    return chart(lines, deep_S(rng), None, deep_gap(rng))


DEEP_KINDS = [(kind_outfall, 55), (kind_outfall_spans, 15), (kind_outfall_ring, 15), (kind_outfall_chart, 15)]


def random_sheet(rng, kinds):
    """(kind, bytes) of one random sheet."""
    at = rng.below(sum(n for _, n in kinds))
    for make, n in kinds:
        if at < n:
            return make.__name__[5:], make(rng)
        at -= n


def random_sheets(seed, count, level=1):
    """`count` random sheets; sheet i depends on the seed, i and the level alone. From level 100 on
    those at 0, 3, 6, .. have closed lines, from 101 on those at 1, 4, 7, .. turns, from 103 on those at
    2, 8, 14, .. lines that each test clears, from 104 on those at 5, 17, 29, .. data, from 105 on those at
    4, 9, 16, 21, .. are charts, from 106 on those at 6, 7, 18, 19, .. reach depth 32; the others stay."""
    new = {}
    if level >= 100:
        new.update({i: CLOSED_KINDS for i in (0, 3, 6, 9)})
    if level >= 101:
        new.update({i: MARKED_KINDS for i in (1, 4, 7, 10)})
    if level >= 103:
        new.update({i: TAGGED_KINDS for i in (2, 8)})
    if level >= 104:
        new[5] = DATED_KINDS
    if level >= 105:
        new.update({i: CHART_KINDS for i in (4, 9)})
    if level >= 106:
        new.update({i: DEEP_KINDS for i in (6, 7)})
    for i in range(count):
        yield random_sheet(Rng(seed * 1000003 + i), new.get(i % 12, KINDS))


# ---- files ------------------------------------------------------------------------


def write_examples(folder):
    os.makedirs(folder, exist_ok=True)
    for name, make in EXAMPLES + CLOSED_EXAMPLES + CHART_EXAMPLES:
        with open(os.path.join(folder, name + '.sheet'), 'wb') as f:
            f.write(make())


def answer_of(program, data):
    return subprocess.run([program], input=data, stdout=subprocess.PIPE, check=True).stdout.decode('ascii')


def bucket(kind, answer):
    """Sheets of one bucket are alike: the replay list takes a few of each."""
    first = answer.split('\n', 1)[0].split(' ')
    if first[0] == 'refused':
        return tuple(first), 3
    count = counts(answer)
    return (kind, first[0], min(count['regions'], 3), count['visits'].bit_length() // 3), 1


REPLAY_SEED, REPLAY_TRIED, REPLAY_BYTES, REPLAY_TEXT = 12, 2000, 1000, 1500
REPLAY_GROUPS = [(checks, 2), (point_contacts, 2), (word_faults, 8), (empty_parts, 3), (line_faults, 7),
                 (question_faults, 3), (memory_faults, 5), (merging, 4), (zero_starts, 1), (tiny_coordinates, 3),
                 (measures, 5), (pairs_of_lines, 8), (picked, 1)]
REPLAY_LAST = [axes, limits]
REPLAY_ALSO = {
    'example', 'crossing-S0', 'crossing-S1', 'parallel-gap0.5', 'parallel-gap1.0', 'far', 'nan-net', 'degree25',
    'degree26', 'length-0', 'length-1', 'length-16384', 'length-16388', 'second-stops', 'weights-0-last-word',
    'end-count-1-and-words', 'words-after-end', 'end-count-1', 'poles-count-aaaaaab', 'S-huge', 'empty-sum-below',
    'empty-sum-2-second', 'empty-no-length', 'no5-0-first', 'no6-and-no7', 'no8-and-no9', 'no14-with-no4',
    'mults-inner-over-first', 'mults-inner-full-second', 'mults-last-over-second', 'knots-at-limit',
    'weights-at-limit', 'coordinates-at-limit', 'gap-at-limit', 'knots-128', 'knots-129', 'poles-128', 'poles-129',
    'no15-0-gap', 'no16-0-S', 'no17-257', 'no17-257-breaks', 'narrow-0', 'no18-0-then-15', 'no18-1-first',
    'no18-1-second', 'no18-knots-second', 'near-knots-from', 'gap-negative-zero', 'pairs-12-S-67', 'pairs-12-S-68',
    'pairs-13-S-62', 'regions-4-204', 'regions-9-90', 'pieces-113-degree-15', 'pieces-107-degree-18',
    'pieces-107-degree-18-second', 'pieces-126-degree-15', 'pairs-16129', 'pairs-0', 'star-6', 'two-passes-S0',
    'twice-round', 'equal-starts', 'zeros-0-1', 'minus-zero-poles', 'f0-is-1', 'tiny-0', 'mixed-2^-1072'}


CLOSED_SEED, CLOSED_TRIED, CLOSED_BYTES, CLOSED_TEXT = 100, 3000, 1200, 800
CLOSED_GROUPS = [(turns, 4), (seam_spans, 1), (seams, 1), (rounded_periods, 2), (lost_spans, 1), (closed_faults, 1),
                 (closed_ends, 1), (closed_poles, 1), (closed_ranges, 1), (closed_breaks, 1),
                 (closed_memory, 1), (closed_words, 1)]


MARKED_SEED, MARKED_TRIED, MARKED_BYTES, MARKED_TEXT = 101, 6000, 1200, 1600
MARKED_GROUPS = [(seam_groups, 1), (whole_turns, 1), (curved_turns, 3), (many_marks, 3)]


TAGGED_SEED, TAGGED_TRIED, TAGGED_BYTES, TAGGED_TEXT = 103, 12000, 800, 1200
TAGGED_GROUPS = [(one_test, 1), (two_tests, 1), (three_tags, 1), (never_halved, 1)]


DATED_SEED, DATED_TRIED, DATED_BYTES, DATED_TEXT = 104, 12000, 600, 800
DATED_GROUPS = [(data_pairs, 1), (data_faults, 1), (data_words, 1)]


CHART_SEED, CHART_TRIED, CHART_BYTES, CHART_TEXT = 105, 12000, 640, 1600
CHART_GROUPS = [(chart_sizes, 1), (chart_faults, 1), (chart_orders, 1), (chart_unread, 1), (chart_words, 1), (chart_reports, 1)]


DEEP_SEED, DEEP_TRIED, DEEP_BYTES, DEEP_TEXT = 106, 12000, 800, 3000
DEEP_GROUPS = [(outfalls, 1), (equal_boxes, 1), (deep_points, 1), (deep_allowances, 1), (deep_pairs, 1), (deep_rings, 1), (deep_zeros, 1), (deep_charts, 1)]


def thinned(program, groups):
    """(bytes, answer) of drawn sheets, of each group every so many."""
    for group, every in groups:
        for i, (_, data) in enumerate(group()):
            if i % every == 0:
                yield data, answer_of(program, data)


def marked_bucket(kind, answer):
    """The bucket with the regions, the groups and the largest group."""
    m = marks(answer)
    sizes = [m.count(k) for k in set(m)]
    return bucket(kind, answer)[0][:2] + (min(len(m), 6), min(len(sizes), 4), min(max(sizes, default=0), 4))


def marked_replay_sheets(program):
    """(bytes, answer) of the replay list with stretch marks: drawn sheets, thinned by group, then random
    ones, one of each bucket."""
    yield from thinned(program, MARKED_GROUPS)
    taken = set()
    for i, (kind, data) in enumerate(random_sheets(MARKED_SEED, MARKED_TRIED, 101)):
        if i % 3 != 1 or len(data) > MARKED_BYTES:
            continue
        answer = answer_of(program, data)
        at = marked_bucket(kind, answer)
        if at not in taken and len(at_level(answer, 1)) <= MARKED_TEXT:
            taken.add(at)
            yield data, answer


def tagged_bucket(kind, answer):
    """The bucket with the tests that cleared a node."""
    return bucket(kind, answer)[0] + tuple(min(n, 2) for n in tags(answer))


def tagged_replay_sheets(program):
    """(bytes, answer) of the replay list for the tags: the drawn sheets, then random ones, one of each bucket."""
    yield from thinned(program, TAGGED_GROUPS)
    taken = set()
    for i, (kind, data) in enumerate(random_sheets(TAGGED_SEED, TAGGED_TRIED, 103)):
        if i % 6 != 2 or len(data) > TAGGED_BYTES:
            continue
        answer = answer_of(program, data)
        at = tagged_bucket(kind, answer)
        if at not in taken and len(at_level(answer, 1)) <= TAGGED_TEXT:
            taken.add(at)
            yield data, answer


def dated_replay_sheets(program):
    """(bytes, answer) of the replay list with data: the drawn sheets, then random ones, a few of each bucket."""
    yield from thinned(program, DATED_GROUPS)
    taken = {}
    for i, (kind, data) in enumerate(random_sheets(DATED_SEED, DATED_TRIED, 104)):
        if i % 12 != 5 or len(data) > DATED_BYTES:
            continue
        answer = answer_of(program, data)
        at, most = bucket(kind, answer)
        if taken.get(at, 0) < most and len(at_level(answer, 1)) <= DATED_TEXT:
            taken[at] = taken.get(at, 0) + 1
            yield data, answer


def chart_bucket(kind, answer):
    """The bucket with the words of the first reports and how many there are."""
    if answer.startswith('refused '):
        number, place = answer.split()[1:]
        return (number, min(int(place), 3)), 1
    return (kind, tuple(r[0] for r in reports(answer)[:3]), min(len(reports(answer)), 5), has_group(answer)), 1


def chart_replay_sheets(program):
    """(bytes, answer) of the replay list with charts: the drawn sheets, then random ones, one of each bucket."""
    yield from thinned(program, CHART_GROUPS)
    taken = set()
    for i, (kind, data) in enumerate(random_sheets(CHART_SEED, CHART_TRIED, 105)):
        if i % 12 not in (4, 9) or len(data) > CHART_BYTES:
            continue
        answer = answer_of(program, data)
        at, _ = chart_bucket(kind, answer)
        if at not in taken and len(answer) <= CHART_TEXT:
            taken.add(at)
            yield data, answer


def deep_bucket(kind, answer):
    """The bucket with the nodes given up and left, few or many."""
    if answer.startswith('refused '):
        return bucket(kind, answer)[0]
    count = counts(answer)
    return bucket(kind, answer)[0] + (min(count['given'], 4), min(count['left'], 3), len(reports(answer)))


def deep_replay_sheets(program):
    """(bytes, answer) of the replay list for two depths: the drawn sheets, then random ones, one of each bucket."""
    yield from thinned(program, DEEP_GROUPS)
    taken = set()
    for i, (kind, data) in enumerate(random_sheets(DEEP_SEED, DEEP_TRIED, 106)):
        if i % 12 not in (6, 7) or len(data) > DEEP_BYTES:
            continue
        answer = answer_of(program, data)
        at = deep_bucket(kind, answer)
        if at not in taken and len(answer) <= DEEP_TEXT:
            taken.add(at)
            yield data, answer


def closed_replay_sheets(program):
    """(bytes, answer) of the replay list with closed lines: drawn sheets, thinned
    by group, then random ones, a few of each bucket."""
    yield from thinned(program, CLOSED_GROUPS)
    taken = {}
    for i, (kind, data) in enumerate(random_sheets(CLOSED_SEED, CLOSED_TRIED, 100)):
        if i % 3 != 0 or len(data) > CLOSED_BYTES:
            continue
        answer = answer_of(program, data)
        at, most = bucket(kind, answer)
        if taken.get(at, 0) < most and len(at_level(answer, 1)) <= CLOSED_TEXT:
            taken[at] = taken.get(at, 0) + 1
            yield data, answer


def replay_sheets(program):
    """(bytes, answer) of the replay list: drawn sheets, thinned by group, random
    ones, a few of each bucket, and the last groups whole."""
    for group, every in REPLAY_GROUPS:
        for i, (name, data) in enumerate(group()):
            if i % every == 0 or name in REPLAY_ALSO:
                if len(data) <= 2000 or name in REPLAY_ALSO:
                    yield data, answer_of(program, data)
    for _, make in EXAMPLES:
        yield make(), answer_of(program, make())
    taken = {}
    for kind, data in random_sheets(REPLAY_SEED, REPLAY_TRIED):
        if len(data) > REPLAY_BYTES:
            continue
        answer = answer_of(program, data)
        at, most = bucket(kind, answer)
        if taken.get(at, 0) < most and len(at_level(answer, 1)) <= REPLAY_TEXT:
            taken[at] = taken.get(at, 0) + 1
            yield data, answer
    for group in REPLAY_LAST:
        for _, data in group():
            yield data, answer_of(program, data)


def write_replay(folder, listed):
    os.makedirs(folder, exist_ok=True)
    listed = list(listed)
    with open(os.path.join(folder, 'sheets.txt'), 'w', newline='\n') as f:
        f.write(file_text(data for data, _ in listed))
    write_answers(folder, [answer for _, answer in listed])


def write_answers(folder, answers):
    with open(os.path.join(folder, 'answers.txt'), 'w', newline='\n') as f:
        f.writelines(answer + '---\n' for answer in answers)
    print('%d sheets' % len(answers))


DRAWN = {1: drawn, 100: closed_drawn, 101: marked_drawn, 103: tagged_drawn, 104: dated_drawn, 105: charts_drawn, 106: deep_drawn}
REPLAYS = {1: replay_sheets, 100: closed_replay_sheets, 101: marked_replay_sheets, 103: tagged_replay_sheets, 104: dated_replay_sheets,
           105: chart_replay_sheets, 106: deep_replay_sheets}


def drawn_up_to(level):
    """The drawn sheets of all levels up to this one: (name, bytes)."""
    for at, group in DRAWN.items():
        if at <= level:
            yield from group()


def main(args):
    level = 1
    if args[:1] == ['--level'] and len(args) > 2 and args[1].isdigit():
        level, args = int(args[1]), args[2:]
    if level not in DRAWN:
        sys.exit(__doc__)
    if args[:1] == ['--examples'] and len(args) == 2:
        write_examples(args[1])
    elif args == ['--list']:
        for name, data in DRAWN[level]():
            print(len(data), name)
    elif args[:1] == ['--many'] and len(args) == 3:
        for _, data in random_sheets(int(args[1]), int(args[2]), level):
            sys.stdout.buffer.write(packed(data))
    elif args[:1] == ['--replay'] and len(args) == 3:
        write_replay(args[1], REPLAYS[level](args[2]))
    elif args[:1] == ['--answers'] and len(args) == 3:
        write_answers(args[1], [answer_of(args[2], data) for data in file_sheets(os.path.join(args[1], 'sheets.txt'))])
    else:
        sys.exit(__doc__)


if __name__ == '__main__':
    main(sys.argv[1:])
