#!/usr/bin/env python3
"""A chart's answer is the answers to its pair sheets one after the other and a last line; where a pair sheet is refused, the refusal of them all that
the order of the tests meets first, with the line's place in the chart (document 02, M-105). No other program is needed.

  test_charts.py [PROGRAM [SEED AREAS]]

An area is a track and some lines with their ranges, S and a gap; charts are drawn from it, with lines of it left out, doubled and in any order.
Before these come charts of every size and a refusal at each place of a chart of 64 lines; and, of the sheet program, a chart's answer that standard
output doesn't take."""
import collections
import fcntl
import os
import pathlib
import resource
import signal
import subprocess
import sys
import tempfile

import archive
import compare
import sheets

ROOT = pathlib.Path(__file__).resolve().parent.parent
EACH = 12  # charts of an area
LEAST, MOST = 1, 64  # lines of a chart


def spoil(rng, lines, ranges, k):
    """A fault of line k: 4 to 14, 22, 23, 15 or 18."""
    way = rng.below(6)
    if way < 2:
        sheets.spoil_into(lines[k], 4 + rng.below(11), rng)
    elif way == 2:
        lines[k] = rng.pick([sheets.basin(2, 2, 3), sheets.spoilt(5, rng), sheets.spoilt(11, rng)])
        lines[k].mults[0] += lines[k].closed
    elif way == 3:
        lines[k].datum = rng.pick([0, 2, 10000])
    else:
        ranges[k] = rng.pick([sheets.BAD_RANGE, (ranges[k][0], sheets.beside(ranges[k][0], 1)), (sheets.NAN, 1.0)])


def random_area(rng):
    """Lines, the track first, their ranges, S and the gap. In about every third area some are spoilt, in every fifth a line may have 13 pairs."""
    lines, s, ranges, gap = sheets.random_chart(rng)
    if rng.chance(0.2):
        n = rng.pick([11, 12, 13])
        lines = [sheets.segment((-1.0, 0.5, 0.0), (n + 1.0, 0.5, 0.0))] + [sheets.comb(k) for k in (n, 3, 1, 12)]
        s, ranges, gap = rng.pick([0, 1, 67, 68]), [None] * len(lines), rng.pick([0.0, 0.25])
    lines = [l.copy() for l in lines] + [sheets.moved_off(rng, sheets.GATE), sheets.GATE.copy()]
    ranges = sheets.asked(lines, ranges + [None, None])
    while rng.chance(0.4):
        spoil(rng, lines, ranges, rng.below(len(lines)))
    if rng.chance(0.05):
        s, gap = rng.pick([(257, gap), (s, -1.0), (300, sheets.NAN)])
    return lines, ranges, s, gap


def random_places(rng, count):
    """The places of a chart's lines in its area: some of them, or, seldom, about as many as a chart may have, or none."""
    n = rng.pick([0, 62, 63, 64, 65, 66]) if rng.chance(0.05) else rng.pick([1, 1, 2, 2, 3, 4, 5])
    return [1 + rng.below(count - 1) for _ in range(n)]


def rank(refusal):
    """Where the order of all tests meets a refusal: 4 to 14 and 22 of the track; of each line these, then its 23; 15 of all; 16; 17; 18 of all; 19."""
    number, place = refusal
    if number <= 14 or number in (22, 23):
        return (0, place, number == 23)
    return (number, place, False)


def refusal_of(answer, place):
    """Number and place that a pair sheet's refusal is in the chart, where its second line has this place; None for a report."""
    words = answer.split()
    if words[0] != 'refused':
        return None
    number, line = int(words[1]), int(words[2])
    return number, place if line == 2 else line


def expected(answers):
    """The chart's answer from those to its pair sheets."""
    if not LEAST <= len(answers) <= MOST:
        return 'refused 24 0\n'
    refusals = [r for r in (refusal_of(a, k + 2) for k, a in enumerate(answers)) if r is not None]
    if refusals:
        return 'refused %d %d\n' % min(refusals, key=rank)
    complete = all(a.startswith('complete ') for a in answers)
    return ''.join(answers) + 'chart %s\n' % ('complete' if complete else 'incomplete')


def charts_of(area, rng):
    """(places, bytes) of charts of the area, as far as a sheet holds them."""
    lines, ranges, s, gap = area
    for _ in range(EACH):
        places = [0] + random_places(rng, len(lines))
        data = sheets.chart([lines[k] for k in places], s, [ranges[k] for k in places], gap, rng.pick([(0.0, 0.0), (sheets.NAN, 1.0), (0.5, 0.25)]))
        if len(data) <= sheets.MAX_BYTES:
            yield places[1:], data


def run(program, seed, areas):
    """Runs the program on the pair sheets and the charts of so many areas; gives how many charts it answers otherwise."""
    wrong, seen = 0, collections.Counter()
    for first in range(0, areas, 50):
        pairs, charts = [], []
        for i in range(first, min(first + 50, areas)):
            rng = sheets.Rng(seed * 1000003 + i)
            lines, ranges, s, gap = area = random_area(rng)
            start = len(pairs) - 1  # the pair sheet of the line at place k is number start + k
            pairs += sheets.pair_sheets(lines, s, ranges, gap)
            charts += [([start + k for k in places], data) for places, data in charts_of(area, rng)]
        told = program.answers(pairs)
        for (numbers, data), got in zip(charts, program.answers([data for _, data in charts])):
            seen[compare.key(got)] += 1
            if got != expected([told[k] for k in numbers]):
                wrong += 1
                print('charts: another answer than its pair sheets have:\n%s%s' % (sheets.text_of(data), got))
    for k in sorted(seen, key=compare.key_order):
        print('%7d  %s' % (seen[k], k))
    print('charts: %d charts of %d areas, %d wrong' % (sum(seen.values()), areas, wrong))
    return wrong


# ---- charts whose answer is known


CLEAR = 'complete pairs=0 visits=0 splits=0 settled=0 box=0 plane=0 line=0 given=0 left=0 regions=0\n'  # of a line without pairs


def sized():
    """(chart, answer): charts of 1 to 66 lines without pairs, and of as many empty lines as a sheet holds."""
    for n in range(1, 67):
        yield sheets.chart([sheets.RAIL] + [sheets.OFF] * n, S=1), CLEAR * n + 'chart complete\n' if n <= MOST else 'refused 24 0\n'
    for n in (0, 65, 406, 407):
        yield sheets.chart([sheets.HOLLOW] * (n + 1)), 'refused 24 0\n'
    yield sheets.chart([sheets.HOLLOW] * 409), 'refused 1 0\n'


def placed():
    """(chart, answer): of a track and 64 lines, one fault at each place; 23 of the track shows at the first line, and 19 has no place."""
    area = [sheets.RAIL] + [sheets.OFF] * MOST
    for number in list(range(4, 15)) + [22, 23, 15, 18, 19]:
        for place in range(1 if number != 19 else 2, MOST + 2):
            shown = 0 if number == 19 else 2 if (number, place) == (23, 1) else place
            yield sheets.faulty(area, [(number, place)]), 'refused %d %d\n' % (number, shown)


def ordered():
    """(chart, answer): 15 of line 3 before 18 of line 2; 13 pairs on the last line, and no report of those before it."""
    a, b, c = sheets.A, sheets.CROSSING, sheets.PARALLEL
    yield sheets.chart([a, b, c], S=1, ranges=[None, (0.5, sheets.after(0.5)), (0.5, 0.5)]), 'refused 15 3\n'
    yield sheets.chart([a, b, c], S=1, ranges=[None, (0.5, sheets.after(0.5)), None]), 'refused 18 2\n'
    yield sheets.chart([sheets.RAIL, sheets.GATE, sheets.OFF, sheets.comb(13)], S=1), 'refused 19 0\n'
    yield sheets.chart([sheets.RAIL, sheets.OFF, sheets.OFF, sheets.OFF], S=1, unread=(sheets.NAN, sheets.NAN)), CLEAR * 3 + 'chart complete\n'


def run_known(program):
    """Runs the program on these charts and on the example, whose answer README.md has; gives how many it answers otherwise."""
    known = [k for group in (sized, placed, ordered) for k in group()]
    wrong = 0
    for (data, wanted), got in zip(known, program.answers([data for data, _ in known])):
        if got != wanted:
            wrong += 1
            print('charts: not %r but:\n%s%s' % (wanted[:40], sheets.text_of(data), got))
    told = program.answers([(ROOT / 'examples/chart.sheet').read_bytes()])[0]
    if ''.join('    ' + l for l in told.splitlines(True)) not in (ROOT / 'README.md').read_text():
        wrong += 1
        print('charts: README.md has not the answer to examples/chart.sheet')
    print('charts: %d known answers, %d wrong' % (len(known) + 1, wrong))
    return wrong


# ---- answers that standard output doesn't take


SAID = b'clearance: the answer could not be written whole\n'
F_SETPIPE_SZ = 1031


def written(path, data, stdout, before=None):
    """(exit status, standard error) of the program on a chart; it must end."""
    done = subprocess.run([path], input=data, stdout=stdout, stderr=subprocess.PIPE, preexec_fn=before, timeout=600)
    return done.returncode, done.stderr


def limit_file(size):
    """Of a file only so many bytes are written, and then a write fails."""
    signal.signal(signal.SIGXFSZ, signal.SIG_IGN)
    resource.setrlimit(resource.RLIMIT_FSIZE, (size, size))


def pipe_left(path, data, size, ignored):
    """(exit status, standard error, bytes read) of the program whose reader goes after the first bytes of its answer, from a pipe of one page."""
    ours, theirs = os.pipe()
    fcntl.fcntl(theirs, F_SETPIPE_SZ, size)
    before = (lambda: signal.signal(signal.SIGPIPE, signal.SIG_IGN)) if ignored else None
    with subprocess.Popen([path], stdin=subprocess.PIPE, stdout=theirs, stderr=subprocess.PIPE, preexec_fn=before) as program:
        os.close(theirs)
        program.stdin.write(data)
        program.stdin.close()
        start = os.read(ours, 10)
        os.close(ours)
        said = program.stderr.read()
        return program.wait(timeout=600), said, start


def run_unwritten(path):
    """Runs the sheet program where its output isn't taken: it says so once, at the first write that fails, and ends."""
    data = sheets.chart([sheets.RAIL] + [sheets.OFF] * MOST, S=1)
    whole = CLEAR * MOST + 'chart complete\n'
    faults = []
    if os.path.exists('/dev/full'):
        with open('/dev/full', 'wb') as full:
            if written(path, data, full) != (0, SAID):
                faults.append('a full disk')
    if written(path, data, None, lambda: os.close(1)) != (0, SAID):
        faults.append('a closed descriptor')
    for size in (0, 1, len(CLEAR) - 1, len(CLEAR), len(CLEAR) * 3 + 7, len(whole) - 1, len(whole)):
        with tempfile.TemporaryFile() as f:
            got = written(path, data, f, lambda: limit_file(size))
            f.seek(0)
            if got != (0, SAID if size < len(whole) else b'') or f.read().decode() != whole[:size]:
                faults.append('a file of at most %d bytes' % size)
    # the kit has each program ignore the signal, so both are one case
    if pipe_left(path, data, 4096, False) != (0, SAID, whole[:10].encode()):
        faults.append('a reader that has gone')
    if pipe_left(path, data, 4096, True) != (0, SAID, whole[:10].encode()):
        faults.append('a reader that has gone, the signal ignored')
    for fault in faults:
        print('charts: wrong where standard output is ' + fault)
    print('charts: answers that are not taken, %d wrong' % len(faults))
    return len(faults)


def main(args):
    path = args[0] if args else str(archive.program('charts'))
    seed, areas = (int(args[1]), int(args[2])) if len(args) == 3 else (1, 300)
    program = compare.Program(path, False, 106)
    wrong = run_known(program) + run(program, seed, areas)
    if not args:
        wrong += run_unwritten(path)
    return 1 if wrong else 0


if __name__ == '__main__':
    sys.exit(main(sys.argv[1:]))
