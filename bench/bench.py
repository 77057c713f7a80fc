#!/usr/bin/env python3
"""Times the library against the Rust on the same sheets.

  bench.py [--runs N] [--library ARCHIVE] [--program PROGRAM] RUST

RUST is a release build of the Rust's sheet program that takes `--bench N`: it answers the sheet on standard input
N times in one process; it gets each sheet in document 01's form, without data. ARCHIVE is the library and PROGRAM the sheet program as
`tools/build` makes them; both defaults are below target/. docs/BENCHMARKS.md says how the Rust is built.

Each side answers the sheet, from its bytes to the printed text, as many times in one process as the Rust needs for
about a third of a second, so that starting a process is below one percent. Both sides run in turn, N times each
(9); the figure is the least user time of a side, divided by the count. Before that the answers are compared byte
for byte, marks apart, which the Rust lacks. In the same turns the library's calls for opening, loop and report run on
the sheet's lines in memory that is made once (calls.c); they read no sheet and print nothing, so no ratio is taken of
them.

Then charts, which the Rust lacks: it answers the sheet of the track and each line, and its figure is the sum of these; so does this side too. Then the memory of both
sides, of the program on charts too, and the time of a report by its raw list (merge.c).
"""
import os
import re
import subprocess
import sys
import tempfile

import bench_sheets
from sheets import at_level, in_form

HERE = os.path.dirname(os.path.abspath(__file__))
TARGET = os.path.join(HERE, '..', 'target')
SPAN = 333000  # microseconds


class Side:
    def __init__(self, measure, repeated, once, level=104):
        self.measure, self.repeated, self.once, self.level = measure, repeated, once, level

    def run(self, command, data, stack=0):
        """(user microseconds, peak KB, wait status, output)"""
        done = subprocess.run([self.measure, str(stack)] + command, input=in_form(data, self.level), stdout=subprocess.PIPE, stderr=subprocess.PIPE)
        time, peak, status = (int(w) for w in done.stderr.split()[-3:])
        return time, peak, status, done.stdout

    def times(self, data, count):
        return self.run(self.repeated + [str(count)], data)[0]

    def answer(self, data, stack=0):
        _, peak, status, text = self.run(self.once, data, stack)
        return peak, text if status == 0 else None


def compiled(folder, name, more=()):
    out = os.path.join(folder, name)
    subprocess.run(['cc', '-O2', '-std=gnu99', '-I', os.path.join(HERE, '../include'), '-o', out, os.path.join(HERE, name + '.c')] + list(more), check=True)
    return out


def least_stack(side, data):
    """The least stack limit, in steps of 4 KB, with which the answer still comes."""
    _, wanted = side.answer(data)
    low, high = 0, 2048  # in steps
    while high - low > 1:
        middle = (low + high) // 2
        if side.answer(data, 4 * middle)[1] == wanted:
            high = middle
        else:
            low = middle
    return 4 * high


def turns(side, data, span):
    """How many times the side answers the sheet in so many microseconds."""
    tried, took = 1, side.times(data, 1)
    while took < span / 8:
        tried *= 2
        took = side.times(data, tried)
    return max(1, int(span * tried / took))


def plain(text):
    """An answer as the Rust has it, without marks and the three counts."""
    return text and at_level(text.decode('ascii'), 1)


def timed(name, data, rust, here, calls, runs):
    _, text = here.answer(data)
    if text is None or plain(text) != plain(rust.answer(data)[1]):
        sys.exit('%s: the answers differ' % name)
    count = turns(rust, data, SPAN)
    best = [10 ** 12] * 3
    for _ in range(runs):
        best = [min(b, side.times(data, count)) for b, side in zip(best, (rust, here, calls))]
    words = dict(w.split('=') for w in text.decode('ascii').split('\n')[0].split(' ')[1:])
    raw = int(words['given']) + int(words['left'])
    return '| %s | %s | %s | %d | %s | %.1f | %.1f | %.2f | %.1f |' % (
        name, words['pairs'], words['visits'], raw, words['regions'], best[0] / count, best[1] / count, best[1] / best[0], best[2] / count)


def timed_chart(name, area, rust, here, runs):
    """A chart for a third of a second a run, and each of its pair sheets, on both sides, for a tenth."""
    data, pairs = bench_sheets.chart_of(*area), bench_sheets.pairs_of(*area)
    _, text = here.answer(data)
    told = [plain(rust.answer(d)[1]) for d in pairs]
    last = 'chart %s\n' % ('complete' if all(t.startswith('complete ') for t in told) else 'incomplete')
    if plain(text) != ''.join(told) + last:
        sys.exit('%s: the answers differ' % name)
    sides = [(rust, d, turns(rust, d, SPAN / 3)) for d in pairs] + [(here, d, turns(here, d, SPAN / 3)) for d in pairs] + [(here, data, turns(here, data, SPAN))]
    best = [10 ** 12] * len(sides)
    for _ in range(runs):
        best = [min(b, side.times(d, n) / n) for b, (side, d, n) in zip(best, sides)]
    visits = sum(int(v) for v in re.findall(r' visits=(\d+) ', plain(text)))
    alone, each, whole = sum(best[:len(pairs)]), sum(best[len(pairs):-1]), best[-1]
    return '| %s | %d | %d | %.1f | %.1f | %.1f | %.2f | %.2f |' % (name, len(pairs), visits, alone, each, whole, whole / alone, whole / each)


def main(args):
    given = {'--runs': '9', '--library': os.path.join(TARGET, 'staticlib/liblovgurshem.a'), '--program': os.path.join(TARGET, 'bin/clearance')}
    while len(args) > 2 and args[0] in given:
        given[args[0]] = args[1]
        args = args[2:]
    if len(args) != 1:
        sys.exit(__doc__)
    with tempfile.TemporaryDirectory() as folder:
        measure = compiled(folder, 'measure')
        loop = compiled(folder, 'loop', [given['--library']])
        rust = Side(measure, [args[0], '--bench'], [args[0]], level=1)
        here = Side(measure, [loop], [given['--program']])
        calls = Side(measure, [compiled(folder, 'calls', [given['--library']])], [])
        print('| sheet | pairs | visits | raw regions | regions | Rust, µs | here, µs | ratio | calls, µs |\n|---|---|---|---|---|---|---|---|---|')
        for name, make, what in bench_sheets.MAIN + bench_sheets.GROWTH:
            print(timed(name, make(*what), rust, here, calls, int(given['--runs'])), flush=True)
        print('\n| chart | lines | visits | Rust, pair sheets, µs | here, pair sheets, µs | here, µs | to the Rust | to pair sheets |\n|---|---|---|---|---|---|---|---|')
        for name, what in bench_sheets.CHARTS:
            print(timed_chart(name, bench_sheets.area(*what), rust, here, int(given['--runs'])), flush=True)
        print('\n| sheet | | Rust | here |\n|---|---|---|---|')
        for name in ('degree25', 'overlap3'):
            make, what = next((m, w) for n, m, w in bench_sheets.MAIN if n == name)
            data = make(*what)
            print('| %s | peak resident set, KB | %d | %d |' % (name, rust.answer(data)[0], here.answer(data)[0]))
            print('| %s | least stack limit, KB | %d | %d |' % (name, least_stack(rust, data), least_stack(here, data)), flush=True)
        for name, what in bench_sheets.CHARTS:
            data = bench_sheets.chart_of(*bench_sheets.area(*what))
            print('| %s | peak resident set, KB | | %d |' % (name, here.answer(data)[0]))
            print('| %s | least stack limit, KB | | %d |' % (name, least_stack(here, data)), flush=True)
        print(flush=True)
        subprocess.run([compiled(folder, 'merge', [given['--library']])], check=True)


if __name__ == '__main__':
    main(sys.argv[1:])
