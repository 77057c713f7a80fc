#!/usr/bin/env python3
"""Compares sheet programs on the drawn sheets and on random ones.

  compare.py [options] SEED N PROGRAM PROGRAM ...

Every program gets the same sheets: the drawn ones, then N random ones of the
seed. A program that answers a batch (--many) gets batches, any other is run
once a sheet. Answers are compared byte for byte with the first program's.

  --pieces      compare the nets of the pieces too (each program is run once a
                sheet, with --pieces)
  --no-drawn    leave the drawn sheets out
  --level L     the level of document 02: 1 (document 01), 100 (closed lines),
                101 (stretch marks), 103 (box=, plane= and line=), 104 (data),
                105 (charts) or 106 (a depth for each line, the default). Sheets
                of higher levels are left out. Below 104 every sheet is in the form
                of before, whose lines have no datum, stored ones too; below 103
                the three counts, below 101 the regions' marks too are dropped
                from all answers. Two programs must be of the same side of M-100,
                whose kind 8 opens a line, of M-105, to which a sheet with no
                second line is a chart, and of M-106, whose searches go on where
                those of before gave a node up, and the other way round
  --replay DIR  make the sheets from DIR/sheets.txt and hold every program
                against DIR/answers.txt; SEED and N are left out
  --save DIR    where sheets with a difference are saved (default: .)

From level 103 on a report whose three counts don't sum to settled, or with more
nodes settled by box than halves were made, is a difference too; so is an answer
that is no refusal, no report and no chart's reports with their last line.
Exit 1 on a difference.
"""
import collections
import os
import subprocess
import sys

import sheet_text
import sheets

BATCH = 500
SHOWN = 10


def parted(text):
    """The answers of a batch: each ends with a line of three dashes."""
    parts = text.split('---\n')
    return parts[:-1] if parts[-1] == '' else None


def run(command, data):
    done = subprocess.run(command, input=data, stdout=subprocess.PIPE, stderr=subprocess.PIPE)
    text = done.stdout.decode('ascii', 'replace')
    return text if done.returncode == 0 else text + 'exit %d\n' % done.returncode


class Program:
    def __init__(self, path, pieces, level):
        self.path = os.path.abspath(path)
        self.name = path
        self.pieces = pieces
        self.many = not pieces and self.takes_batches(level)

    def takes_batches(self, level):
        two = sheets.packed(sheets.in_form(sheets.example(), level)) * 2
        try:
            text = run([self.path, '--many'], two)
        except OSError as e:
            sys.exit('%s: %s' % (self.path, e))
        return sheets.at_level(text, 1) == sheets.at_level(sheets.EXAMPLE_ANSWER + '---\n', 1) * 2

    def answers(self, batch):
        if self.many:
            out = parted(run([self.path, '--many'], b''.join(sheets.packed(d) for d in batch)))
            if out is not None and len(out) == len(batch):
                return out
            print('%s: no whole answer to a batch; each sheet alone' % self.name)
        command = [self.path] + (['--pieces'] if self.pieces else [])
        return [run(command, d) for d in batch]


def batches(source):
    batch = []
    for item in source:
        batch.append(item)
        if len(batch) == BATCH:
            yield batch
            batch = []
    if batch:
        yield batch


def key(answer):
    """What an answer counts as in the summary; places from 3 on together."""
    lines = answer.splitlines() or ['']
    parts = lines[0].split(' ')
    if parts[0] == 'refused' and len(parts) == 3:
        return ' '.join(parts[:2] + [parts[2] if parts[2] in ('0', '1', '2') else 'over 2'])
    return lines[-1] if lines[-1].startswith('chart ') else parts[0]


def key_order(k):
    parts = k.split(' ', 2)
    return (1, int(parts[1]), parts[2]) if parts[0] == 'refused' and len(parts) == 3 else (0, 0, k)


class Comparison:
    def __init__(self, save, level):
        self.save = save
        self.level = level
        self.count = 0
        self.lines = 0  # reports of charts
        self.different = 0
        self.groups = 0
        self.tags = [0, 0, 0]  # nodes settled by box, by plane, by line
        self.tagged = [0, 0, 0]  # answers with such nodes
        self.all_tags = 0
        self.seen = collections.Counter()

    def difference(self, name, data, programs, texts):
        self.different += 1
        if self.different > SHOWN:
            return
        path = os.path.join(self.save, 'different-%d.sheet' % self.different)
        with open(path, 'wb') as f:
            f.write(data)
        print('difference on %s (%d bytes, saved as %s)' % (name, len(data), path))
        for program, text in zip(programs, texts):
            print('  %s:' % program)
            for l in text.split('\n')[:4]:
                print('    ' + l[:200])

    def batch(self, items, programs):
        """items: (name, data, wanted answer or None)."""
        data = [d for _, d, _ in items]
        lists = [p.answers(data) for p in programs]
        names = [p.name for p in programs]
        for i, (name, d, wanted) in enumerate(items):
            texts = [sheets.at_level(l[i], self.level) for l in lists]
            wanted = wanted and sheets.at_level(wanted, self.level)
            plain = ''.join(l for l in texts[0].splitlines(True) if not l.startswith('piece '))
            self.count_answer(plain)
            if wanted is not None and any(t != wanted for t in texts):
                self.difference(name, d, ['the list'] + names, [wanted] + texts)
            elif any(t != texts[0] for t in texts):
                self.difference(name, d, names, texts)
            elif self.level >= 103 and not sheets.reports_hold(plain):
                self.difference(name + ': reports', d, names, texts)
            elif self.level >= 103 and not sheets.tags_hold(plain):
                self.difference(name + ': tags', d, names, texts)

    def count_answer(self, text):
        self.count += 1
        self.seen[key(text)] += 1
        self.lines += len(sheets.reports(text)) if key(text).startswith('chart ') else 0
        self.groups += self.level >= 101 and sheets.has_group(text)
        tags = sheets.tags(text)
        self.tags = [x + y for x, y in zip(self.tags, tags)]
        self.tagged = [x + (y > 0) for x, y in zip(self.tagged, tags)]
        self.all_tags += all(tags)

    def summary(self):
        for k in sorted(self.seen, key=key_order):
            print('%7d  %s' % (self.seen[k], k))
        if self.level >= 103:
            parts = ['%d %s (%d sheets)' % (n, t, s) for t, n, s in zip(sheets.TAGS, self.tags, self.tagged)]
            print('settled by %s; all three in %d sheets' % (', '.join(parts), self.all_tags))
        grouped = ', %d with a group' % self.groups if self.level >= 101 else ''
        lines = ', %d lines of charts searched' % self.lines if self.level >= 105 else ''
        print('%d sheets%s%s, %d different' % (self.count, grouped, lines, self.different))


def replay(folder, level):
    data = sheet_text.file_sheets(os.path.join(folder, 'sheets.txt'), level)
    with open(os.path.join(folder, 'answers.txt')) as f:
        answers = parted(f.read())
    if answers is None or len(answers) != len(data):
        sys.exit('%s: not as many answers as sheets' % folder)
    return [('replay %d' % i, d, a) for i, (d, a) in enumerate(zip(data, answers))]


def generated(seed, count, with_drawn, level):
    if with_drawn:
        for name, data in sheets.drawn_up_to(level):
            wanted = sheets.EXAMPLE_ANSWER if name == 'example' else None
            yield 'drawn ' + name, sheets.in_form(data, level), wanted
    for i, (kind, data) in enumerate(sheets.random_sheets(seed, count, level)):
        yield 'random %d (%s, seed %d)' % (i, kind, seed), sheets.in_form(data, level), None


def main(args):
    flags = {'--pieces': False, '--no-drawn': False, '--level': '106', '--replay': None, '--save': '.'}
    while args and args[0] in flags:
        flag = args.pop(0)
        flags[flag] = args.pop(0) if flag in ('--level', '--replay', '--save') else True
    level = int(flags['--level'])
    if flags['--replay']:
        source = replay(flags['--replay'], level)
    elif len(args) >= 3:
        seed, count = int(args.pop(0)), int(args.pop(0))
        source = generated(seed, count, not flags['--no-drawn'], level)
    if not args:
        sys.exit(__doc__)
    if flags['--pieces'] and not flags['--replay']:
        source = ((name, data, None) for name, data, _ in source)
    programs = [Program(path, flags['--pieces'], level) for path in args]
    os.makedirs(flags['--save'], exist_ok=True)
    comparison = Comparison(flags['--save'], level)
    for items in batches(source):
        comparison.batch(items, programs)
    comparison.summary()
    return 1 if comparison.different else 0


if __name__ == '__main__':
    sys.exit(main(sys.argv[1:]))
