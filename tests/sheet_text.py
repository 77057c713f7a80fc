#!/usr/bin/env python3
"""Sheets as text, from which their bytes are made, and back.

  sheet_text.py FILE              the sheets of FILE on standard output, each a
                                  32-bit length and the bytes
  sheet_text.py --text < SHEET    a sheet's text
  sheet_text.py --sheet < TEXT    the sheet of a text

A text has one item to a line. Those of a sheet that can be walked:

  line DEGREE       a whole line, open; ring DEGREE: closed
  knots X ..
  mults N ..
  poles X Y Z ..
  weights X ..      where there are any
  datum N           where it isn't 1
  range LO HI       of a line of a chart
  question S LO HI LO HI GAP
  end

and for what can't, word by word:

  words H ..        words as they stand, in hexadecimal
  bytes H ..        bytes as they stand
  zeros N           zero bytes up to a length of N bytes

Floats are decimal, or # and the 16 digits of their bits where decimal digits
don't give them. In a file of many sheets each begins with a line "sheet N",
N counted from 0. From the first word on that no item has, words alone follow.

The words of a whole line are those of the sheet's form at a level of document
02: before M-104 a line has no datum.
"""
import struct
import sys

FORM = 104  # the level of the form that is read, and written if no other is asked
LEAST_ZEROS = 64  # so many bytes 0 at the end of a sheet are the item zeros


def head(kind, count):
    """A word: the kind in the top 4 bits, the count in the other 28."""
    return struct.pack('<I', (kind & 15) << 28 | (count & 0x0FFFFFFF))


def packed(data):
    """A sheet as the batch format has it: its length, then its bytes."""
    return struct.pack('<I', len(data)) + data


# ---- numbers ------------------------------------------------------------------


def float_text(bits):
    value = struct.unpack('<d', bits)[0]
    text = repr(value)
    text = text[:-2] if text.endswith('.0') else text
    return text if float_bytes(text) == bits else '#' + bits[::-1].hex()


def float_bytes(text):
    return bytes.fromhex(text[1:])[::-1] if text.startswith('#') else struct.pack('<d', float(text))


# name of a part: its kind, values to a count, bytes of a value, text and bytes of a value
PARTS = {'knots': (2, 1, 8, float_text, float_bytes),
         'mults': (3, 1, 4, lambda b: str(struct.unpack('<I', b)[0]), lambda t: struct.pack('<I', int(t))),
         'poles': (4, 3, 8, float_text, float_bytes),
         'weights': (5, 1, 8, float_text, float_bytes)}
LINES = {'line': 1, 'ring': 8}
QUESTION, END, DATUM, RANGE = 6, 7, 9, 11


# ---- from bytes to items ------------------------------------------------------


class Reader:
    """Items of a sheet from the place `at` on. Each method gives None, and may leave `at` anywhere, where there is no such item."""

    def __init__(self, data):
        self.data = data
        self.at = 0

    def head(self):
        """Kind and count of the next word."""
        if self.at + 4 > len(self.data):
            return None, None
        word = struct.unpack_from('<I', self.data, self.at)[0]
        return word >> 28, word & 0x0FFFFFFF

    def values(self, count, size, text):
        if self.at + count * size > len(self.data):
            return None
        self.at += count * size
        return [text(self.data[i:i + size]) for i in range(self.at - count * size, self.at, size)]

    def part(self, name):
        kind, each, size, text, _ = PARTS[name]
        found, count = self.head()
        if found != kind:
            return None
        self.at += 4
        values = self.values(count * each, size, text)
        return None if values is None else [name] + values

    def line(self):
        kind, degree = self.head()
        name = next((n for n, k in LINES.items() if k == kind), None)
        if name is None:
            return None
        self.at += 4
        items = [[name, str(degree)]] + [self.part(p) for p in ('knots', 'mults', 'poles')]
        if None in items:
            return None
        if self.head()[0] == PARTS['weights'][0]:
            items.append(self.part('weights'))
        kind, datum = self.head()
        if items[-1] in (None, ['weights']) or kind != DATUM:
            return None
        self.at += 4
        return items if datum == 1 else items + [['datum', str(datum)]]

    def range(self):
        if self.head() != (RANGE, 0):
            return None
        self.at += 4
        values = self.values(2, 8, float_text)
        return None if values is None else [['range'] + values]

    def question(self):
        kind, splits = self.head()
        if kind != QUESTION:
            return None
        self.at += 4
        values = self.values(5, 8, float_text)
        return None if values is None else [['question', str(splits)] + values]

    def end(self):
        if self.head() != (END, 0):
            return None
        self.at += 4
        return [['end']]

    def whole(self):
        """The items of what can be walked next."""
        start = self.at
        for read in (self.line, self.range, self.question, self.end):
            items = read()
            if items is not None:
                return items
            self.at = start
        return None

    def rest(self):
        """The items of what is left, word by word."""
        left = self.data[self.at:]
        tail = len(left) - len(left.rstrip(b'\0'))
        tail = tail - -(len(left) - tail) % 4 if tail >= LEAST_ZEROS else 0  # from a whole word on
        body, cut = left[:len(left) - tail], (len(left) - tail) % 4
        items = []
        if len(body) > cut:
            items.append(['words'] + ['%08x' % w for w, in struct.iter_unpack('<I', body[:len(body) - cut])])
        if cut:
            items.append(['bytes', body[len(body) - cut:].hex(' ')])
        if tail:
            items.append(['zeros', str(len(self.data))])
        return items


def items_of(data):
    reader, out = Reader(data), []
    while True:
        items = reader.whole()
        if items is None:
            return out + reader.rest()
        out += items


# ---- from items to bytes ------------------------------------------------------


def item_bytes(name, values, length):
    """The bytes of one item, `length` bytes from the sheet's start."""
    if name in LINES:
        return head(LINES[name], int(values[0]))
    if name in PARTS:
        kind, each, _, _, data = PARTS[name]
        return head(kind, len(values) // each) + b''.join(data(v) for v in values)
    if name == 'datum':
        return head(DATUM, int(values[0]))
    if name == 'range':
        return head(RANGE, 0) + b''.join(float_bytes(v) for v in values)
    if name == 'question':
        return head(QUESTION, int(values[0])) + b''.join(float_bytes(v) for v in values[1:])
    if name == 'end':
        return head(END, 0)
    if name == 'words':
        return b''.join(struct.pack('<I', int(v, 16)) for v in values)
    if name == 'bytes':
        return bytes.fromhex(''.join(values))
    if name == 'zeros' and int(values[0]) >= length:
        return bytes(int(values[0]) - length)
    raise ValueError('no item: %s' % ' '.join([name] + values))


def spelled(items, level=FORM):
    """The items with each whole line's datum, 1 where none is given; of a level before M-104 with none."""
    out = []
    for item, after in zip(items, items[1:] + [['']]):
        if item[0] != 'datum' or level >= 104:
            out.append(item)
        if level >= 104 and item[0] in ('poles', 'weights') and after[0] not in ('weights', 'datum'):
            out.append(['datum', '1'])
    return out


def sheet_of(items, level=FORM):
    out = b''
    for name, *values in spelled(items, level):
        out += item_bytes(name, values, len(out))
    return out


# ---- texts --------------------------------------------------------------------


def text_of(data):
    return ''.join(' '.join(item) + '\n' for item in items_of(data))


def sheet_from(text, level=FORM):
    return sheet_of([line.split() for line in text.splitlines() if line.strip()], level)


def file_text(listed):
    """The text of many sheets."""
    return ''.join('sheet %d\n%s' % (i, text_of(data)) for i, data in enumerate(listed))


def file_sheets(path, level=FORM):
    """The sheets of a file of texts, in the form of a level."""
    listed = []
    with open(path) as f:
        for line in f:
            if line.startswith('sheet '):
                listed.append([])
            elif line.strip():
                listed[-1].append(line.split())
    return [sheet_of(items, level) for items in listed]


def main(args):
    out = sys.stdout.buffer
    if args == ['--text']:
        out.write(text_of(sys.stdin.buffer.read()).encode())
    elif args == ['--sheet']:
        out.write(sheet_from(sys.stdin.read()))
    elif len(args) == 1 and not args[0].startswith('-'):
        for data in file_sheets(args[0]):
            out.write(packed(data))
    else:
        sys.exit(__doc__)


if __name__ == '__main__':
    main(sys.argv[1:])
