"""The library's two calls on a sheet's bytes. The instalments of `lovgurshem_next`, joined, are the stored answers, and for the examples what the program prints;
`lovgurshem_answer` gives the same whole, and of a chart nothing. Short buffers, short cursors and forged ones get what include/lovgurshem.h says."""
import ctypes
import pathlib
import shutil
import subprocess
import sys
import tempfile

import compare
import sheet_text
from archive import ROOT, archive

if not shutil.which("cc"):
    sys.exit(print("instalments: no C compiler here, not run"))
LIBRARY = archive("instalments")
PROGRAM = ROOT / "target/bin/clearance"
ANSWER, CURSOR = 162446, 2
BEHIND = 64  # bytes and words behind what is lent
MARK = 0xA5  # what stands in memory that is not written
MOST = 2**64 - 1
bad = []


class Calls:
    def __init__(self, path):
        library = ctypes.CDLL(path)
        self.next, self.answer = library.lovgurshem_next, library.lovgurshem_answer
        self.next.restype = self.answer.restype = ctypes.c_size_t
        self.out = (ctypes.c_uint8 * (ANSWER + BEHIND))()

    def text(self, n, what):
        """The n bytes that a call answered; the rest of the buffer is as it was."""
        out = bytes(self.out)
        if out[n:] != bytes([MARK]) * (len(out) - n):
            bad.append(f"{what}: more than {n} bytes of the buffer are written")
        return out[:n]

    def take_next(self, sheet, words, what, cursor_length=CURSOR, out_length=ANSWER):
        """The next instalment, and the cursor's words after it; words behind those that are lent stay."""
        ctypes.memset(self.out, MARK, len(self.out))
        cursor = (ctypes.c_uint64 * (CURSOR + BEHIND))(*words, *([MARK] * BEHIND))
        n = self.next(sheet, ctypes.c_size_t(len(sheet)), cursor, ctypes.c_size_t(cursor_length), self.out, ctypes.c_size_t(out_length))
        if list(cursor[CURSOR:]) != [MARK] * BEHIND:
            bad.append(f"{what}: words behind the cursor are written")
        after = tuple(cursor[:CURSOR])
        if n == 0 and after != tuple(words):
            bad.append(f"{what}: an answer of 0 moves the cursor")
        return self.text(n, what), after

    def take_whole(self, sheet, what, out_length=ANSWER):
        ctypes.memset(self.out, MARK, len(self.out))
        return self.text(self.answer(sheet, ctypes.c_size_t(len(sheet)), self.out, ctypes.c_size_t(out_length)), what)


def is_chart(sheet, answer):
    """Whether the sheet is walked, and is a chart: one of its lines has a range, or no line follows the track."""
    names = [item[0] for item in sheet_text.items_of(sheet)]
    return answer not in (b"refused 1 0\n", b"refused 2 0\n", b"refused 3 0\n") and ("range" in names or sum(n in sheet_text.LINES for n in names) == 1)


def instalments(calls, sheet, what):
    """All instalments; each moves the cursor on."""
    parts, words = [], (0, 7)  # word 1 is unread at first
    while len(parts) < 66:
        text, after = calls.take_next(sheet, words, what)
        if not text:
            break
        parts.append((text, after))
        words = after
    for k, (_, after) in enumerate(parts):
        complete = all(text.startswith(b"complete ") for text, _ in parts[:k + 1])
        if after != (k + 1, complete if k + 1 < len(parts) else 2):
            bad.append(f"{what}: behind instalment {k} the cursor is {after}")
    return [text for text, _ in parts]


def check(calls, sheet, answer, what):
    """Both calls on a sheet with this answer; gives the instalments."""
    chart, parts = is_chart(sheet, answer), instalments(calls, sheet, what)
    if b"".join(parts) != answer:
        bad.append(f"{what}: the instalments are not the answer")
    lines = sum(item[0] == "range" for item in sheet_text.items_of(sheet))
    if len(parts) != (lines + 1 if chart and not answer.startswith(b"refused") else 1):
        bad.append(f"{what}: {len(parts)} instalments")
    if calls.take_whole(sheet, what) != (b"" if chart else answer):
        bad.append(f"{what}: the whole answer is another")
    return parts if chart else []


def check_short(calls, sheet, what):
    """Of every slice a shorter one, and none."""
    for length in (0, 1, ANSWER - 1):
        if calls.take_whole(sheet, what, length) or calls.take_next(sheet, (0, 0), what, CURSOR, length)[0]:
            bad.append(f"{what}: a buffer of {length} bytes is written")
    for length in (0, 1):
        if calls.take_next(sheet, (0, 0), what, length)[0]:
            bad.append(f"{what}: a cursor of {length} words is taken")


def check_forged(calls, sheet, parts, what):
    """Cursors that no call left, on a chart of these instalments or, without any, on another sheet."""
    for taken in (1, 2, 63, 64, 65, 66, MOST - 1, MOST):
        for flags in (0, 1, 2, 3, MOST):
            text, expected = calls.take_next(sheet, (taken, flags), what)[0], b""
            if flags < 2 and taken < len(parts):
                expected = parts[taken] if taken + 1 < len(parts) else (b"chart incomplete\n", b"chart complete\n")[flags]
            if text != expected:
                bad.append(f"{what}: from the cursor {taken}, {flags} another instalment")


with tempfile.TemporaryDirectory() as folder:
    shared = pathlib.Path(folder) / "liblovgurshem.so"
    subprocess.run(["cc", "-shared", "-o", shared, "-Wl,--whole-archive", LIBRARY, "-Wl,--no-whole-archive"], check=True)
    calls, count, charts = Calls(shared), 0, 0
    for name in ("answers101", "answers104", "answers105", "answers106"):
        for what, sheet, answer in compare.replay(ROOT / "tests" / name, 106):
            parts = check(calls, sheet, answer.encode(), f"{name}, {what}")
            count, charts = count + 1, charts + (len(parts) > 1)
            if len(parts) > 60:
                check_forged(calls, sheet, parts, f"{name}, {what}")
    for path in sorted((ROOT / "examples").glob("*.sheet")):
        if PROGRAM.exists():
            sheet = path.read_bytes()
            answer = subprocess.run([PROGRAM], input=sheet, stdout=subprocess.PIPE, check=True).stdout
            parts = check(calls, sheet, answer, path.name)
            check_short(calls, sheet, path.name)
            check_forged(calls, sheet, parts, path.name)
            count, charts = count + 1, charts + (len(parts) > 1)
for line in bad[:20]:
    print(line)
print(f"instalments: {count} sheets, {charts} charts with reports, {len(bad)} faults")
sys.exit(1 if bad else 0)
