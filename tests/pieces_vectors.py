#!/usr/bin/env python3
"""Questions about two lines for crates/pieces_run, and the Rust's answers.

usage: pieces_vectors.py ORACLE COUNT SEED OUT_STDIN OUT_STDOUT
ORACLE is the sheet program built on the Rust text; its --pieces lists every net's bits. Build it with the sign of a zero kept there:
in `main`, `write!(out, " {:016X}", x.to_bits())` for `bits(&mut out, x)`.
COUNT random questions follow the fixed ones. OUT_STDIN is what crates/pieces_run reads, OUT_STDOUT what it must write.
"""
import math, random, struct, subprocess, sys

NAN = struct.unpack('<d', struct.pack('<Q', 0x7FF8000000000000))[0]
INF = float('inf')


def line(degree, knots, mults, coords, weights, lo=None, hi=None):
    flat = [k for k, m in zip(knots, mults) for _ in range(min(m, 200))]
    n = len(flat) - degree - 1
    if lo is None:
        lo = flat[degree] if degree < len(flat) else 0.0
    if hi is None:
        hi = flat[n] if 0 <= n < len(flat) else 1.0
    return dict(degree=degree, knots=knots, mults=mults, coords=coords, weights=weights, lo=lo, hi=hi)


def doubles(xs):
    return b''.join(struct.pack('<d', x) for x in xs)


def run_line(l):
    head = struct.pack('<5I', l['degree'], len(l['knots']), len(l['mults']), len(l['coords']), len(l['weights']))
    return head + doubles(l['knots'] + l['coords'] + l['weights'] + [l['lo'], l['hi']]) + b''.join(struct.pack('<I', m) for m in l['mults'])


def run_record(a, b, gap, splits):
    return run_line(a) + run_line(b) + struct.pack('<dI', gap, splits)


def sheet_line(l):
    out = struct.pack('<I', 1 << 28 | l['degree'])
    out += struct.pack('<I', 2 << 28 | len(l['knots'])) + doubles(l['knots'])
    out += struct.pack('<I', 3 << 28 | len(l['mults'])) + b''.join(struct.pack('<I', m) for m in l['mults'])
    out += struct.pack('<I', 4 << 28 | len(l['coords']) // 3) + doubles(l['coords'])
    if l['weights']:
        out += struct.pack('<I', 5 << 28 | len(l['weights'])) + doubles(l['weights'])
    return out


def sheet(a, b, gap, splits):
    return sheet_line(a) + sheet_line(b) + struct.pack('<I', 6 << 28 | splits) + doubles([a['lo'], a['hi'], b['lo'], b['hi'], gap]) + struct.pack('<I', 7 << 28)


# a straight line far away: no pair is pushed, so the sheet program needs no memory of nodes
FAR = line(1, [0.0, 1.0], [2, 2], [1e7, 1e7, 1e7, 1e7 + 1, 1e7, 1e7], [])


def expected(oracle, a, b, gap, splits):
    s = sheet(a, b, gap, splits)
    if len(s) > 16384:
        return None
    out = subprocess.run([oracle, '--pieces'], input=s, capture_output=True).stdout.decode()
    if out.startswith('refused 19') or out == '':
        return None
    if out.startswith('refused'):
        return out
    return ''.join(l + '\n' for l in out.split('\n') if l.startswith('piece'))


def float_in(r, size):
    kind = r.random()
    if kind < 0.5:
        return r.uniform(-size, size)
    if kind < 0.7:
        return float(r.randint(-9, 9))
    if kind < 0.8:
        return r.choice([0.0, -0.0])
    return math.ldexp(r.uniform(-1, 1), r.randint(-60, int(math.log2(size))))


def good(r, degree=None, spans=None):
    p = degree or r.choice([1, 1, 2, 2, 3, 3, 4, 5, 6, 7, 8, 9, 12, 15, 20, 25, r.randint(1, 25)])
    n_inner = r.choice([0, 0, 1, 2, 3, r.randint(0, 12)]) if spans is None else spans - 1
    ends = r.choice(['clamped', 'clamped', 'free', 'mixed'])
    first = p + 1 if ends == 'clamped' else r.randint(1, p + 1)
    last = p + 1 if ends != 'free' else r.randint(1, p + 1)
    mults = [first] + [r.choice([1, 1, 1, r.randint(1, p)]) for _ in range(n_inner)] + [last]
    while sum(mults) - p - 1 < p + 1:
        mults.insert(1, r.randint(1, p))
    while sum(mults) - p - 1 > 128:
        mults.pop(1)
    near = r.random()
    k = r.choice([0.0, -1.0, r.uniform(-1000, 1000), float_in(r, 1000.0)])
    knots = []
    for _ in mults:
        knots.append(k)
        if near < 0.25:
            step = math.ldexp(1.0, r.randint(-60, 4))
        elif near < 0.35:
            step = math.ulp(k) * r.randint(1, 5)
        else:
            step = r.choice([1.0, r.uniform(0.01, 3.0), r.uniform(0.001, 200.0)])
        k = max(k + step, math.nextafter(k, INF))
    n = sum(mults) - p - 1
    size = r.choice([10.0, 1000.0, 16777216.0])
    coords = [float_in(r, size) for _ in range(3 * n)]
    weights = [] if r.random() < 0.5 else [r.choice([1.0, 0.5, r.uniform(0.001, 1024.0), 2.0 ** -10, 1024.0]) for _ in range(n)]
    l = line(p, knots, mults, coords, weights)
    if r.random() < 0.5 and l['lo'] < l['hi']:
        a, b = sorted([r.uniform(l['lo'], l['hi']), r.uniform(l['lo'], l['hi'])])
        if r.random() < 0.3:
            a = r.choice(knots)
        if r.random() < 0.3:
            b = r.choice(knots)
        if r.random() < 0.2:
            a = math.nextafter(r.choice(knots), -INF)
        if r.random() < 0.2:
            b = math.nextafter(r.choice(knots), INF)
        l['lo'], l['hi'] = a, b
    return l


def spoil(r, l):
    l = {k: (list(v) if isinstance(v, list) else v) for k, v in l.items()}
    what = r.randint(0, 15)
    ks, ms, cs, ws = l['knots'], l['mults'], l['coords'], l['weights']
    if len(ks) < 2 or len(ms) < len(ks):
        return l
    i = r.randrange(len(ks))
    if what == 0:
        l['degree'] = r.choice([0, 26, 27, l['degree'] + 1, 1000])
    elif what == 1:
        ks.pop(i)
    elif what == 2:
        ms.pop(i)
    elif what == 3:
        ks[i] = r.choice([NAN, INF, -INF, 1048576.0, math.nextafter(1048576.0, INF), -1048576.0, -1048577.0, 1e300])
    elif what == 4:
        ks[i] = r.choice([ks[i - 1], ks[0], -0.0, 0.0])
    elif what == 5:
        ms[i] = r.choice([0, l['degree'], l['degree'] + 1, l['degree'] + 2, 4294967295])
    elif what == 6:
        del cs[:3]
    elif what == 7:
        cs.extend([1.0, 2.0, 3.0])
    elif what == 8:
        if ws:
            ws.pop()
        else:
            ws.append(1.0)
    elif what == 9 and ws:
        ws[r.randrange(len(ws))] = r.choice([0.0, -1.0, NAN, INF, 2.0 ** -10, math.nextafter(2.0 ** -10, 0), math.nextafter(1024.0, INF)])
    elif what == 10 and cs:
        cs[r.randrange(len(cs))] = r.choice([NAN, INF, 16777216.0, math.nextafter(16777216.0, INF), -16777216.0, -16777218.0])
    elif what == 11:
        l['lo'] = r.choice([NAN, INF, -INF, l['hi'], l['lo'] - 1.0, math.nextafter(l['lo'], -INF), -0.0])
    elif what == 12:
        l['hi'] = r.choice([NAN, INF, -INF, l['lo'], l['hi'] + 1.0, math.nextafter(l['hi'], INF), math.nextafter(l['lo'], INF)])
    elif what == 13:
        j = r.randrange(len(ks))
        ms[j] = r.choice([0, 1, 2])
    elif what == 14:
        l['degree'] = max(1, l['degree'] - 1)
    elif what == 15:
        p = l['degree']
        n = r.randint(0, p + 1)
        l = line(p, [0.0, 1.0], [r.randint(max(0, n), p + 1), 0], [1.0] * 3 * n, [])
        l['mults'][1] = max(0, n + p + 1 - l['mults'][0])
    return l


def fixed():
    """Questions that a reader may want to see: the starred line, edges of each limit, near-equal knots."""
    one = lambda l, gap=0.0, s=0: (l, FAR, gap, s)
    ramp = lambda n: [float(i % 7) for i in range(3 * n)]
    out = [one(line(2, [0.0, 1.0, 2.0], [3, 1, 3], [0, 0, 0, 0, 2, 0, 2, 2, 0, 2, 0, 0], []))]
    out.append(one(line(1, [0.0, 2.0 ** -1072], [2, 2], [0, 0, 0, 1, 0, 0], [])))
    out.append(one(line(1, [0.0, 2.0 ** -1073], [2, 2], [0, 0, 0, 1, 0, 0], [])))
    out.append(one(line(1, [0.0, 2.0 ** -1074], [2, 2], [0, 0, 0, 1, 0, 0], [])))
    out.append(one(line(2, [0.0, 1.0, 2.0], [2, 2, 2], ramp(3), [])))
    for p in (24, 25, 26):
        out.append(one(line(p, [0.0, 1.0], [p + 1, p + 1], ramp(p + 1), [])))
    for n in (127, 128, 129):
        part = (None, None) if n == 128 else (3.0, 9.0)
        out.append(one(line(1, [float(i) for i in range(n)], [1] * n, ramp(n - 2), [], 3.0, 9.0)))
        out.append(one(line(1, [float(i) for i in range(n)], [2] + [1] * (n - 2) + [2], ramp(n), [], 3.0, 9.0)))
        out.append(one(line(3, [float(i) for i in range(n - 2)], [4] + [1] * (n - 4) + [4], ramp(n), [], *part)))
    for k in (1048576.0, math.nextafter(1048576.0, INF)):
        out.append(one(line(1, [0.0, k], [2, 2], ramp(2), [])))
        out.append(one(line(1, [-k, 0.0], [2, 2], ramp(2), [])))
    for w in (2.0 ** -10, math.nextafter(2.0 ** -10, 0), 1024.0, math.nextafter(1024.0, INF), 0.0, NAN):
        out.append(one(line(1, [0.0, 1.0], [2, 2], ramp(2), [1.0, w])))
    for x in (16777216.0, math.nextafter(16777216.0, INF), -16777216.0, -16777218.0, NAN, -INF):
        out.append(one(line(1, [0.0, 1.0], [2, 2], ramp(2)[:5] + [x], [])))
    base = line(2, [0.0, 1.0, 2.0], [3, 1, 3], [0, 0, 0, 0, 2, 0, 2, 2, 0, 2, 0, 0], [])
    for gap in (-0.0, 16777216.0, math.nextafter(16777216.0, INF), -5e-324, NAN, INF):
        out.append((base, FAR, gap, 0))
    for s in (256, 257, (1 << 28) - 1):
        out.append((base, FAR, 0.0, s))
    for lo, hi in ((0.0, 1.0), (1.0, 2.0), (1.0, 1.0), (-0.0, 2.0), (NAN, 1.0), (0.0, NAN), (0.0, INF), (0.5, 0.25), (0.0, 5e-324), (0.0, 1e-323), (1.0, math.nextafter(1.0, 2.0)), (math.nextafter(1.0, 0.0), 2.0)):
        out.append((dict(base, lo=lo, hi=hi), FAR, 0.0, 0))
        out.append((FAR, dict(base, lo=lo, hi=hi), 0.0, 0))
    out.append((dict(base, lo=0.0, hi=5e-324), dict(base, lo=NAN), 0.0, 0))
    out.append((dict(base, lo=NAN), dict(base, degree=26), -1.0, 999))
    out.append((dict(base, lo=0.0, hi=5e-324), FAR, -1.0, 999))
    for p, n in ((3, 3), (3, 0), (2, 1), (25, 25), (25, 3)):
        out.append(one(line(p, [0.0, 1.0], [p + 1, n], ramp(n), [])))
        out.append(one(line(p, [0.0, 1.0, 2.0], [1, min(n, p), p], ramp(max(0, min(n, p))), [])))
    out.append(one(line(2, [float(i) for i in range(66)], [3] + [2] * 64 + [1], ramp(129), [])))
    out.append(one(line(2, [float(i) for i in range(66)], [2] + [2] * 64 + [1], ramp(128), [], 1.5, 60.25)))
    # a cut where (t0 − a) / (b − a) rounds to 1: no second cut
    out.append(one(line(2, [-1e6, 1.0], [3, 3], ramp(3), [], math.nextafter(1.0, 0) - 2.0 ** -50, 1.0)))
    out.append(one(line(2, [-1048576.0, 2.0 ** -30], [3, 3], ramp(3), [], 2.0 ** -31, 2.0 ** -30)))
    return out


def main():
    oracle, count, seed, to_in, to_out = sys.argv[1], int(sys.argv[2]), int(sys.argv[3]), sys.argv[4], sys.argv[5]
    r = random.Random(seed)
    asks = fixed()
    for _ in range(count):
        a = good(r)
        while r.random() < 0.35:
            a = spoil(r, a)
        b = FAR if r.random() < 0.9 else good(r)
        if r.random() < 0.05:
            b = spoil(r, b)
        gap = r.choice([0.0, 0.0, 0.0, 1.0, -0.0, -1.0, NAN, 16777217.0]) if r.random() < 0.2 else 0.0
        s = r.choice([0, 1, 256, 257]) if r.random() < 0.2 else 0
        asks.append((a, b, gap, s))
    kept = 0
    seen = {}
    with open(to_in, 'wb') as i, open(to_out, 'w') as o:
        for a, b, gap, s in asks:
            a = dict(a, coords=[float(x) for x in a['coords']])
            b = dict(b, coords=[float(x) for x in b['coords']])
            if any(len(x['coords']) % 3 or len(x['coords']) > 400 or max(len(x[k]) for k in ('knots', 'mults', 'weights')) > 130 for x in (a, b)):
                continue
            want = expected(oracle, a, b, gap, s)
            if want is None:
                continue
            i.write(run_record(a, b, gap, s))
            o.write(want)
            key = want[:11] if want.startswith('refused') else f"degree {a['degree']}"
            seen[key] = seen.get(key, 0) + 1
            kept += 1
    print(kept, 'questions', file=sys.stderr)
    for k in sorted(seen):
        print(' ', k.strip(), seen[k], file=sys.stderr)


main()
