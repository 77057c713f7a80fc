#!/usr/bin/env python3
"""How sharp a list of sheets is: edits of the model that must be seen.

  edits.py [--where] DIR ...
  edits.py --random SEED N

Each edit below makes one mistake in clearance.c, an old and a new text or more
such pairs. The edited program is built
and run on the sheets of each DIR/sheets.txt (or, with --random, on the drawn
sheets and N random ones of the seed, all levels among them); an edit is seen
if an answer differs from the unedited program's. Exit 1 if an edit is not seen,
or if one of those that no sheet can show is. --where prints the first sheet
that shows each edit.
"""
import os
import subprocess
import sys
import tempfile

HERE = os.path.dirname(os.path.abspath(__file__))
sys.path.insert(0, os.path.dirname(HERE))
import sheet_text  # noqa: E402
import sheets  # noqa: E402

# Texts that several edits change: the line to halve, and a node's depths.
CHOSEN = 'int k = box_size(hull[1].box) >= box_size(hull[0].box);'
WAY = 'return depths[1 - k] < MAX_DEPTH ? 1 - k : NEITHER;'
LIMITS = '    if (depths[k] < MAX_DEPTH) return k;\n    ' + WAY + '\n'
DEEPER = '    s->depths[2 * top + k]++;\n    s->depths[2 * next + k]++;\n'


def limits(first, second):
    """The line to halve, with a limit for each line."""
    return ('    const uint32_t most[2] = { %d, %d };\n    if (depths[k] < most[k]) return k;\n' % (first, second)
            + '    return depths[1 - k] < most[1 - k] ? 1 - k : NEITHER;\n')


EDITS = [
    # sheet walk
    ('1 over 16,384', 'length > MAX_BYTES) return 1', 'length >= MAX_BYTES) return 1'),
    ('1 length 0', 'length == 0 || length % 4', 'length % 4'),
    ('2 before 3', 'if (w->at == w->count) return 3;\n    if (w->words[w->at] >> 28 != kind)',
     'if (w->at == w->count) return 2;\n    if (w->words[w->at] >> 28 != kind)'),
    ('weights count 0', 'if (l->weight_count == 0) return 2;', ''),
    ('weights count 0 gives 3', 'if (l->weight_count == 0) return 2;', 'if (l->weight_count == 0) return 3;'),
    ('end count', 'int no = take_bare(w, KIND_END);', 'uint32_t count;\n    int no = take_head(w, KIND_END, &count);'),
    ('end count after words', '    int no = take_bare(w, KIND_END);\n    if (no) return no;\n    return w->at == w->count ? 0 : 3;',
     '    uint32_t count;\n    int no = take_head(w, KIND_END, &count);\n    if (no) return no;\n    if (w->at != w->count) return 3;\n    return count != 0 ? 2 : 0;'),
    ('words after the end', 'return w->at == w->count ? 0 : 3;', 'return 0;'),
    ('no weights at the end of the sheet', '    if (w->at == w->count) return 3;\n    if (w->words[w->at] >> 28 != KIND_WEIGHTS)',
     '    if (w->at == w->count) return 2;\n    if (w->words[w->at] >> 28 != KIND_WEIGHTS)'),
    ('poles count wraps', 'take_floats(w, 3 * (uint64_t)l->pole_count, l->poles)',
     'take_floats(w, 24 * l->pole_count / 8, l->poles)'),
    # datum (document 02, M-104)
    ('datum may be absent', 'return level >= 104 ? take_head(w, KIND_DATUM, &l->datum) : 0;',
     'return w->at < w->count && w->words[w->at] >> 28 == KIND_DATUM ? take_head(w, KIND_DATUM, &l->datum) : 0;'),
    ('datum may be absent at the end of the sheet', 'return level >= 104 ? take_head(w, KIND_DATUM, &l->datum) : 0;',
     'return w->at == w->count ? 2 : take_head(w, KIND_DATUM, &l->datum);'),
    ('datum of the first line may be absent', '    if (!no) no = take_datum(w, l);\n',
     '    l->datum = 1;\n    if (!no && (w->at == w->count || w->words[w->at] >> 28 != KIND_LINE)) no = take_datum(w, l);\n'),
    ('datum of the second line may be absent', '    if (!no) no = take_datum(w, l);\n',
     '    l->datum = 1;\n    if (!no && (w->at == w->count || w->words[w->at] >> 28 != KIND_QUESTION)) no = take_datum(w, l);\n'),
    ('no datum gives 3', 'return level >= 104 ? take_head(w, KIND_DATUM, &l->datum) : 0;', 'return take_head(w, KIND_DATUM, &l->datum) ? 3 : 0;'),
    ('datum before the weights', '    if (!no) no = take_weights(w, l);\n    if (!no) no = take_datum(w, l);\n',
     '    if (!no) no = take_datum(w, l);\n    if (!no) no = take_weights(w, l);\n'),
    ('weights behind the datum too', '    if (!no) no = take_datum(w, l);\n', '    if (!no) no = take_datum(w, l);\n    if (!no && !l->rational) no = take_weights(w, l);\n'),
    ('datum twice', '    if (!no) no = take_datum(w, l);\n',
     '    if (!no) no = take_datum(w, l);\n    if (!no && w->at < w->count && w->words[w->at] >> 28 == KIND_DATUM) no = take_datum(w, l);\n'),
    ('datum of 24 bits', '    if (!no) no = take_datum(w, l);\n', '    if (!no) no = take_datum(w, l);\n    l->datum &= 0xFFFFFF;\n'),
    ('datum 0 in the walk', 'return level >= 104 ? take_head(w, KIND_DATUM, &l->datum) : 0;',
     'int no = take_head(w, KIND_DATUM, &l->datum);\n    return !no && l->datum == 0 ? 2 : no;'),
    ('datum over 9,999 in the walk', 'return level >= 104 ? take_head(w, KIND_DATUM, &l->datum) : 0;',
     'int no = take_head(w, KIND_DATUM, &l->datum);\n    return !no && l->datum > MAX_DATUM ? 2 : no;'),
    ('data untested', '        if (k > 0 && !one_datum(s->line[0].datum, l->datum))\n            return refusal(23, k + 1);\n', ''),
    ('data that differ', ' && first == second;', ';'),
    ('data outside the span', 'return datum_in_span(first) && datum_in_span(second) && first == second;', 'return first == second;'),
    ('datum 0', 'return 1 <= datum && datum <= MAX_DATUM;', 'return datum <= MAX_DATUM;'),
    ('datum 0 as none given', ' && first == second;', ' && first == second || first == 0 || second == 0;'),
    ('datum 1 refused', 'return 1 <= datum && datum <= MAX_DATUM;', 'return 1 < datum && datum <= MAX_DATUM;'),
    ('datum 10,000', 'MAX_DATUM = 9999', 'MAX_DATUM = 10000'),
    ('datum 9,999 refused', 'MAX_DATUM = 9999', 'MAX_DATUM = 9998'),
    ('data as 16 bits', 'one_datum(s->line[0].datum, l->datum)', 'one_datum((uint16_t)s->line[0].datum, (uint16_t)l->datum)'),
    ('data compared as 16 bits', 'return datum_in_span(first) && datum_in_span(second) && first == second;', 'return datum_in_span(second) && (uint16_t)first == (uint16_t)second;'),
    ('data compared as 8 bits', ' && first == second;', ' && (uint8_t)first == (uint8_t)second;'),
    ('data compared by order', ' && first == second;', ' && first <= second;'),
    ('span or equal', '&& datum_in_span(second) && first == second;', '&& datum_in_span(second) || first == second;'),
    ('23 with line 1', 'return refusal(23, k + 1);', 'return refusal(23, 1);'),
    ('23 with 0', 'return refusal(23, k + 1);', 'return refusal(23, 0);'),
    ('23 with the line outside the span', 'return refusal(23, k + 1);', 'return refusal(23, datum_in_span(s->line[0].datum) ? k + 1 : 1);'),
    ('23 before the first line', 'int no = line_fault(l);',
     'int no = line_fault(l);\n        if (k == 0 && s->lines == 2 && !one_datum(l->datum, s->line[1].datum)) return refusal(23, 2);'),
    ('23 before the second line', 'int no = line_fault(l);', 'int no = line_fault(l);\n        if (k == 1 && !one_datum(s->line[0].datum, l->datum)) return refusal(23, 2);'),
    ('span before the second line', 'int no = line_fault(l);', 'int no = line_fault(l);\n        if (k == 1 && !datum_in_span(s->line[0].datum)) return refusal(23, 2);'),
    ('23 after 15', '        if (k > 0 && !one_datum(s->line[0].datum, l->datum))\n            return refusal(23, k + 1);\n',
     '',
     '    if (!within(0.0, s->gap, MAX_GAP)) return refusal(16, 0);\n',
     '    if (s->lines == 2 && !one_datum(s->line[0].datum, s->line[1].datum)) return refusal(23, 2);\n    if (!within(0.0, s->gap, MAX_GAP)) return refusal(16, 0);\n'),
    ('23 after 18', '        if (k > 0 && !one_datum(s->line[0].datum, l->datum))\n            return refusal(23, k + 1);\n',
     '',
     '    if (!r.number) r = ask(sheet);\n',
     '    if (!r.number) r = ask(sheet);\n    if (!r.number && sheet->lines == 2 && !one_datum(sheet->line[0].datum, sheet->line[1].datum)) r = refusal(23, 2);\n'),
    # admission
    ('degree 0', 'l->degree < 1 || ', ''),
    ('degree 26', 'MAX_DEGREE = 25,\n    MAX_WIDTH = MAX_DEGREE + 1', 'MAX_DEGREE = 26,\n    MAX_WIDTH = MAX_DEGREE + 1'),
    ('1 knot', 'n < 2 || n > MAX_KNOTS', 'n < 1 || n > MAX_KNOTS'),
    ('129 knots', 'n < 2 || n > MAX_KNOTS', 'n < 2 || n > MAX_KNOTS + 1'),
    ('127 knots', 'n < 2 || n > MAX_KNOTS', 'n < 2 || n >= MAX_KNOTS'),
    ('other count of multiplicities', ' || l->mult_count != n) return 5', ') return 5'),
    ('NaN knot', 'if (!within(-MAX_KNOT, l->knots[i], MAX_KNOT)) return 0;',
     'if (l->knots[i] < -MAX_KNOT || l->knots[i] > MAX_KNOT) return 0;'),
    ('knot 2^20', 'if (!within(-MAX_KNOT, l->knots[i], MAX_KNOT)) return 0;',
     'if (!(-MAX_KNOT < l->knots[i] && l->knots[i] < MAX_KNOT)) return 0;'),
    ('equal knots', 'l->knots[i] > l->knots[i - 1]', 'l->knots[i] >= l->knots[i - 1]'),
    ('7 before 6', 'if (!knots_in_limits(l)) return 6;\n    if (!knots_rise(l)) return 7;',
     'if (!knots_rise(l)) return 7;\n    if (!knots_in_limits(l)) return 6;'),
    ('end multiplicity', '(end ? l->degree + 1 : l->degree)', '(l->degree)'),
    ('inner multiplicity', '(end ? l->degree + 1 : l->degree)', '(l->degree + 1)'),
    ('multiplicity as signed', 'if (l->mults[i] > (end ? l->degree + 1 : l->degree)) return 0;',
     'if ((int32_t)l->mults[i] > (int32_t)(end ? l->degree + 1 : l->degree)) return 0;'),
    ('9 before 8', 'if (!mults_in_limits(l)) return 8;\n    if (!mults_above_zero(l)) return 9;',
     'if (!mults_above_zero(l)) return 9;\n    if (!mults_in_limits(l)) return 8;'),
    ('multiplicity 0', '    if (!mults_above_zero(l)) return 9;\n', ''),
    ('negative pole count', 'return (int64_t)l->pole_count == sum - l->degree - 1;',
     'return (int64_t)l->pole_count == (sum - l->degree - 1 < 0 ? 0 : sum - l->degree - 1);'),
    ('11 before 10', 'if (!pole_count_fits(l)) return 10;\n    if (l->pole_count < l->degree + 1 || l->pole_count > MAX_POLES) return 11;',
     'if (l->pole_count < l->degree + 1 || l->pole_count > MAX_POLES) return 11;\n    if (!pole_count_fits(l)) return 10;'),
    ('too few poles', 'l->pole_count < l->degree + 1 ||', 'l->pole_count < 1 ||'),
    ('too many poles', 'l->pole_count > MAX_POLES) return 11', 'l->pole_count > MAX_POLES + 1) return 11'),
    ('128 poles', 'l->pole_count > MAX_POLES) return 11', 'l->pole_count >= MAX_POLES) return 11'),
    ('12', 'if (l->weight_count != l->pole_count) return 12;', 'if (l->weight_count < l->pole_count) return 12;'),
    ('least weight', '#define MIN_WEIGHT 0.0009765625', '#define MIN_WEIGHT 0.0009765626'),
    ('least weight 0', '#define MIN_WEIGHT 0.0009765625', '#define MIN_WEIGHT 5e-324'),
    ('greatest weight', '#define MAX_WEIGHT 1024.0', '#define MAX_WEIGHT 1023.0'),
    ('greatest weight 2^11', '#define MAX_WEIGHT 1024.0', '#define MAX_WEIGHT 2048.0'),
    ('coordinate 2^24', '#define MAX_COORDINATE 16777216.0', '#define MAX_COORDINATE 16777215.0'),
    ('lines by number', 'int no = line_fault(l);',
     'int no = line_fault(l), no2 = s->lines > 1 ? line_fault(&s->line[1]) : 0;\n        if (no2 && no2 < no) return refusal(no2, 2);'),
    # question
    ('empty range', 'lo >= hi) return 0;', 'lo > hi) return 0;'),
    ('range below the bounds', 'return l->flat[l->degree] <= lo && hi <=', 'return hi <='),
    ('bounds are the end knots', 'l->flat[l->degree] <= lo && hi <= l->flat[l->pole_count]',
     'l->knots[0] <= lo && hi <= l->knots[l->knot_count - 1]'),
    ('gap 0', 'within(0.0, s->gap, MAX_GAP)', 'within(5e-324, s->gap, MAX_GAP)'),
    ('gap 2^24', '#define MAX_GAP 16777216.0', '#define MAX_GAP 16777215.0'),
    ('S 257', 's->splits_per_pair > MAX_SPLITS)', 's->splits_per_pair > MAX_SPLITS + 1)'),
    ('S 256', 's->splits_per_pair > MAX_SPLITS)', 's->splits_per_pair >= MAX_SPLITS)'),
    ('17 before 16', '    if (!within(0.0, s->gap, MAX_GAP)) return refusal(16, 0);\n',
     '    if (s->splits_per_pair > MAX_SPLITS) return refusal(17, 0);\n    if (!within(0.0, s->gap, MAX_GAP)) return refusal(16, 0);\n'),
    ('15 of the first only', 'for (uint32_t k = 0; k < s->lines; k++)\n        if (!range_fits', 'for (uint32_t k = 0; k < 1; k++)\n        if (!range_fits'),
    ('18', 'if (!(breaks[i - 1] < t && t < breaks[i])) return 0;', 'if (!(breaks[i - 1] <= t && t < breaks[i])) return 0;'),
    ('18, upper', 'if (!(breaks[i - 1] < t && t < breaks[i])) return 0;', 'if (!(breaks[i - 1] < t && t <= breaks[i])) return 0;'),
    ('18 on all knots', 'int n = fill_breaks(&s->line[k], breaks);',
     'int n = fill_breaks(&s->line[k], breaks);\n        if (!breaks_have_middles(s->line[k].knots, (int)s->line[k].knot_count)) return refusal(18, k + 1);'),
    # pieces
    ('breaks at lo', 'if (range[0] < l->list[i] &&', 'if (range[0] <= l->list[i] &&'),
    ('span from the right', 'l->flat[s + 1] <= u) s++', 'l->flat[s + 1] < u - 1e-3) s++'),
    ('knots not relative', 'around[p - j] = -(u - flat_knot(l, s + 1 - j));\n        around[p - 1 + j] = flat_knot(l, s + j) - u;',
     'around[p - j] = flat_knot(l, s + 1 - j);\n        around[p - 1 + j] = flat_knot(l, s + j);'),
    ('quotient for reciprocal', 'double alpha = (x - low) * inverse;',
     'double alpha = (x - low) / (around[p + j - r] - low); (void)inverse;'),
    ('other blend', 'd[j][i] = (1.0 - alpha) * d[j - 1][i] + alpha * d[j][i];', 'd[j][i] = d[j - 1][i] + alpha * (d[j][i] - d[j - 1][i]);'),
    ('start and end changed over', 'double x = r <= k ? around[p] : around[p - 1];', 'double x = r < k ? around[p] : around[p - 1];'),
    ('last pole first', 'for (int j = 0; j <= p; j++) {\n            homogeneous(', 'for (int j = p; j >= 0; j--) {\n            homogeneous('),
    ('weights left out', 'double w = l->rational ? l->weights[i] : 1.0;', 'double w = 1.0;'),
    ('weights not multiplied', 'out[c] = l->poles[3 * i + c] * w;', 'out[c] = l->poles[3 * i + c];'),
    ('whole span', '    restrict_net(net, (int)l->degree, (t0 - a) / (b - a), (t1 - a) / (b - a));\n', ''),
    ('other interpolation', 'out[c] = a[c] + f * (b[c] - a[c]);', 'out[c] = (1.0 - f) * a[c] + f * b[c];'),
    ('cut at f1', 'g = (f1 - f0) / (1.0 - f0);', 'g = f1;'),
    ('no lower cut', 'if (f0 > 0.0) {', 'if (f0 > 0.5) {'),
    ('upper cut unless 1', 'if (g < 1.0) {', 'if (!(g >= 1.0)) {'),
    # halving
    ('halves first', 'static double middle(double a, double b)\n{\n    return 0.5 * (a + b);', 'static double middle(double a, double b)\n{\n    return 0.5 * a + 0.5 * b;'),
    ('halves by difference', 'rest[x] = middle(rest[x], rest[x + 4]);', 'rest[x] = rest[x] + 0.5 * (rest[x + 4] - rest[x]);'),
    ('one round too few', 'for (int x = 0; x < 4 * (width - 1 - r); x++)', 'for (int x = 0; x < 4 * (width - 1 - r) - (r > 1 ? 4 : 0); x++)'),
    # boxes and tests
    ('no measure', 'if (!within(-MAX_MEASURE, x, MAX_MEASURE)) h->measured = 0;', ''),
    ('NaN in measure', 'if (!within(-MAX_MEASURE, x, MAX_MEASURE)) h->measured = 0;', 'if (x < -MAX_MEASURE || x > MAX_MEASURE) h->measured = 0;'),
    ('measure 2^24', '#define MAX_MEASURE 33554432.0', '#define MAX_MEASURE 16777216.0'),
    ('box of a NaN net', 'h->box[c] = h->measured ? lo : -INFINITY;', 'h->box[c] = lo;'),
    ('measure by the first net only', 'if (!a->measured || !b->measured) return UNSEPARATED;', 'if (!a->measured) return UNSEPARATED;'),
    ('boxes apart at equality', 'if (a[c] > b[c + 3] + gap || b[c] > a[c + 3] + gap) return 1;', 'if (a[c] >= b[c + 3] + gap || b[c] > a[c + 3] + gap) return 1;'),
    ('boxes apart at equality, second', 'if (a[c] > b[c + 3] + gap || b[c] > a[c + 3] + gap) return 1;', 'if (a[c] > b[c + 3] + gap || b[c] >= a[c + 3] + gap) return 1;'),
    ('boxes by difference', 'if (a[c] > b[c + 3] + gap ||', 'if (a[c] - b[c + 3] > gap ||'),
    ('boxes without z', 'for (int c = 0; c < 3; c++)\n        if (a[c] >', 'for (int c = 0; c < 2; c++)\n        if (a[c] >'),
    ('boxes without gap', 'if (boxes_apart(a->box, b->box, gap)) return BY_BOX;', 'if (boxes_apart(a->box, b->box, 0.0)) return BY_BOX;'),
    ('sizes without root', 'return sqrt(x * x + y * y + z * z);', 'return x * x + y * y + z * z;'),
    ('gap not times the axis', 'gap = gap * sqrt(dot(axis, axis));', ''),
    ('apart at equality', 'return a0 > b1 + gap || b0 > a1 + gap;', 'return a0 >= b1 + gap || b0 > a1 + gap;'),
    ('apart by difference', 'return a0 > b1 + gap || b0 > a1 + gap;', 'return a0 - b1 > gap || b0 - a1 > gap;'),
    ('apart one way', 'return a0 > b1 + gap || b0 > a1 + gap;', 'return a0 > b1 + gap;'),
    ('no other normal', '        n = cross(ca, sub(b->point[0], a->point[0]));', '        n = cross(ca, sub(a->point[0], a->point[0]));'),
    ('chords from last to first', 'return sub(h->point[h->width - 1], h->point[0]);', 'return sub(h->point[0], h->point[h->width - 1]);'),
    ('normal of the second and the first', 'cb = chord(b), n = cross(ca, cb);', 'cb = chord(b), n = cross(cb, ca);'),
    ('no normal axis', 'return apart_along(n, a, b, gap) || apart', 'return apart'),
    ('no first plane axis', ' || apart_along(cross(ca, n), a, b, gap)', ''),
    ('no second plane axis', '\n        || apart_along(cross(cb, n), a, b, gap)', ''),
    ('equal chords: the second', 'int first = dot(ca, ca) >= dot(cb, cb);', 'int first = dot(ca, ca) > dot(cb, cb);'),
    ('the shorter chord', 'int first = dot(ca, ca) >= dot(cb, cb);', 'int first = dot(ca, ca) <= dot(cb, cb);'),
    ('chords by root', 'int first = dot(ca, ca) >= dot(cb, cb);', 'int first = norm(ca) >= norm(cb);'),
    ('chord of length 0', '    if (!(length > 0.0)) return 0;\n', ''),
    ('line test strict', 'origin), axis)) <= gap)) return 0;', 'origin), axis)) < gap)) return 0;'),
    ('line test of the first only', 'return near_line(a, origin, *axis, gap) && near_line(b, origin, *axis, gap);', 'return near_line(a, origin, *axis, gap);'),
    ('line test of the second only', 'return near_line(a, origin, *axis, gap) && near_line(b, origin, *axis, gap);', 'return near_line(b, origin, *axis, gap);'),
    ('line test without the length', '    gap = gap * length;\n', ''),
    ('in line is unseparated', 'return apart_along(axis, a, b, gap) ? BY_LINE : UNSEPARATED;', 'return UNSEPARATED;'),
    ('line axis turned', 'return apart_along(axis, a, b, gap) ? BY_LINE : UNSEPARATED;',
     'return apart_along(sub(sub(axis, axis), axis), a, b, gap) ? BY_LINE : UNSEPARATED;'),
    ('no line test', 'if (!along_one_line(a, b, gap, &axis)) return SPLIT;', 'if (!along_one_line(a, b, gap, &axis) || 1) return SPLIT;'),
    # search
    ('pairs second line first', 'if (push) push_pair(s, i, j);', 'if (push) push_pair(s, s->piece_count[0] - 1 - i, j);'),
    ('all pairs pushed', 'if (boxes_apart(boxes[0][i], boxes[1][j], s->gap)) continue;', ''),
    ('13 pairs', 'LENT_RANGES = 304,\n    LENT_DEPTHS = 152', 'LENT_RANGES = 308,\n    LENT_DEPTHS = 154'),
    ('76 depths', 'LENT_DEPTHS = 152', 'LENT_DEPTHS = 76'),
    ('151 depths', 'LENT_DEPTHS = 152', 'LENT_DEPTHS = 151'),
    ('820 regions', 'LENT_REGIONS = 8190', 'LENT_REGIONS = 8200'),
    ('818 regions', 'LENT_REGIONS = 8190', 'LENT_REGIONS = 8180'),
    ('pieces 8,000', 'LENT_PIECES = 8112', 'LENT_PIECES = 8000'),
    ('pieces 8,111', 'LENT_PIECES = 8112', 'LENT_PIECES = 8111'),
    ('nets 7,800', 'LENT_NETS = 7904', 'LENT_NETS = 7800'),
    ('nets 7,903', 'LENT_NETS = 7904', 'LENT_NETS = 7903'),
    ('78 pieces', 'if (4 * s->width[k] * s->piece_count[k] > LENT_PIECES) return 19;', 'if (s->piece_count[k] > 78) return 19;'),
    ('19 of the first pieces only', 'for (int k = 0; k < 2; k++)\n        if (4 * s->width', 'for (int k = 0; k < 1; k++)\n        if (4 * s->width'),
    ('regions S x P', '10 * pairs * (splits + 1) <= LENT_REGIONS', '10 * pairs * splits <= LENT_REGIONS'),
    ('allowance S', 's->unspent = sheet->splits_per_pair * s->pairs;', 's->unspent = sheet->splits_per_pair;'),
    ('node at allowance 0 dropped', 's->ended = 1;\n            return;', 's->ended = 1;\n            s->waiting--;\n            return;'),
    ('visit at allowance 0 not counted', 's->ended = 1;\n            return;', 's->ended = 1;\n            s->visits--;\n            return;'),
    ('end as soon as the allowance is 0', 's->unspent--;\n', 's->unspent--;\n        if (s->unspent == 0) s->ended = 1;\n'),
    ('equal boxes: the first', 'box_size(hull[1].box) >= box_size(hull[0].box)', 'box_size(hull[1].box) > box_size(hull[0].box)'),
    ('the smaller box', 'box_size(hull[1].box) >= box_size(hull[0].box)', 'box_size(hull[1].box) <= box_size(hull[0].box)'),
    ('lower half first', 'net_of(s, k, next),\n              net_of(s, k, top));', 'net_of(s, k, top),\n              net_of(s, k, next));'),
    ('ranges changed over', 's->ranges[4 * top + 2 * k] = mid;\n    s->ranges[4 * next + 2 * k + 1] = mid;', 's->ranges[4 * next + 2 * k] = mid;\n    s->ranges[4 * top + 2 * k + 1] = mid;'),
    # two depths (document 02, M-106)
    ('limit 31', 'MAX_DEPTH = 32', 'MAX_DEPTH = 31'),
    ('limit 33', 'MAX_DEPTH = 32', 'MAX_DEPTH = 33'),
    ('limit 31 on the first line', LIMITS, limits(31, 32)),
    ('limit 31 on the second line', LIMITS, limits(32, 31)),
    ('limit 33 on the first line', LIMITS, limits(33, 32)),
    ('limit 33 on the second line', LIMITS, limits(32, 33)),
    ('one depth of 64 for both', LIMITS, '    return depths[0] + depths[1] < 64 ? k : NEITHER;\n'),
    ('sum of 64 beside the limits', '    if (depths[k] < MAX_DEPTH) return k;\n', '    if (depths[0] + depths[1] >= 63) return NEITHER;\n    if (depths[k] < MAX_DEPTH) return k;\n'),
    ('no giving way: given up', WAY, 'return NEITHER;'),
    ('no giving way: halved past 32', WAY, 'return depths[1 - k] < MAX_DEPTH ? k : NEITHER;'),
    ('given up once either is at 32', 'if (depths[k] < MAX_DEPTH) return k;', 'if (depths[0] == MAX_DEPTH || depths[1] == MAX_DEPTH) return NEITHER;\n    if (depths[k] < MAX_DEPTH) return k;'),
    ('given up once the first is at 32', 'if (depths[k] < MAX_DEPTH) return k;', 'if (depths[0] == MAX_DEPTH) return NEITHER;\n    if (depths[k] < MAX_DEPTH) return k;'),
    ('given up once the second is at 32', 'if (depths[k] < MAX_DEPTH) return k;', 'if (depths[1] == MAX_DEPTH) return NEITHER;\n    if (depths[k] < MAX_DEPTH) return k;'),
    ('the second gives way alone', WAY, 'return k == 1 && depths[0] < MAX_DEPTH ? 0 : NEITHER;'),
    ('the first gives way alone', WAY, 'return k == 0 && depths[1] < MAX_DEPTH ? 1 : NEITHER;'),
    ('giving way by the boxes again', WAY, 'return box_size(hull[0].box) != box_size(hull[1].box) && depths[1 - k] < MAX_DEPTH ? 1 - k : NEITHER;'),
    ('giving way to a box with a size', WAY, 'return box_size(hull[1 - k].box) > 0.0 && depths[1 - k] < MAX_DEPTH ? 1 - k : NEITHER;'),
    ('the line of less depth', CHOSEN, 'int k = depths[1] <= depths[0];'),
    ('equal boxes: the line of less depth', CHOSEN, CHOSEN + '\n    if (box_size(hull[1].box) == box_size(hull[0].box)) k = depths[1] <= depths[0];'),
    ('allowance spent with both at 32', 'if (line != NEITHER) {', 'if (v == SPLIT && line == NEITHER && s->unspent > 0) s->unspent--;\n    if (line != NEITHER) {'),
    ('split counted with both at 32', 'if (line != NEITHER) {', 'if (v == SPLIT && line == NEITHER) s->splits++;\n    if (line != NEITHER) {'),
    ('kept at allowance 0 with both at 32', 'if (line != NEITHER) {', 'if (line != NEITHER || (v == SPLIT && s->unspent == 0)) {'),
    ('given up at allowance 0 with a line at 32', 'if (line != NEITHER) {',
     'if (s->unspent == 0 && (s->depths[2 * top] == MAX_DEPTH || s->depths[2 * top + 1] == MAX_DEPTH)) line = NEITHER;\n    if (line != NEITHER) {'),
    ('nothing spent by giving way', 's->unspent--;\n', 's->unspent -= line == (box_size(hull[1].box) >= box_size(hull[0].box));\n'),
    ('two spent by giving way', 's->unspent--;\n', 's->unspent -= 1 + (s->unspent > 1 && line != (box_size(hull[1].box) >= box_size(hull[0].box)));\n'),
    ('settled with both at 32', 'if (line != NEITHER) {', 'if (v == SPLIT && line == NEITHER) v = BY_BOX;\n    if (line != NEITHER) {'),
    ('visit with both at 32 not counted', 'if (line != NEITHER) {', 'if (v == SPLIT && line == NEITHER) s->visits--;\n    if (line != NEITHER) {'),
    ('depth of the other line', DEEPER, '    s->depths[2 * top + other]++;\n    s->depths[2 * next + other]++;\n'),
    ('depth of both lines', DEEPER, '    for (int i = 0; i < 2; i++) {\n        s->depths[2 * top + i]++;\n        s->depths[2 * next + i]++;\n    }\n'),
    ('depth of the first line always', DEEPER, '    s->depths[2 * top]++;\n    s->depths[2 * next]++;\n'),
    ('depth of the lower half only', DEEPER, '    s->depths[2 * next + k]++;\n'),
    ('depth of the upper half only', DEEPER, '    s->depths[2 * top + k]++;\n'),
    ("the halves' depths of different lines", DEEPER, '    s->depths[2 * top + k]++;\n    s->depths[2 * next + other]++;\n'),
    ("the lower half's other depth 0", DEEPER, DEEPER + '    s->depths[2 * next + other] = 0;\n'),
    ("the lower half's depths changed over", DEEPER, DEEPER + '    { uint32_t d = s->depths[2 * next]; s->depths[2 * next] = s->depths[2 * next + 1]; s->depths[2 * next + 1] = d; }\n'),
    ('a depth of the node halved, none of the other line', DEEPER, DEEPER + '    s->depths[2 * top + other] = s->depths[2 * next + other] = 0;\n'),
    ('a slot of one depth', 'line_to_halve(hull, s->depths + 2 * top)', 'line_to_halve(hull, s->depths + top)'),
    ('depths of a pushed pair', '        s->depths[2 * node + k] = 0;\n', ''),
    # merging
    ('from the start', 'Region r = raw[--count];', 'Region r = *raw++;\n        count--;'),
    ('one pass', '} while (n < before);', '} while (0 && n < before);'),
    ('touching is open', 'return meet(a->f, b->f) && meet', 'return a->f[0] < b->f[1] && b->f[0] <= a->f[1] && meet'),
    ('touching of the first range', ' && meet(a->f + 2, b->f + 2);', ';'),
    ('touching of the second range', 'return meet(a->f, b->f) && ', 'return '),
    ('equal starts turned', 'list[j - 1].f[0] > r.f[0]', 'list[j - 1].f[0] >= r.f[0]'),
    ('-0 before +0', 'list[j - 1].f[0] > r.f[0]', '(list[j - 1].f[0] > r.f[0] || (list[j - 1].f[0] == r.f[0] && !signbit(list[j - 1].f[0]) && signbit(r.f[0])))'),
    ('not sorted', '    sort_regions(s->report, n);\n', ''),
    ('left nodes from the top', 'load_hulls(s, node, hull);\n        s->raw[n++] = region_of(s, node, hull);', 'load_hulls(s, s->waiting - 1 - node, hull);\n        s->raw[n++] = region_of(s, s->waiting - 1 - node, hull);'),
    ('left before given', 'n = merge(s->raw, n, s->report);', '{ Region t[LENT_REGIONS / 10]; uint64_t w = s->waiting; memcpy(t, s->raw + s->given, w * sizeof *t); memcpy(t + w, s->raw, s->given * sizeof *t); n = merge(t, n, s->report); }'),
    ('corners of the first', 'r.f[4 + c] = least(hull[0].box[c], hull[1].box[c]);', 'r.f[4 + c] = hull[0].box[c];'),
    ('corners not united', 'for (int i = 0; i < 10; i++)\n        r.f[i] = high', 'r = *a;\n    for (int i = 0; i < 4; i++)\n        r.f[i] = high'),
    # closed lines
    ('kind 8 read as kind 1', '    l->closed = next_kind(w) == KIND_CLOSED;\n    return take_head(w, l->closed ? KIND_CLOSED : KIND_LINE, &l->degree);',
     '    l->closed = 0;\n    return take_head(w, next_kind(w) == KIND_CLOSED ? KIND_CLOSED : KIND_LINE, &l->degree);'),
    ('kind 1 read as kind 8', 'l->closed = next_kind(w) == KIND_CLOSED;', 'l->closed = 1;'),
    ('kind 10 for kind 8', 'KIND_END, KIND_CLOSED, KIND_DATUM, KIND_RANGE = 11 };', 'KIND_END, KIND_CLOSED = 10, KIND_DATUM = 9, KIND_RANGE = 11 };'),
    ('kind 10 for kind 9', 'KIND_END, KIND_CLOSED, KIND_DATUM, KIND_RANGE = 11 };', 'KIND_END, KIND_CLOSED, KIND_DATUM = 10, KIND_RANGE = 11 };'),
    ('any kind for a line', '    return take_head(w, l->closed ? KIND_CLOSED : KIND_LINE, &l->degree);', '    return take_head(w, w->at < w->count ? w->words[w->at] >> 28 : KIND_LINE, &l->degree);'),
    ('closed on the first line only', '    s->chart = level >= 105 && next_kind(w) == KIND_RANGE;\n',
     '    s->line[1].closed = 0;\n    s->chart = level >= 105 && next_kind(w) == KIND_RANGE;\n'),
    ('22 before 7', '    if (!knots_rise(l)) return 7;\n    if (l->closed && !ends_alike(l)) return 22;\n', '    if (l->closed && !ends_alike(l)) return 22;\n    if (!knots_rise(l)) return 7;\n'),
    ('22 after 8', '    if (l->closed && !ends_alike(l)) return 22;\n    if (!mults_in_limits(l)) return 8;\n', '    if (!mults_in_limits(l)) return 8;\n    if (l->closed && !ends_alike(l)) return 22;\n'),
    ('22 after 9', '    if (l->closed && !ends_alike(l)) return 22;\n    if (!mults_in_limits(l)) return 8;\n    if (!mults_above_zero(l)) return 9;\n',
     '    if (!mults_in_limits(l)) return 8;\n    if (!mults_above_zero(l)) return 9;\n    if (l->closed && !ends_alike(l)) return 22;\n'),
    ('22 after 10', '    if (l->closed && !ends_alike(l)) return 22;\n    if (!mults_in_limits(l)) return 8;\n    if (!mults_above_zero(l)) return 9;\n    if (!pole_count_fits(l)) return 10;\n',
     '    if (!mults_in_limits(l)) return 8;\n    if (!mults_above_zero(l)) return 9;\n    if (!pole_count_fits(l)) return 10;\n    if (l->closed && !ends_alike(l)) return 22;\n'),
    ('no 22', '    if (l->closed && !ends_alike(l)) return 22;\n', ''),
    ('22 on open lines', 'if (l->closed && !ends_alike(l)) return 22;', 'if (!ends_alike(l)) return 22;'),
    ('22 as 8', 'return 22;', 'return 8;'),
    ('22 printed with 0', 'if (no) return refusal(no, k + 1);', 'if (no) return refusal(no, no == 22 ? 0 : k + 1);'),
    ('ends at degree + 1', 'int end = !l->closed && (i == 0', 'int end = (i == 0'),
    ('sum - degree - 1 kept', 'if (l->closed)\n        return (int64_t)l->pole_count == sum - l->mults[l->mult_count - 1];\n', ''),
    ('sum - first - last', 'sum - l->mults[l->mult_count - 1];', 'sum - 2 * (int64_t)l->mults[l->mult_count - 1];'),
    ('as many poles as the degree', 'if (l->pole_count < l->degree + 1 ||', 'if (l->pole_count < l->degree + !l->closed ||'),
    ('no poles beyond degree + 1 asked of a closed line', 'if (l->pole_count < l->degree + 1 ||', 'if ((!l->closed && l->pole_count < l->degree + 1) ||'),
    ('lo = last', 'lo < last_knot(l) && hi', 'lo <= last_knot(l) && hi'),
    ('lo below first', 'return first_knot(l) <= lo && lo', 'return lo'),
    ('lo = first refused', 'return first_knot(l) <= lo && lo', 'return first_knot(l) < lo && lo'),
    ('hi <= lo + period', 'hi - lo <= period(l);', 'hi <= lo + period(l);'),
    ('shorter than the period', 'hi - lo <= period(l);', 'hi - lo < period(l);'),
    ('hi <= last', 'hi - lo <= period(l);', 'hi <= last_knot(l);'),
    ('no length', ' && hi - lo <= period(l);', ';'),
    ('exact length', 'hi - lo <= period(l);', '(long double)hi - lo <= (long double)last_knot(l) - first_knot(l);'),
    ('bounds of an open line', '    if (l->closed)\n        return first_knot', '    if (l->closed && (lo < l->flat[l->degree] || hi > l->flat[l->pole_count] + period(l))) return 0;\n    if (l->closed)\n        return first_knot'),
    ('one turn listed', '    if (l->closed)\n        for (uint32_t i = 1; i < l->knot_count; i++)\n            l->list[n++] = l->knots[i] + period(l);\n', ''),
    ('the first knot comes again', '        for (uint32_t i = 1; i < l->knot_count; i++)\n            l->list[n++] = l->knots[i] + period(l);\n', '        for (uint32_t i = 0; i < l->knot_count && n < MAX_LIST; i++)\n            l->list[n++] = l->knots[i] + period(l);\n'),
    ('first + period for the last knot', '    l->list_count = n;', '    if (l->closed) l->list[l->knot_count - 1] = first_knot(l) + period(l);\n    l->list_count = n;'),
    ('copies by the distance from the first', 'l->list[n++] = l->knots[i] + period(l);', 'l->list[n++] = last_knot(l) + (l->knots[i] - first_knot(l));'),
    ('equal breaks once', 'if (range[0] < l->list[i] && l->list[i] < range[1])', 'if (range[0] < l->list[i] && l->list[i] < range[1] && l->list[i] != breaks[n - 1])'),
    ('rising breaks only', 'if (range[0] < l->list[i] && l->list[i] < range[1])', 'if (range[0] < l->list[i] && l->list[i] < range[1] && l->list[i] >= breaks[n - 1])'),
    ('quotient rounded', 'floor((u - first_knot(l)) / period(l))', 'rint((u - first_knot(l)) / period(l))'),
    ('one turn at most taken off', 'double turns = floor((u - first_knot(l)) / period(l));', 'double turns = u < last_knot(l) ? 0.0 : 1.0;'),
    ('from the first knot', 'u - period(l) * turns);', 'first_knot(l) + fmod(u - first_knot(l), period(l)));'),
    ('the net in the unrolled place', '    if (!l->closed) return t;\n', '    return t;\n'),
    ("the span's start left out", 'return start_unless(l->knots[i], l->knots[i + 1], in_period(l, t));', 'return in_period(l, t);'),
    ("the span's start always", 'return start_unless(l->knots[i], l->knots[i + 1], in_period(l, t));', 'return l->knots[i];'),
    ('the cut by in_period', 'uint32_t i = list_span(l, t);\n    double a', 'uint32_t i = list_span(l, l->closed ? in_period(l, t) : t);\n    double a'),
    ('the cut of the first turn', 'double a = l->list[i], b = l->list[i + 1];', 'double a = l->list[l->closed ? i % (l->knot_count - 1) : i], b = l->list[(l->closed ? i % (l->knot_count - 1) : i) + 1];'),
    ('first + period at the seam', 'if (l->closed && i >= n + m) return', 'if (l->closed && i >= n) return'),
    ('last - period at the seam', 'if (l->closed && i < 0) return l->flat[i + n] - period(l);', 'if (l->closed && i < m) return l->flat[i + n] - period(l);'),
    ('no period before the turn', 'return l->flat[i + n] - period(l);', 'return l->flat[i + n];'),
    ('no period after the turn', 'return l->flat[i - n] + period(l);', 'return l->flat[i - n];'),
    ('turn of all flat knots', 'return l->flat[i - n] + period(l);', 'return l->flat[i - n - m] + period(l);'),
    ('span from the degree', 'uint32_t s = l->closed ? l->mults[0] - 1 : l->degree;', 'uint32_t s = l->degree;'),
    ('poles not rotated', 'l->closed ? s + 1 - (int)l->mults[0] : s - p', 'l->closed ? s : s - p'),
    ('poles rotated by m', 'l->closed ? s + 1 - (int)l->mults[0] : s - p', 'l->closed ? s + (int)l->pole_count - (int)l->mults[0] : s - p'),
    ('poles rotated by the degree', 'l->closed ? s + 1 - (int)l->mults[0] : s - p', 's - p + (l->closed ? (int)l->pole_count : 0)'),
    ('no wrap', '    i %= l->pole_count;\n', ''),
    ('the last pole stays', '    i %= l->pole_count;\n', '    i = i < l->pole_count ? i : l->pole_count - 1;\n'),
    ('weights not wrapped', '    i %= l->pole_count;\n    double w = l->rational ? l->weights[i] : 1.0;', '    double w = l->rational ? l->weights[i] : 1.0;\n    i %= l->pole_count;'),
    ('127 pieces', 'int n = fill_breaks(&s->line[k], breaks);', 'int n = fill_breaks(&s->line[k], breaks);\n        if (n > MAX_KNOTS) return refusal(19, 0);'),
    # stretch marks
    ('a turn of an open line', 'Turn t = { l->closed && range', 'Turn t = { range'),
    ('no whole turn', 'Turn t = { l->closed && range', 'Turn t = { 0 && range'),
    ('every range of a closed line', 'Turn t = { l->closed && range[1] - range[0] == period(l),', 'Turn t = { l->closed,'),
    ('hi = lo + period', 'range[1] - range[0] == period(l),', 'range[1] == range[0] + period(l),'),
    ('lo = hi - period', 'range[1] - range[0] == period(l),', 'range[0] == range[1] - period(l),'),
    ('hi - lo exact', 'range[1] - range[0] == period(l),', '(long double)range[1] - range[0] == (long double)last_knot(l) - first_knot(l),'),
    ('nearly a turn', 'range[1] - range[0] == period(l),', 'fabs(range[1] - range[0] - period(l)) < 1e-12 * period(l),'),
    ('a turn from the first knot only', 'Turn t = { l->closed && range', 'Turn t = { l->closed && range[0] == first_knot(l) && range'),
    ('the seam at the knots', 'period(l), range[0], range[1] };', 'period(l), first_knot(l), last_knot(l) };'),
    ('the seam from the first knot', 'period(l), range[0], range[1] };', 'period(l), first_knot(l), range[1] };'),
    ('the seam to the last knot', 'period(l), range[0], range[1] };', 'period(l), range[0], last_knot(l) };'),
    ('the seam to lo + period', 'period(l), range[0], range[1] };', 'period(l), range[0], range[0] + period(l) };'),
    ('the seam one way', '(a[0] == t->lo && b[1] == t->hi) || (b[0] == t->lo && a[1] == t->hi)', '(a[0] == t->lo && b[1] == t->hi)'),
    ('the seam the other way', '(a[0] == t->lo && b[1] == t->hi) || (b[0] == t->lo && a[1] == t->hi)', '(b[0] == t->lo && a[1] == t->hi)'),
    ('start or end at the seam', '(a[0] == t->lo && b[1] == t->hi) ||', '(a[0] == t->lo || b[1] == t->hi) ||'),
    ('any two that start at lo', '(a[0] == t->lo && b[1] == t->hi) ||', '(a[0] == t->lo && b[0] == t->lo) ||'),
    ('near the seam', '(a[0] == t->lo && b[1] == t->hi) ||', '(a[0] <= t->lo + 0.125 && b[1] == t->hi) ||'),
    ('no seam', 'if (!meet(x, y) && !over_seam(&turn[k], x, y)) return 0;', 'if (!meet(x, y)) return 0;'),
    ('both lines over the seam', 'if (!meet(x, y) && !over_seam(&turn[k], x, y)) return 0;', 'if (!over_seam(&turn[k], x, y)) return 0;'),
    ('both lines over the seam or neither', 'if (!meet(x, y) && !over_seam(&turn[k], x, y)) return 0;', 'if (!meet(x, y) && !(over_seam(&turn[0], a->f, b->f) && over_seam(&turn[1], a->f + 2, b->f + 2))) return 0;'),
    ('one line over the seam', 'if (!meet(x, y) && !over_seam(&turn[k], x, y)) return 0;', 'if (!meet(x, y) && !(over_seam(&turn[k], x, y) && meet(a->f + 2 - 2 * k, b->f + 2 - 2 * k))) return 0;'),
    ('a seam on either line is enough', '    for (int k = 0; k < 2; k++) {\n        const double *x', '    if (over_seam(&turn[0], a->f, b->f) || over_seam(&turn[1], a->f + 2, b->f + 2)) return 1;\n    for (int k = 0; k < 2; k++) {\n        const double *x'),
    ('the first seam for both lines', '!over_seam(&turn[k], x, y)', '!over_seam(&turn[0], x, y)'),
    ('the second seam for both lines', '!over_seam(&turn[k], x, y)', '!over_seam(&turn[1], x, y)'),
    ('the seam of the first line only', '!over_seam(&turn[k], x, y)', '!(k == 0 && over_seam(&turn[k], x, y))'),
    ('the seam of the second line only', '!over_seam(&turn[k], x, y)', '!(k == 1 && over_seam(&turn[k], x, y))'),
    ('neighbours meet openly', 'if (!meet(x, y) && !over', 'if (!(x[0] < y[1] && y[0] < x[1]) && !over'),
    ('neighbours on the first line', '    for (int k = 0; k < 2; k++) {\n        const double *x', '    for (int k = 0; k < 1; k++) {\n        const double *x'),
    ('neighbours on the second line', '    for (int k = 0; k < 2; k++) {\n        const double *x', '    for (int k = 1; k < 2; k++) {\n        const double *x'),
    ('neighbours only', '    close_chains(chained, n);\n', ''),
    ('chains of two', 'for (uint64_t k = 0; k < n; k++)\n        for (uint64_t i = 0; i < n; i++) {\n            if (!chained',
     'for (uint64_t k = n - (n > 0); k < n; k++)\n        for (uint64_t i = 0; i < n; i++) {\n            if (!chained'),
    ('chains through earlier regions', 'for (uint64_t k = 0; k < n; k++)\n        for (uint64_t i = 0; i < n; i++) {\n            if (!chained',
     'for (uint64_t k = 0; k < n; k++)\n        for (uint64_t i = k; i < n; i++) {\n            if (!chained'),
    ('the highest place', 'uint32_t lowest = 0;\n        while (!chained[i * n + lowest]) lowest++;', 'uint32_t lowest = (uint32_t)n - 1;\n        while (!chained[i * n + lowest]) lowest--;'),
    ('counted from 1', '        marks[i] = lowest;\n', '        marks[i] = lowest + 1;\n'),
    ('groups numbered', '        marks[i] = lowest;\n', '        marks[i] = 0;\n        for (uint32_t k = 0; k < lowest; k++) marks[i] += marks[k] == k || k == 0 || !chained[k * n];\n'),
    ('the place for the mark', '        marks[i] = lowest;\n', '        marks[i] = (uint32_t)i;\n'),
    ('places before sorting', '    sort_regions(s->report, n);\n    mark_regions(s->turn, s->report, n, s->marks);\n', '    mark_regions(s->turn, s->report, n, s->marks);\n    sort_regions(s->report, n);\n'),
    ('groups counted as regions', '    print_result(s, report(s));',
     '    { uint64_t n = report(s), groups = 0;\n      for (uint64_t i = 0; i < n; i++) groups += s->marks[i] == i;\n      print_result(s, groups); }'),
    # tags
    ('plane said for box', 'gap)) return BY_BOX;', 'gap)) return BY_PLANE;'),
    ('line said for box', 'gap)) return BY_BOX;', 'gap)) return BY_LINE;'),
    ('box said for plane', 'if (separated(a, b, gap)) return BY_PLANE;', 'if (separated(a, b, gap)) return BY_BOX;'),
    ('line said for plane', 'if (separated(a, b, gap)) return BY_PLANE;', 'if (separated(a, b, gap)) return BY_LINE;'),
    ('box said for line', '? BY_LINE : UNSEPARATED;', '? BY_BOX : UNSEPARATED;'),
    ('plane said for line', '? BY_LINE : UNSEPARATED;', '? BY_PLANE : UNSEPARATED;'),
    ('plane tested before box', '    if (boxes_apart(a->box, b->box, gap)) return BY_BOX;\n    if (separated(a, b, gap)) return BY_PLANE;\n',
     '    if (separated(a, b, gap)) return BY_PLANE;\n    if (boxes_apart(a->box, b->box, gap)) return BY_BOX;\n'),
    ('line tested before plane', '    if (separated(a, b, gap)) return BY_PLANE;\n',
     '    if (along_one_line(a, b, gap, &axis) && apart_along(axis, a, b, gap)) return BY_LINE;\n    if (separated(a, b, gap)) return BY_PLANE;\n'),
    ('line tested before box', '    if (boxes_apart(a->box, b->box, gap)) return BY_BOX;\n',
     '    if (along_one_line(a, b, gap, &axis) && apart_along(axis, a, b, gap)) return BY_LINE;\n    if (boxes_apart(a->box, b->box, gap)) return BY_BOX;\n'),
    ('the box tag without the gap', 'if (separated(a, b, gap)) return BY_PLANE;', 'if (separated(a, b, gap)) return boxes_apart(a->box, b->box, 0.0) ? BY_BOX : BY_PLANE;'),
    ('the box tag at the gap', 'if (separated(a, b, gap)) return BY_PLANE;', 'if (separated(a, b, gap)) return boxes_apart(a->box, b->box, gap / 2) ? BY_BOX : BY_PLANE;'),
    ('the line tag of a plane along one line', 'if (separated(a, b, gap)) return BY_PLANE;', 'if (separated(a, b, gap)) return along_one_line(a, b, gap, &axis) ? BY_LINE : BY_PLANE;'),
    ('the normal alone is a plane', 'if (separated(a, b, gap)) return BY_PLANE;', 'if (separated(a, b, gap)) return apart_along(cross(chord(a), chord(b)), a, b, gap) ? BY_PLANE : BY_LINE;'),
    ('out of measure settled by box', 'if (!a->measured || !b->measured) return UNSEPARATED;', 'if (!a->measured || !b->measured) return BY_BOX;'),
    ('all counted as box', 's->by[v]++;', 's->by[BY_BOX]++;'),
    ('box uncounted', 's->by[v]++;', 's->by[v] += v != BY_BOX;'),
    ('plane uncounted', 's->by[v]++;', 's->by[v] += v != BY_PLANE;'),
    ('line uncounted', 's->by[v]++;', 's->by[v] += v != BY_LINE;'),
    ('line counted as plane', 's->by[v]++;', 's->by[v == BY_LINE ? BY_PLANE : v]++;'),
    ('every half counted as box', 's->by[v]++;', 's->by[s->depths[2 * top] + s->depths[2 * top + 1] > 0 ? BY_BOX : v]++;'),
    ('box of a node never halved only', 's->by[v]++;', 's->by[v == BY_BOX && s->depths[2 * top] + s->depths[2 * top + 1] > 0 ? BY_PLANE : v]++;'),
    ('given counted as line', '        s->raw[s->given++] = region_of(s, top, hull);\n    }', '        s->raw[s->given++] = region_of(s, top, hull);\n        s->by[BY_LINE]++;\n    }'),
    ('pairs set apart counted as box', 'if (boxes_apart(boxes[0][i], boxes[1][j], s->gap)) continue;', 'if (boxes_apart(boxes[0][i], boxes[1][j], s->gap)) {\n                s->by[BY_BOX]++;\n                continue;\n            }'),
    ('pairs set apart settled by box', 'if (boxes_apart(boxes[0][i], boxes[1][j], s->gap)) continue;', 'if (boxes_apart(boxes[0][i], boxes[1][j], s->gap)) {\n                s->by[BY_BOX]++;\n                s->settled++;\n                continue;\n            }'),
    ("the last sheet's tags kept", '    memset(s->by, 0, sizeof s->by);\n', ''),
    ('no tags', '    if (level >= 103) print_tags(s->by);\n', ''),
    ('tags before settled', 'printf("%s pairs=%lu visits=%lu splits=%lu settled=%lu", verdict_word(s),\n           (unsigned long)s->pairs, (unsigned long)s->visits,\n           (unsigned long)s->splits, (unsigned long)s->settled);\n    if (level >= 103) print_tags(s->by);\n',
     'printf("%s pairs=%lu visits=%lu splits=%lu", verdict_word(s), (unsigned long)s->pairs, (unsigned long)s->visits, (unsigned long)s->splits);\n    print_tags(s->by);\n    printf(" settled=%lu", (unsigned long)s->settled);\n'),
    ('tags after left', '    if (level >= 103) print_tags(s->by);\n    printf(" given=%lu left=%lu regions=%lu\\n", (unsigned long)s->given,\n           (unsigned long)s->waiting, (unsigned long)regions);\n',
     '    printf(" given=%lu left=%lu", (unsigned long)s->given, (unsigned long)s->waiting);\n    print_tags(s->by);\n    printf(" regions=%lu\\n", (unsigned long)regions);\n'),
    ('tags printed last', '    if (level >= 103) print_tags(s->by);\n    printf(" given=%lu left=%lu regions=%lu\\n", (unsigned long)s->given,\n           (unsigned long)s->waiting, (unsigned long)regions);\n',
     '    printf(" given=%lu left=%lu regions=%lu", (unsigned long)s->given, (unsigned long)s->waiting, (unsigned long)regions);\n    print_tags(s->by);\n    printf("\\n");\n'),
    ('tags printed from the last', 'for (int i = 0; i < TAGS; i++)\n        printf(" %s=%lu"', 'for (int i = TAGS - 1; i >= 0; i--)\n        printf(" %s=%lu"'),
    ('names changed over', '{ "box", "plane", "line" }', '{ "box", "line", "plane" }'),
    ('boxes for box', '{ "box", "plane", "line" }', '{ "boxes", "plane", "line" }'),
    ('tags over 0 only', 'for (int i = 0; i < TAGS; i++)\n        printf(" %s=%lu"', 'for (int i = 0; i < TAGS; i++)\n        if (by[i]) printf(" %s=%lu"'),
    ('tags of 8 bits', '(unsigned long)by[i]);', '(unsigned long)(by[i] & 0xFF));'),
    ('tags in hexadecimal', 'printf(" %s=%lu", name[i]', 'printf(" %s=%lX", name[i]'),
    # charts (document 02, M-105): the walk
    ('no line after the track gives 2', '    s->chart = level >= 105 && !line_follows(w);\n    if (s->chart) return 0;\n', ''),
    ('no line after the track gives 24 at once', '    if (s->chart) return 0;\n', '    if (s->chart) return 24;\n'),
    ('kind 11 makes no chart', 's->chart = level >= 105 && next_kind(w) == KIND_RANGE;', 's->chart = 0;'),
    ('further lines of a pair sheet passed over', '    if (!s->chart) return 0;\n', '    if (!s->chart) {\n        while (!no && line_follows(w)) no = take_line(w, &s->line[MAX_CHART + 1]);\n        return no;\n    }\n'),
    ('a third line makes a chart', 's->chart = level >= 105 && next_kind(w) == KIND_RANGE;\n    if (!s->chart) return 0;\n    no = take_range(w, &s->line[1]);',
     's->chart = level >= 105 && (next_kind(w) == KIND_RANGE || line_follows(w));\n    if (!s->chart) return 0;\n    if (next_kind(w) == KIND_RANGE) no = take_range(w, &s->line[1]);'),
    ('kind 11 after the track', '    s->chart = level >= 105 && !line_follows(w);\n', '    if (next_kind(w) == KIND_RANGE) no = take_range(w, &s->line[0]);\n    if (no) return no;\n    s->chart = level >= 105 && !line_follows(w);\n'),
    ('kind 11 after the track gives 24', '    s->chart = level >= 105 && !line_follows(w);\n', '    if (next_kind(w) == KIND_RANGE) return 24;\n    s->chart = level >= 105 && !line_follows(w);\n'),
    ('the third line without kind 11', '    return no ? no : take_range(w, l);', '    return no || next_kind(w) != KIND_RANGE ? no : take_range(w, l);'),
    ('no kind 11 gives 3', '    return no ? no : take_range(w, l);', '    return no ? no : next_kind(w) == KIND_RANGE ? take_range(w, l) : 3;'),
    ('count of kind 11', 'int no = take_bare(w, KIND_RANGE);', 'uint32_t count;\n    int no = take_head(w, KIND_RANGE, &count);'),
    ('count of kind 11 of the third line on', '    return no ? no : take_range(w, l);', '    uint32_t count;\n    if (!no) no = take_head(w, KIND_RANGE, &count);\n    return no ? no : take_floats(w, 2, l->range);'),
    ('count of kind 11 gives 3', 'int no = take_bare(w, KIND_RANGE);', 'int no = take_bare(w, KIND_RANGE);\n    if (no == 2 && w->words[w->at - 1] >> 28 == KIND_RANGE) no = 3;'),
    ('count of kind 11 after its floats', '    int no = take_bare(w, KIND_RANGE);\n    return no ? no : take_floats(w, 2, l->range);',
     '    uint32_t count;\n    int no = take_head(w, KIND_RANGE, &count);\n    if (!no) no = take_floats(w, 2, l->range);\n    return no ? no : count ? 2 : 0;'),
    ('kind 11 as a kind of lo and hi by its count', '    int no = take_bare(w, KIND_RANGE);\n', '    uint32_t count;\n    int no = take_head(w, KIND_RANGE, &count);\n    if (!no && count != 0 && count != 2) no = 2;\n'),
    ('kind 11 twice', '    return no ? no : take_floats(w, 2, l->range);', '    if (!no) no = take_floats(w, 2, l->range);\n    return no || next_kind(w) != KIND_RANGE ? no : take_range(w, l);'),
    ('kind 11 before the datum too', '    if (!no) no = take_datum(w, l);\n', '    if (!no && next_kind(w) == KIND_RANGE) no = take_bare(w, KIND_RANGE) ? 2 : take_floats(w, 2, l->range);\n    if (!no) no = take_datum(w, l);\n'),
    ('kind 10 for kind 11', 'KIND_DATUM, KIND_RANGE = 11 };', 'KIND_DATUM, KIND_RANGE };'),
    ('hi before lo', '    return no ? no : take_floats(w, 2, l->range);', '    if (!no) no = take_floats(w, 2, l->range);\n    double lo = l->range[0];\n    l->range[0] = l->range[1];\n    l->range[1] = lo;\n    return no;'),
    ('a closed line is no second line', 'return next_kind(w) == KIND_LINE || next_kind(w) == KIND_CLOSED;', 'return next_kind(w) == KIND_LINE;'),
    ('closed lines end the chart', 'while (!no && line_follows(w)) no = take_chart_line', 'while (!no && next_kind(w) == KIND_LINE) no = take_chart_line'),
    ('64 lines are walked', 'while (!no && line_follows(w)) no = take_chart_line', 'while (!no && line_follows(w) && s->lines <= MAX_CHART) no = take_chart_line'),
    ('65 lines are walked', 'while (!no && line_follows(w)) no = take_chart_line', 'while (!no && line_follows(w) && s->lines <= MAX_CHART + 1) no = take_chart_line'),
    ('the second range of kind 6 read', '    if (!s->chart) memcpy(s->line[1].range', '    if (s->lines > 1) memcpy(s->line[1].range'),
    ('the second range of kind 6 for the last line', '    if (!s->chart) memcpy(s->line[1].range, q + 2, sizeof s->line[1].range);', '    if (s->lines > 1 && s->lines <= MAX_CHART + 1) memcpy(s->line[s->lines - 1].range, q + 2, sizeof s->line[1].range);'),
    ('the second range of kind 6 must be 0, 0', '    if (!s->chart) memcpy', '    if (s->chart && (q[2] != 0.0 || q[3] != 0.0)) return 2;\n    if (!s->chart) memcpy'),
    ('the second range of kind 6 must be finite', '    if (!s->chart) memcpy', '    if (s->chart && !(isfinite(q[2]) && isfinite(q[3]))) return 2;\n    if (!s->chart) memcpy'),
    ('the second range of kind 6 must not fall', '    if (!s->chart) memcpy', '    if (s->chart && q[2] > q[3]) return 2;\n    if (!s->chart) memcpy'),
    ("the track's range for all lines", '    if (!s->chart) memcpy', '    for (uint32_t k = 1; s->chart && k < s->lines && k <= MAX_CHART; k++) memcpy(s->line[k].range, q, sizeof s->line[k].range);\n    if (!s->chart) memcpy'),
    ("the first line's range for all lines", '    if (!s->chart) memcpy', '    for (uint32_t k = 2; k < s->lines && k <= MAX_CHART; k++) memcpy(s->line[k].range, s->line[1].range, sizeof s->line[k].range);\n    if (!s->chart) memcpy'),
    ("the last line's range for the track", '    s->gap = q[4];\n', '    if (s->chart && s->lines > 1 && s->lines <= MAX_CHART + 1) memcpy(s->line[0].range, s->line[s->lines - 1].range, sizeof s->line[0].range);\n    s->gap = q[4];\n'),
    # 24
    ('65 lines', 's->lines <= MAX_CHART + 1);', 's->lines <= MAX_CHART + 2);'),
    ('63 lines', 's->lines <= MAX_CHART + 1);', 's->lines <= MAX_CHART);'),
    ('no lines', '(s->lines >= 2 && s->lines <=', '(s->lines <='),
    ('one line is too few', '(s->lines >= 2 && s->lines <=', '(s->lines > 2 && s->lines <='),
    ('lines counted in 8 bits', '(s->lines >= 2 && s->lines <= MAX_CHART + 1);', '((uint8_t)(s->lines - 1) >= 1 && (uint8_t)(s->lines - 1) <= MAX_CHART);'),
    ('24 before 3', '    if (!no) no = take_question(&w, s);\n', '    if (!no && !chart_fits(s)) return 24;\n    if (!no) no = take_question(&w, s);\n',
     '/* ---- Sheet walk: numbers', 'static int chart_fits(const Sheet *);\n\n/* ---- Sheet walk: numbers'),
    ('24 at the 65th line', 'while (!no && line_follows(w)) no = take_chart_line', 'while (!no && line_follows(w)) no = s->lines > MAX_CHART ? 24 : take_chart_line'),
    ('24 before what follows the end', '    return w->at == w->count ? 0 : 3;', '    return w->at == w->count || s->lines > MAX_CHART + 1 || s->lines < 2 ? 0 : 3;', 'static int take_end(Walk *w)', 'static int take_end(Walk *w, const Sheet *s)', 'no = take_end(&w);', 'no = take_end(&w, s);'),
    ('24 after the admission', '    if (!r.number && !chart_fits(sheet)) r = refusal(24, 0);\n    if (!r.number) r = admit(sheet);\n', '    if (!r.number) r = admit(sheet);\n    if (!r.number && !chart_fits(sheet)) r = refusal(24, 0);\n',
     'for (uint32_t k = 0; k < s->lines; k++) {\n        Line *l', 'for (uint32_t k = 0; k < s->lines && k <= MAX_CHART; k++) {\n        Line *l'),
    ("24 after the track's admission", '    if (!r.number && !chart_fits(sheet)) r = refusal(24, 0);\n', '    if (!r.number && line_fault(&sheet->line[0])) r = refusal(line_fault(&sheet->line[0]), 1);\n    if (!r.number && !chart_fits(sheet)) r = refusal(24, 0);\n'),
    ('24 as 2', 'refusal(24, 0);', 'refusal(2, 0);'),
    ('24 with 1', 'refusal(24, 0);', 'refusal(24, 1);'),
    ('24 with the place of the line too many', 'refusal(24, 0);', 'refusal(24, sheet->lines > 2 ? MAX_CHART + 2 : 0);'),
    # the order of the tests, and places
    ("23 before the line's 14", 'int no = line_fault(l);', 'int no = line_fault(l);\n        if (k > 1 && !one_datum(s->line[0].datum, l->datum)) return refusal(23, k + 1);'),
    ("23 between the line's 13 and 14", 'int no = line_fault(l);', 'int no = line_fault(l);\n        if (k > 1 && no == 14 && !one_datum(s->line[0].datum, l->datum)) return refusal(23, k + 1);'),
    ('23 after all lines', '        if (k > 0 && !one_datum(s->line[0].datum, l->datum))\n            return refusal(23, k + 1);\n', '',
     '        fill_list(l);\n    }\n    return refusal(0, 0);', '        fill_list(l);\n    }\n    for (uint32_t k = 1; k < s->lines; k++)\n        if (!one_datum(s->line[0].datum, s->line[k].datum)) return refusal(23, k + 1);\n    return refusal(0, 0);'),
    ("23 of the track's span before the lines", 'int no = line_fault(l);', 'int no = line_fault(l);\n        if (!no && k == 0 && !datum_in_span(l->datum)) return refusal(23, 2);'),
    ('23 of the first line only', 'if (k > 0 && !one_datum', 'if (k == 1 && !one_datum'),
    ('23 of all lines but the last', 'if (k > 0 && !one_datum', 'if (k > 0 && (k == 1 || k + 1 < s->lines) && !one_datum'),
    ('23 with 2', 'return refusal(23, k + 1);', 'return refusal(23, 2);'),
    ("23 with the track's place", 'return refusal(23, k + 1);', 'return refusal(23, k > 1 ? 1 : 2);'),
    ('23 of a line outside the span is the first', 'one_datum(s->line[0].datum, l->datum)', 'one_datum(k > 1 ? l->datum : s->line[0].datum, l->datum)'),
    ('admission of all lines but the last', 'if (no) return refusal(no, k + 1);', 'if (no && (k < 2 || k + 1 < s->lines)) return refusal(no, k + 1);\n        if (no) memcpy(l, &s->line[0], sizeof *l);'),
    ('the lines before the track', 'if (no) return refusal(no, k + 1);', 'if (no && k == 0)\n            for (uint32_t j = 1; j < s->lines; j++)\n                if (s->chart && line_fault(&s->line[j])) return refusal(line_fault(&s->line[j]), j + 1);\n        if (no) return refusal(no, k + 1);'),
    ('the least number of all lines', 'if (no) return refusal(no, k + 1);', 'for (uint32_t j = k + 1; no && s->lines > 2 && j < s->lines; j++)\n            if (line_fault(&s->line[j]) && line_fault(&s->line[j]) < no) return refusal(line_fault(&s->line[j]), j + 1);\n        if (no) return refusal(no, k + 1);'),
    ("the track's place is 0", 'if (no) return refusal(no, k + 1);', 'if (no) return refusal(no, s->chart && k == 0 ? 0 : k + 1);'),
    ("the track's place is 0 for 15", 'return refusal(15, k + 1);', 'return refusal(15, s->chart && k == 0 ? 0 : k + 1);'),
    ("the track's place is 0 for 18", 'return refusal(18, k + 1);', 'return refusal(18, s->chart && k == 0 ? 0 : k + 1);'),
    ('places of the lines from 1', 'if (no) return refusal(no, k + 1);', 'if (no) return refusal(no, s->chart && k > 0 ? k : k + 1);'),
    ('every line is the second', 'if (no) return refusal(no, k + 1);', 'if (no) return refusal(no, k > 0 ? 2 : 1);'),
    ('every line is the second for 15', 'return refusal(15, k + 1);', 'return refusal(15, k > 0 ? 2 : 1);'),
    ('every line is the second for 18', 'return refusal(18, k + 1);', 'return refusal(18, k > 0 ? 2 : 1);'),
    ('places of one digit', '(unsigned long)r.place);', '(unsigned long)r.place % 10);'),
    ('places of six bits', '(unsigned long)r.place);', '(unsigned long)(r.place & 63));'),
    ('15 of the first line only', '        if (!range_fits(&s->line[k])) return', '        if (k < 2 && !range_fits(&s->line[k])) return'),
    ('15 of all lines but the last', '        if (!range_fits(&s->line[k])) return', '        if ((k < 2 || k + 1 < s->lines) && !range_fits(&s->line[k])) return'),
    ('15 of the lines before the track', 'for (uint32_t k = 0; k < s->lines; k++)\n        if (!range_fits', 'for (uint32_t k = 1; s->chart && k < s->lines; k++)\n        if (!range_fits(&s->line[k])) return refusal(15, k + 1);\n    for (uint32_t k = 0; k < s->lines; k++)\n        if (!range_fits'),
    ('15 to 18 whole for each line', '    double breaks[MAX_BREAKS];\n', '    double breaks[MAX_BREAKS];\n    for (uint32_t k = 0; s->chart && k < s->lines; k++) {\n        if (!range_fits(&s->line[k])) return refusal(15, k + 1);\n        if (k == 0) continue;\n'
     '        if (!within(0.0, s->gap, MAX_GAP)) return refusal(16, 0);\n        if (s->splits_per_pair > MAX_SPLITS) return refusal(17, 0);\n'
     '        if (k == 1 && !breaks_have_middles(breaks, fill_breaks(&s->line[0], breaks))) return refusal(18, 1);\n        if (!breaks_have_middles(breaks, fill_breaks(&s->line[k], breaks))) return refusal(18, k + 1);\n    }\n'),
    ('15 and 18 together for each line', '    for (uint32_t k = 0; k < s->lines; k++)\n        if (!range_fits', '    for (uint32_t k = 0; s->chart && k < s->lines; k++) {\n        if (!range_fits(&s->line[k])) return refusal(15, k + 1);\n'
     '        if (!breaks_have_middles(breaks, fill_breaks(&s->line[k], breaks))) return refusal(18, k + 1);\n    }\n    for (uint32_t k = 0; k < s->lines; k++)\n        if (!range_fits'),
    ('all tests of a line before the next', '        fill_list(l);\n    }\n    return', '        fill_list(l);\n        if (s->chart && k > 0) {\n            Sheet *one = malloc(sizeof *one);\n            Refusal r;\n            *one = *s;\n            one->lines = 2;\n            one->line[1] = *l;\n'
     '            r = ask(one);\n            free(one);\n            if (r.number) return refusal(r.number, r.place == 2 ? k + 1 : r.place);\n        }\n    }\n    return', 'static Refusal admit(', 'static Refusal ask(const Sheet *);\n\nstatic Refusal admit('),
    ("15 with the line's admission", '        fill_flat(l);\n        fill_list(l);\n    }\n    return', '        fill_flat(l);\n        fill_list(l);\n        if (s->chart && !range_fits(l)) return refusal(15, k + 1);\n    }\n    return'),
    ("16 and 17 between the track's 15 and the lines'", '        if (!range_fits(&s->line[k])) return', '        if (s->chart && k == 1 && !within(0.0, s->gap, MAX_GAP)) return refusal(16, 0);\n        else if (s->chart && k == 1 && s->splits_per_pair > MAX_SPLITS) return refusal(17, 0);\n        else if (!range_fits(&s->line[k])) return'),
    ("16 and 17 before the third line's 15", '        if (!range_fits(&s->line[k])) return', '        if (k == 2 && !within(0.0, s->gap, MAX_GAP)) return refusal(16, 0);\n        else if (k == 2 && s->splits_per_pair > MAX_SPLITS) return refusal(17, 0);\n        else if (!range_fits(&s->line[k])) return'),
    ('18 of the first line only', '        if (!breaks_have_middles(breaks, n)) return', '        if (k < 2 && !breaks_have_middles(breaks, n)) return'),
    ('18 of all lines but the last', '        if (!breaks_have_middles(breaks, n)) return', '        if ((k < 2 || k + 1 < s->lines) && !breaks_have_middles(breaks, n)) return'),
    ("18 of the lines before the track's", '    for (uint32_t k = 0; k < s->lines; k++) {\n        int n', '    for (uint32_t k = 1; s->chart && k < s->lines; k++)\n        if (!breaks_have_middles(breaks, fill_breaks(&s->line[k], breaks))) return refusal(18, k + 1);\n    for (uint32_t k = 0; k < s->lines; k++) {\n        int n'),
    ('18 with a 0', 'return refusal(18, k + 1);', 'return refusal(18, s->chart ? 0 : k + 1);'),
    # 19
    ('19 of no line is found first', 'if (open_search(s, sheet, k)) return refusal(19, 0);', 'if (!sheet->chart && open_search(s, sheet, k)) return refusal(19, 0);',
     '    open_search(s, sheet, k);\n    while', '    if (open_search(s, sheet, k)) {\n        printf("refused 19 0\\n");\n        return 0;\n    }\n    while'),
    ('19 of the first line is found first', 'if (open_search(s, sheet, k)) return refusal(19, 0);', 'if (k == 1 && open_search(s, sheet, k)) return refusal(19, 0);',
     '    open_search(s, sheet, k);\n    while', '    if (open_search(s, sheet, k)) {\n        printf("refused 19 0\\n");\n        return 0;\n    }\n    while'),
    ('a line without room left out', 'if (open_search(s, sheet, k)) return refusal(19, 0);', 'if (k == 1 && open_search(s, sheet, k)) return refusal(19, 0);',
     '    open_search(s, sheet, k);\n    while', '    if (open_search(s, sheet, k)) return 1;\n    while'),
    ('19 of the last line is found first', 'if (open_search(s, sheet, k)) return refusal(19, 0);', 'if (k + 1 == sheet->lines && open_search(s, sheet, k)) return refusal(19, 0);',
     '    open_search(s, sheet, k);\n    while', '    if (open_search(s, sheet, k)) {\n        printf("refused 19 0\\n");\n        return 0;\n    }\n    while'),
    ("19 with the line's place", 'return refusal(19, 0);', 'return refusal(19, sheet->chart ? k + 1 : 0);'),
    ("19 before the next line's 18", '    if (!r.number) r = ask(sheet);\n    if (!r.number) r = find_room(sheet, s);\n',
     '    if (!r.number) r = ask(sheet);\n    for (uint32_t k = 1; sheet->chart && r.number == 18 && k + 1 < r.place; k++)\n        if (open_search(s, sheet, k)) r = refusal(19, 0);\n    if (!r.number) r = find_room(sheet, s);\n'),
    ("19 before the next line's 15", '    if (!r.number) r = ask(sheet);\n    if (!r.number) r = find_room(sheet, s);\n',
     '    if (!r.number) r = ask(sheet);\n    for (uint32_t k = 1; sheet->chart && r.number == 15 && k + 1 < r.place; k++)\n        if (open_search(s, sheet, k)) r = refusal(19, 0);\n    if (!r.number) r = find_room(sheet, s);\n'),
    ('pairs of all lines together', '    for (uint32_t k = 1; k < sheet->lines; k++)\n        if (open_search(s, sheet, k)) return refusal(19, 0);\n',
     '    uint64_t all = 0;\n    for (uint32_t k = 1; k < sheet->lines; k++)\n        if (open_search(s, sheet, k) || (all += s->pairs) > 12) return refusal(19, 0);\n'),
    ('regions of all lines together', '    for (uint32_t k = 1; k < sheet->lines; k++)\n        if (open_search(s, sheet, k)) return refusal(19, 0);\n',
     '    uint64_t all = 0;\n    for (uint32_t k = 1; k < sheet->lines; k++)\n        if (open_search(s, sheet, k) || (all += s->pairs * (sheet->splits_per_pair + 1)) > LENT_MARKS) return refusal(19, 0);\n'),
    # reports and the last line
    ('one complete report is enough', 'int complete = 1;', 'int complete = 0;', 'complete &= print_report', 'complete |= print_report'),
    ('the first report decides', 'complete &= print_report(&sheet, &search, k);', 'complete &= print_report(&sheet, &search, k) || k > 1;'),
    ('the last report decides', 'complete &= print_report', 'complete = print_report'),
    ('out of allowance is complete', 'return s->waiting == 0 && s->given == 0;', 'return s->given == 0;'),
    ('given up is complete', 'return s->waiting == 0 && s->given == 0;', 'return s->waiting == 0;'),
    ('no pairs is incomplete', 'return s->waiting == 0 && s->given == 0;', 'return s->waiting == 0 && s->given == 0 && s->pairs > 0;'),
    ('complete without splits', 'return s->waiting == 0 && s->given == 0;', 'return s->splits == 0 && s->given == 0;'),
    ('always complete', 'complete ? "complete" : "incomplete"', 'complete || 1 ? "complete" : "incomplete"'),
    ('always incomplete', 'complete ? "complete" : "incomplete"', 'complete && 0 ? "complete" : "incomplete"'),
    ('no last line', '    if (sheet.chart) printf("chart %s\\n", complete ? "complete" : "incomplete");\n', ''),
    ('no last line of one line', 'if (sheet.chart) printf("chart', 'if (sheet.chart && sheet.lines > 2) printf("chart'),
    ('a last line of a pair', 'if (sheet.chart) printf("chart', 'printf("chart'),
    ('the last line first', '    if (sheet.chart) printf("chart %s\\n", complete ? "complete" : "incomplete");\n', '',
     '    for (uint32_t k = 1; k < sheet.lines; k++)\n        complete', '    for (uint32_t k = 1; k < sheet.lines; k++) {\n        open_search(&search, &sheet, k);\n        while (!search.ended) step(&search);\n'
     '        complete &= search.waiting == 0 && search.given == 0;\n    }\n    if (sheet.chart) printf("chart %s\\n", complete ? "complete" : "incomplete");\n    for (uint32_t k = 1; k < sheet.lines; k++)\n        complete'),
    ('"chart budget"', '"complete" : "incomplete"', '"complete" : "budget"'),
    ('the last line without "chart"', 'printf("chart %s\\n"', 'printf("%s\\n"'),
    ('reports from the last', 'complete &= print_report(&sheet, &search, k);', 'complete &= print_report(&sheet, &search, sheet.lines - k);'),
    ('the reports end at one that is not complete', 'complete &= print_report(&sheet, &search, k);', 'if (complete) complete &= print_report(&sheet, &search, k);'),
    ('no report without pairs', '    print_result(s, report(s));', '    if (!sheet->chart || s->pairs > 0) print_result(s, report(s));'),
    ('no report of a complete line', '    print_result(s, report(s));', '    if (!sheet->chart || s->given + s->waiting > 0) print_result(s, report(s));'),
    ('a blank line between the reports', 'complete &= print_report(&sheet, &search, k);', '{\n            if (k > 1) printf("\\n");\n            complete &= print_report(&sheet, &search, k);\n        }'),
    ('a head before each report', '    print_result(s, report(s));', '    if (sheet->chart) printf("line %lu\\n", (unsigned long)k + 1);\n    print_result(s, report(s));'),
    ('the opening that was tested last kept for the first line', '    open_search(s, sheet, k);\n    while', '    if (k > 1) open_search(s, sheet, k);\n    while'),
    ('the first line searched for all', '    open_search(s, sheet, k);\n    while', '    open_search(s, sheet, 1);\n    while'),
    ('each line against the one before', 'const Line *l = &sheet->line[i == 0 ? 0 : k];', 'const Line *l = &sheet->line[i == 0 ? k - 1 : k];'),
    ('the line before the track', 'const Line *l = &sheet->line[i == 0 ? 0 : k];', 'const Line *l = &sheet->line[sheet->chart ? (i == 0 ? k : 0) : i];'),
    ("the first line's turn for all", 's->turn[i] = turn_of(l);', 's->turn[i] = turn_of(&sheet->line[i]);'),
    ('one allowance for the chart', 's->unspent = sheet->splits_per_pair * s->pairs;', 's->unspent = k == 1 ? sheet->splits_per_pair * s->pairs : s->unspent;', 'if (!r.number) r = find_room(sheet, s);', 'if (!r.number) r = find_room(sheet, s);\n    s->unspent = 0;'),
    ("the first line's allowance for each", 's->unspent = sheet->splits_per_pair * s->pairs;', 'static uint64_t first;\n    if (k == 1) first = s->pairs;\n    s->unspent = sheet->splits_per_pair * first;'),
    ('counts go on', '    s->visits = s->splits = s->settled = s->given = s->waiting = 0;\n', '    if (k == 1) s->visits = 0;\n    s->splits = s->settled = s->given = s->waiting = 0;\n'),
    ('marks go on', '(unsigned long)s->marks[i]);\n        printf("\\n");\n    }\n', '(unsigned long)s->marks[i] + before);\n        printf("\\n");\n    }\n    before += regions;\n',
     'static void print_result', 'static uint64_t before;\n\nstatic void print_result', '    int complete = 1;\n', '    int complete = 1;\n    before = 0;\n'),
    # printing
    ('no mark', 'if (level >= 101) printf(" %lu", (unsigned long)s->marks[i]);', ''),
    ('mark without a space', 'printf(" %lu", (unsigned long)s->marks[i]);', 'printf("%lu", (unsigned long)s->marks[i]);'),
    ('mark in hexadecimal', 'printf(" %lu", (unsigned long)s->marks[i]);', 'printf(" %lX", (unsigned long)s->marks[i]);'),
    ('mark with three digits', 'printf(" %lu", (unsigned long)s->marks[i]);', 'printf(" %03lu", (unsigned long)s->marks[i]);'),
    ('mark of two digits', 'printf(" %lu", (unsigned long)s->marks[i]);', 'printf(" %lu", (unsigned long)s->marks[i] % 100);'),
    ('mark of the next region', '(unsigned long)s->marks[i]);', '(unsigned long)s->marks[i + 1 < regions ? i + 1 : i]);'),
    ('-0 printed', '    if (x == 0.0) bits = 0;\n', ''),
    ('unseparated before budget', 'if (s->waiting > 0) return "budget";\n    return s->given > 0 ? "unseparated" : "complete";',
     'if (s->given > 0) return "unseparated";\n    return s->waiting > 0 ? "budget" : "complete";'),
]

# Mistakes that no sheet can show, each with the reason.
ALIKE = [
    # a middle lies above lo, which is not below the first knot
    ('floor of a negative cut to 0', 'double turns = floor((u - first_knot(l)) / period(l));', 'double turns = trunc((u - first_knot(l)) / period(l));'),
    # the three sum to settled
    ('line as what remains', 's->by[v]++;', 's->by[BY_LINE] = s->settled - (s->by[BY_BOX] += v == BY_BOX) - (s->by[BY_PLANE] += v == BY_PLANE);'),
    # the boxes of a pushed pair aren't apart, and its nets stay until it is halved
    ('box only of halves', 's->by[v]++;', 's->by[v == BY_BOX && s->depths[2 * top] + s->depths[2 * top + 1] == 0 ? BY_PLANE : v]++;'),
    # equal data are within the span together
    ('span of the first datum alone', 'return datum_in_span(first) && datum_in_span(second) && first == second;', 'return datum_in_span(first) && first == second;'),
    # every line before has the track's datum
    ('23 against the line before', 'one_datum(s->line[0].datum, l->datum)', 'one_datum(s->line[k - 1].datum, l->datum)'),
    # a third line of a pair sheet has no range before it: 2, as kind 11 missing is
    ('a third line for kind 11', 's->chart = level >= 105 && next_kind(w) == KIND_RANGE;', 's->chart = level >= 105 && (next_kind(w) == KIND_RANGE || line_follows(w));'),
    # place takes the span's start for any value outside the span, so for any outside the turn
    ('in_period without "first where"', 'return start_unless(first_knot(l), last_knot(l), u - period(l) * turns);', 'return u - period(l) * turns;'),
]


def edited(text, name, pairs):
    for old, new in zip(pairs[::2], pairs[1::2]):
        if text.count(old) != 1:
            sys.exit('%s: the text is there %d times' % (name, text.count(old)))
        text = text.replace(old, new)
    return text


def build(text, folder, name):
    source, program = os.path.join(folder, name + '.c'), os.path.join(folder, name)
    with open(source, 'w') as f:
        f.write(text)
    subprocess.run(['cc', '-O1', '-std=c99', '-ffp-contract=off', '-w', '-o', program, source, '-lm'], check=True)
    return program


def answers(program, data):
    try:
        done = subprocess.run([program, '--many'], input=data, stdout=subprocess.PIPE, timeout=60)
    except subprocess.TimeoutExpired:
        return None
    return done.stdout


def shown(program, data, right):
    """The number of the first sheet that the program answers otherwise, or None."""
    got = answers(program, data)
    if got == right:
        return None
    pairs = zip((got or b'').split(b'---\n'), right.split(b'---\n'))
    return next((i for i, (a, b) in enumerate(pairs) if a != b), -1)


def stored(folders):
    listed = [d for folder in folders for d in sheet_text.file_sheets(os.path.join(folder, 'sheets.txt'))]
    return b''.join(sheets.packed(d) for d in listed)


def generated(seed, count):
    listed = [d for _, d in sheets.drawn_up_to(106)]
    listed += [d for _, d in sheets.random_sheets(seed, count, 106)]
    return b''.join(sheets.packed(d) for d in listed)


def main(args):
    where = args[:1] == ['--where']
    args = args[1:] if where else args
    if args[:1] == ['--random'] and len(args) == 3:
        data = generated(int(args[1]), int(args[2]))
    elif args and args[0] != '--random':
        data = stored(args)
    else:
        sys.exit(__doc__)
    with open(os.path.join(HERE, 'clearance.c')) as f:
        text = f.read()
    bad = 0
    with tempfile.TemporaryDirectory() as folder:
        right = answers(build(text, folder, 'right'), data)
        for i, (name, *pairs) in enumerate(EDITS + ALIKE):
            at = shown(build(edited(text, name, pairs), folder, 'e%d' % i), data, right)
            if (at is None) == (i < len(EDITS)):
                print(('not seen: ' if at is None else 'seen, by sheet %d: ' % at) + name)
                bad += 1
            elif where:
                print('%s: %s' % (name, 'no sheet' if at is None else 'sheet %d' % at))
    print('%d edits, and %d that no sheet can show: %d not so' % (len(EDITS), len(ALIKE), bad))
    return 1 if bad else 0


if __name__ == '__main__':
    sys.exit(main(sys.argv[1:]))
