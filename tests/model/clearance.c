/*
 * The sheet program of document 01 with document 02's M-100, M-101 and M-103
 * to M-106: two B-splines, open or closed, of one datum, a stretch of
 * each and a gap; the answer is a verdict with counts, of the settled nodes by
 * the test that cleared them too, and the regions that could not be cleared,
 * each with its stretch mark, or a refusal with its number. Of a chart, a track
 * and up to 64 lines, the answer has such a report for each line and a last
 * line.
 *
 *   clearance < SHEET            prints the answer
 *   clearance --pieces < SHEET   the answer, then the net of every piece
 *   clearance --many             sheets one after the other on standard input,
 *                                each a 32-bit little-endian length and that
 *                                many bytes; each answer ends with a line ---
 *   clearance --level L ...      at a level of document 02: below 105 there is
 *                                no chart, below 104 a sheet's lines have no
 *                                datum, and the answer is below 103 without
 *                                box=, plane= and line=, below 101 without marks;
 *                                depths are M-106's at each level
 *
 * Build: cc -O2 -std=c99 -ffp-contract=off -o clearance clearance.c -lm
 *
 * Every sum, difference, product and quotient is one IEEE 754 double operation
 * in the order of the Rust source; sqrt is the correctly rounded root.
 * "01" in a comment is document 01 (01-scope.md), with the module's name;
 * "02" is document 02 (02-change-requests.md), paragraph M-100 where no other
 * is named.
 */
#include <float.h>
#include <math.h>
#include <stdint.h>
#include <stdio.h>
#include <stdlib.h>
#include <string.h>

#if FLT_EVAL_METHOD != 0
#error "each double operation must round to double"
#endif

/* 01, table: the limits of a line, a question and a sheet. */
enum {
    MAX_BYTES = 16384,
    MAX_WORDS = MAX_BYTES / 4,
    MAX_DEGREE = 25,
    MAX_WIDTH = MAX_DEGREE + 1,
    MAX_KNOTS = 128,
    MAX_POLES = 128,
    MAX_LIST = 2 * MAX_KNOTS - 1, /* knots of a closed line, two turns */
    MAX_PIECES = MAX_LIST,        /* the first knot is never strictly between */
    MAX_BREAKS = MAX_PIECES + 1,
    MAX_SPLITS = 256,
    MAX_DEPTH = 32, /* 02, M-106: of each line */
    MAX_DATUM = 9999, /* 02, M-104 */
    MAX_CHART = 64    /* 02, M-105: lines after the track */
};
#define MAX_KNOT 1048576.0           /* 2^20 */
#define MAX_COORDINATE 16777216.0    /* 2^24 */
#define MAX_GAP 16777216.0           /* 2^24 */
#define MAX_MEASURE 33554432.0       /* 2^25 */
#define MIN_WEIGHT 0.0009765625      /* 2^-10 */
#define MAX_WEIGHT 1024.0            /* 2^10 */

/* 01, Sheet program: the memory lent to the search, in floats (depths and
 * marks in words); pieces and nets for each line. */
enum {
    LENT_PIECES = 8112,
    LENT_NETS = 7904,
    LENT_RANGES = 304,
    LENT_DEPTHS = 152, /* 02, M-106: "two a node, 152 from the sheet program" */
    LENT_REGIONS = 8190,
    LENT_MARKS = LENT_REGIONS / 10 /* 02, M-101: "the sheet program lends 819" */
};

typedef struct {
    int closed;
    uint32_t degree;
    uint32_t knot_count, mult_count, pole_count, weight_count;
    int rational; /* whether the sheet gives weights */
    double knots[MAX_WORDS / 2];
    uint32_t mults[MAX_WORDS];
    double poles[MAX_WORDS / 2]; /* x, y, z of each pole */
    double weights[MAX_WORDS / 2];
    uint32_t datum;
    double range[2]; /* the asked lo and hi */
    /* once admitted: */
    double flat[MAX_POLES + MAX_WIDTH]; /* knots with repeats */
    double list[MAX_LIST];              /* knots of a closed line, two turns */
    uint32_t list_count;
} Line;

typedef struct {
    int chart;
    uint32_t lines;           /* the first, or the track, and all after it */
    Line line[MAX_CHART + 2]; /* what a chart has too many goes into the last */
    uint32_t splits_per_pair;
    double gap;
} Sheet;

/* ---- Floats: least and greatest skip a NaN (01, Floats) ---------------- */

static double least(double x, double y)
{
    if (x != x) return y;
    if (y != y) return x;
    return y < x ? y : x;
}

static double greatest(double x, double y)
{
    if (x != x) return y;
    if (y != y) return x;
    return y > x ? y : x;
}

static int within(double lo, double x, double hi)
{
    return lo <= x && x <= hi;
}

/* ---- Sheet walk: numbers 1, 2 and 3 (01, table and Sheet program) ------ */

/* The level of document 02 whose sheets are read and answers printed. */
static int level = 106;

enum { KIND_LINE = 1, KIND_KNOTS, KIND_MULTS, KIND_POLES, KIND_WEIGHTS,
       KIND_QUESTION, KIND_END, KIND_CLOSED, KIND_DATUM, KIND_RANGE = 11 };

typedef struct {
    const uint32_t *words;
    uint32_t count; /* words of the sheet */
    uint32_t at;    /* the next word */
} Walk;

/* The kind of the next word, or 0, which none of those above is, at the end. */
static uint32_t next_kind(const Walk *w)
{
    return w->at == w->count ? 0 : w->words[w->at] >> 28;
}

/* Takes the next word, which must be of `kind`, and its count. */
static int take_head(Walk *w, uint32_t kind, uint32_t *count)
{
    if (w->at == w->count) return 3;
    if (w->words[w->at] >> 28 != kind) return 2;
    *count = w->words[w->at++] & 0x0FFFFFFF;
    return 0;
}

/* Takes the next word, which must be of `kind` with a count of 0. */
static int take_bare(Walk *w, uint32_t kind)
{
    uint32_t count = 0;
    int no = take_head(w, kind, &count);
    return count == 0 ? no : 2;
}

static int take_words(Walk *w, uint64_t n, uint32_t *out)
{
    if (w->count - w->at < n) return 3;
    memcpy(out, w->words + w->at, n * sizeof *out);
    w->at += (uint32_t)n;
    return 0;
}

/* Takes n floats, the low word first. */
static int take_floats(Walk *w, uint64_t n, double *out)
{
    if (w->count - w->at < 2 * n) return 3;
    for (uint64_t i = 0; i < n; i++, w->at += 2) {
        uint64_t bits = (uint64_t)w->words[w->at + 1] << 32 | w->words[w->at];
        memcpy(out + i, &bits, sizeof bits);
    }
    return 0;
}

/* The weights, which may be absent; a count of 0 is number 2. */
static int take_weights(Walk *w, Line *l)
{
    l->rational = 0;
    l->weight_count = 0;
    if (w->at == w->count) return 3;
    if (w->words[w->at] >> 28 != KIND_WEIGHTS) return 0;
    l->rational = 1;
    take_head(w, KIND_WEIGHTS, &l->weight_count);
    if (l->weight_count == 0) return 2;
    return take_floats(w, l->weight_count, l->weights);
}

/* 02: "kind 8 in the place of kind 1, its count the degree". */
static int take_degree(Walk *w, Line *l)
{
    l->closed = next_kind(w) == KIND_CLOSED;
    return take_head(w, l->closed ? KIND_CLOSED : KIND_LINE, &l->degree);
}

/* 02, M-104: "kind 9 after its poles and weights, the count a datum number". */
static int take_datum(Walk *w, Line *l)
{
    l->datum = 1;
    return level >= 104 ? take_head(w, KIND_DATUM, &l->datum) : 0;
}

static int take_line(Walk *w, Line *l)
{
    int no = take_degree(w, l);
    if (!no) no = take_head(w, KIND_KNOTS, &l->knot_count);
    if (!no) no = take_floats(w, l->knot_count, l->knots);
    if (!no) no = take_head(w, KIND_MULTS, &l->mult_count);
    if (!no) no = take_words(w, l->mult_count, l->mults);
    if (!no) no = take_head(w, KIND_POLES, &l->pole_count);
    if (!no) no = take_floats(w, 3 * (uint64_t)l->pole_count, l->poles);
    if (!no) no = take_weights(w, l);
    if (!no) no = take_datum(w, l);
    return no;
}

static int line_follows(const Walk *w)
{
    return next_kind(w) == KIND_LINE || next_kind(w) == KIND_CLOSED;
}

/* The place of the next line of the sheet. */
static Line *next_line(Sheet *s)
{
    uint32_t k = s->lines++;
    return &s->line[k <= MAX_CHART ? k : MAX_CHART + 1];
}

/* 02, M-105: "a kind 11 word after its kind 9, count 0 (else 2), followed by lo
 * and hi". */
static int take_range(Walk *w, Line *l)
{
    int no = take_bare(w, KIND_RANGE);
    return no ? no : take_floats(w, 2, l->range);
}

static int take_chart_line(Walk *w, Line *l)
{
    int no = take_line(w, l);
    return no ? no : take_range(w, l);
}

/* 02, M-105: "A sheet is a chart if a kind 11 word follows its second line, or
 * if no line follows the track." */
static int take_lines(Walk *w, Sheet *s)
{
    int no;
    s->lines = 0;
    no = take_line(w, next_line(s));
    if (no) return no;
    s->chart = level >= 105 && !line_follows(w);
    if (s->chart) return 0;
    no = take_line(w, next_line(s));
    if (no) return no;
    s->chart = level >= 105 && next_kind(w) == KIND_RANGE;
    if (!s->chart) return 0;
    no = take_range(w, &s->line[1]);
    while (!no && line_follows(w)) no = take_chart_line(w, next_line(s));
    return no;
}

/* 02, M-105: "kind 6 keeps the track's range with its second range given as 0, 0
 * and unread". */
static int take_question(Walk *w, Sheet *s)
{
    double q[5];
    int no = take_head(w, KIND_QUESTION, &s->splits_per_pair);
    if (!no) no = take_floats(w, 5, q);
    if (no) return no;
    memcpy(s->line[0].range, q, sizeof s->line[0].range);
    if (!s->chart) memcpy(s->line[1].range, q + 2, sizeof s->line[1].range);
    s->gap = q[4];
    return 0;
}

static int take_end(Walk *w)
{
    int no = take_bare(w, KIND_END);
    if (no) return no;
    return w->at == w->count ? 0 : 3;
}

/* Reads the sheet, or gives the number of the first fault met. */
static int walk_sheet(const unsigned char *bytes, size_t length, Sheet *s)
{
    static uint32_t words[MAX_WORDS];
    Walk w = { words, (uint32_t)(length / 4), 0 };
    int no;

    if (length == 0 || length % 4 != 0 || length > MAX_BYTES) return 1;
    for (size_t i = 0; i < w.count; i++) {
        const unsigned char *b = bytes + 4 * i;
        words[i] = (uint32_t)b[0] | (uint32_t)b[1] << 8 | (uint32_t)b[2] << 16
                 | (uint32_t)b[3] << 24;
    }
    no = take_lines(&w, s);
    if (!no) no = take_question(&w, s);
    if (!no) no = take_end(&w);
    return no;
}

/* ---- Admission of a line: numbers 4 to 14 and 22 (01, table; 02) ------- */

static int knots_in_limits(const Line *l)
{
    for (uint32_t i = 0; i < l->knot_count; i++)
        if (!within(-MAX_KNOT, l->knots[i], MAX_KNOT)) return 0;
    return 1;
}

static int knots_rise(const Line *l)
{
    for (uint32_t i = 1; i < l->knot_count; i++)
        if (!(l->knots[i] > l->knots[i - 1])) return 0;
    return 1;
}

/* 02: "equal end multiplicities". */
static int ends_alike(const Line *l)
{
    return l->mults[0] == l->mults[l->mult_count - 1];
}

/* 02 of a closed line: "none above the degree". */
static int mults_in_limits(const Line *l)
{
    for (uint32_t i = 0; i < l->mult_count; i++) {
        int end = !l->closed && (i == 0 || i == l->mult_count - 1);
        if (l->mults[i] > (end ? l->degree + 1 : l->degree)) return 0;
    }
    return 1;
}

static int mults_above_zero(const Line *l)
{
    for (uint32_t i = 0; i < l->mult_count; i++)
        if (l->mults[i] == 0) return 0;
    return 1;
}

/* 02 of a closed line: "poles = sum - last multiplicity". */
static int pole_count_fits(const Line *l)
{
    int64_t sum = 0;
    for (uint32_t i = 0; i < l->mult_count; i++) sum += l->mults[i];
    if (l->closed)
        return (int64_t)l->pole_count == sum - l->mults[l->mult_count - 1];
    return (int64_t)l->pole_count == sum - l->degree - 1;
}

static int all_within(double lo, const double *x, uint32_t n, double hi)
{
    for (uint32_t i = 0; i < n; i++)
        if (!within(lo, x[i], hi)) return 0;
    return 1;
}

/* The number that refuses the line, or 0. Each test reads the whole line
 * before the next one. */
static int line_fault(const Line *l)
{
    uint32_t n = l->knot_count;
    if (l->degree < 1 || l->degree > MAX_DEGREE) return 4;
    if (n < 2 || n > MAX_KNOTS || l->mult_count != n) return 5;
    if (!knots_in_limits(l)) return 6;
    if (!knots_rise(l)) return 7;
    if (l->closed && !ends_alike(l)) return 22;
    if (!mults_in_limits(l)) return 8;
    if (!mults_above_zero(l)) return 9;
    if (!pole_count_fits(l)) return 10;
    if (l->pole_count < l->degree + 1 || l->pole_count > MAX_POLES) return 11;
    if (l->rational) {
        if (l->weight_count != l->pole_count) return 12;
        if (!all_within(MIN_WEIGHT, l->weights, l->weight_count, MAX_WEIGHT))
            return 13;
    }
    if (!all_within(-MAX_COORDINATE, l->poles, 3 * l->pole_count,
                    MAX_COORDINATE))
        return 14;
    return 0;
}

/* 02, M-104: 23 "when either number is outside that span or the two differ". */
static int datum_in_span(uint32_t datum)
{
    return 1 <= datum && datum <= MAX_DATUM;
}

static int one_datum(uint32_t first, uint32_t second)
{
    return datum_in_span(first) && datum_in_span(second) && first == second;
}

/* The knots with repeats (flat_knots). */
static void fill_flat(Line *l)
{
    uint32_t n = 0;
    for (uint32_t i = 0; i < l->knot_count; i++)
        for (uint32_t m = 0; m < l->mults[i]; m++) l->flat[n++] = l->knots[i];
}

/* A closed line's first and last knot, and the length between. */
static double first_knot(const Line *l)
{
    return l->knots[0];
}

static double last_knot(const Line *l)
{
    return l->knots[l->knot_count - 1];
}

static double period(const Line *l)
{
    return last_knot(l) - first_knot(l);
}

/* The knots, one each; 02 of a closed line: "After the last knot each knot but
 * the first comes again, at knot + period rounded". */
static void fill_list(Line *l)
{
    uint32_t n = 0;
    for (uint32_t i = 0; i < l->knot_count; i++) l->list[n++] = l->knots[i];
    if (l->closed)
        for (uint32_t i = 1; i < l->knot_count; i++)
            l->list[n++] = l->knots[i] + period(l);
    l->list_count = n;
}

/* ---- Question: numbers 15 to 18 (01, table) ---------------------------- */

/* Whether the range is finite, rises and keeps to the line's bounds: flat
 * knots number degree and number poles. 02: a closed line's range "starts in
 * [first knot, last knot) and is, as rounded, no longer than the period". */
static int range_fits(const Line *l)
{
    double lo = l->range[0], hi = l->range[1];
    if (!isfinite(lo) || !isfinite(hi) || lo >= hi) return 0;
    if (l->closed)
        return first_knot(l) <= lo && lo < last_knot(l) && hi - lo <= period(l);
    return l->flat[l->degree] <= lo && hi <= l->flat[l->pole_count];
}

/* The breaks: lo, each knot of the list strictly between, hi (01, Pieces). A
 * closed line's list may repeat or fall by rounding: number 18 meets it. */
static int fill_breaks(const Line *l, double *breaks)
{
    const double *range = l->range;
    int n = 0;
    breaks[n++] = range[0];
    for (uint32_t i = 0; i < l->list_count; i++)
        if (range[0] < l->list[i] && l->list[i] < range[1])
            breaks[n++] = l->list[i];
    breaks[n++] = range[1];
    return n;
}

static double middle(double a, double b)
{
    return 0.5 * (a + b);
}

static int breaks_have_middles(const double *breaks, int n)
{
    for (int i = 1; i < n; i++) {
        double t = middle(breaks[i - 1], breaks[i]);
        if (!(breaks[i - 1] < t && t < breaks[i])) return 0;
    }
    return 1;
}

/* ---- Pieces (01, Pieces) ----------------------------------------------- */

/* The number of the list's knot that opens the span around t (span_around). */
static uint32_t list_span(const Line *l, double t)
{
    uint32_t j = 1;
    while (j < l->list_count - 1 && l->list[j] <= t) j++;
    return j - 1;
}

/* x, or a where x leaves [a, b). */
static double start_unless(double a, double b, double x)
{
    return a <= x && x < b ? x : a;
}

/* 02: "u - period x floor((u - first) / period), each operation rounded, and
 * first where that leaves [first, last)". */
static double in_period(const Line *l, double u)
{
    double turns = floor((u - first_knot(l)) / period(l));
    return start_unless(first_knot(l), last_knot(l), u - period(l) * turns);
}

/* Where the net of the piece around t is made. The list decides the span, for
 * the net as for the cut: by rounding in_period may leave it, and then the
 * span's start stands. */
static double place(const Line *l, double t)
{
    uint32_t i;
    if (!l->closed) return t;
    i = list_span(l, t) % (l->knot_count - 1);
    return start_unless(l->knots[i], l->knots[i + 1], in_period(l, t));
}

/* Flat knot i, counted from the first of a turn. On a closed line they go on
 * either way, a period on or back; at the seam itself the end knots stand. */
static double flat_knot(const Line *l, int i)
{
    int n = (int)l->pole_count, m = (int)l->mults[0];
    if (l->closed && i < 0) return l->flat[i + n] - period(l);
    if (l->closed && i >= n + m) return l->flat[i - n] + period(l);
    return l->flat[i];
}

/* The flat knot that opens the span holding u (span); u lies in a span with
 * length. */
static uint32_t find_span(const Line *l, double u)
{
    uint32_t s = l->closed ? l->mults[0] - 1 : l->degree;
    while (s + 1 < l->pole_count && l->flat[s + 1] <= u) s++;
    return s;
}

/* The 2 * degree knots around the span of u, relative to u (span_knots);
 * gives the first pole of the span, which is pole 0 on a closed line's first.
 * The span runs from around[degree - 1] to around[degree]. */
static uint32_t knots_around(const Line *l, double u, double *around)
{
    int p = (int)l->degree, s = (int)find_span(l, u);
    for (int j = 1; j <= p; j++) {
        around[p - j] = -(u - flat_knot(l, s + 1 - j));
        around[p - 1 + j] = flat_knot(l, s + j) - u;
    }
    return (uint32_t)(l->closed ? s + 1 - (int)l->mults[0] : s - p);
}

/* Row k of the matrix from the span's poles to its Bernstein points: the
 * blossom at k copies of the span's end and degree - k of its start, by the
 * triangular recurrence (bezier_matrix; The NURBS Book, chapter 5). */
static void bezier_row(const double *around, int p, int k, double *row)
{
    double d[MAX_WIDTH][MAX_WIDTH] = { { 0.0 } };
    for (int j = 0; j <= p; j++) d[j][j] = 1.0;
    for (int r = 1; r <= p; r++) {
        double x = r <= k ? around[p] : around[p - 1];
        for (int j = p; j >= r; j--) {
            double low = around[j - 1];
            double inverse = 1.0 / (around[p + j - r] - low);
            double alpha = (x - low) * inverse;
            for (int i = j - r; i <= j; i++)
                d[j][i] = (1.0 - alpha) * d[j - 1][i] + alpha * d[j][i];
        }
    }
    memcpy(row, d[p], (size_t)(p + 1) * sizeof *row);
}

/* (x w, y w, z w, w) of pole i; no weights means every weight is 1. A closed
 * line's poles come again after the last. */
static void homogeneous(const Line *l, uint32_t i, double out[4])
{
    i %= l->pole_count;
    double w = l->rational ? l->weights[i] : 1.0;
    for (int c = 0; c < 3; c++) out[c] = l->poles[3 * i + c] * w;
    out[3] = w;
}

/* The net of the whole span that holds u (span_bezier): each row's sum from
 * +0, first pole first. */
static void span_bezier(const Line *l, double u, double *net)
{
    int p = (int)l->degree;
    double around[2 * MAX_DEGREE], row[MAX_WIDTH], pole[4];
    uint32_t first = knots_around(l, u, around);
    for (int k = 0; k <= p; k++) {
        bezier_row(around, p, k, row);
        for (int c = 0; c < 4; c++) net[4 * k + c] = 0.0;
        for (int j = 0; j <= p; j++) {
            homogeneous(l, first + (uint32_t)j, pole);
            for (int c = 0; c < 4; c++) net[4 * k + c] += row[j] * pole[c];
        }
    }
}

/* out = a + f (b - a), point by point. */
static void blend(const double *a, const double *b, double f, double *out)
{
    for (int c = 0; c < 4; c++) out[c] = a[c] + f * (b[c] - a[c]);
}

/* Cuts a net over 0 to 1 to f0 to f1 (restrict): the lower cut only if
 * f0 > 0, the upper only if g < 1. */
static void restrict_net(double *net, int p, double f0, double f1)
{
    double g = f1;
    if (f0 > 0.0) {
        for (int r = 1; r <= p; r++)
            for (int i = 0; i <= p - r; i++)
                blend(net + 4 * i, net + 4 * (i + 1), f0, net + 4 * i);
        g = (f1 - f0) / (1.0 - f0);
    }
    if (g < 1.0) {
        for (int r = 1; r <= p; r++)
            for (int i = p; i >= r; i--)
                blend(net + 4 * (i - 1), net + 4 * i, g, net + 4 * i);
    }
}

/* The net of the piece from t0 to t1 (CurvePieces::new). */
static void fill_piece(const Line *l, double t0, double t1, double *net)
{
    double t = middle(t0, t1);
    uint32_t i = list_span(l, t);
    double a = l->list[i], b = l->list[i + 1];
    span_bezier(l, place(l, t), net);
    restrict_net(net, (int)l->degree, (t0 - a) / (b - a), (t1 - a) / (b - a));
}

/* ---- Halving (01, Halving) --------------------------------------------- */

/* Halves `net`: the lower half keeps each round's first point, the upper what
 * remains. `lower` or `upper` may be `net` itself. */
static void halve_net(const double *net, int width, double *lower,
                      double *upper)
{
    double rest[4 * MAX_WIDTH];
    memcpy(rest, net, (size_t)(4 * width) * sizeof *rest);
    for (int r = 0; r < width; r++) {
        memcpy(lower + 4 * r, rest, 4 * sizeof *rest);
        for (int x = 0; x < 4 * (width - 1 - r); x++)
            rest[x] = middle(rest[x], rest[x + 4]);
    }
    memcpy(upper, rest, (size_t)(4 * width) * sizeof *rest);
}

/* ---- Boxes and tests (01, Boxes and tests) ----------------------------- */

typedef struct { double x[3]; } Vec;

/* A net's divided points, with its measure and its box. */
typedef struct {
    int width;
    int measured;
    Vec point[MAX_WIDTH];
    double box[6]; /* lowest x, y, z, highest x, y, z */
} Hull;

static Vec sub(Vec a, Vec b)
{
    Vec d = { { a.x[0] - b.x[0], a.x[1] - b.x[1], a.x[2] - b.x[2] } };
    return d;
}

static double dot(Vec a, Vec b)
{
    return a.x[0] * b.x[0] + a.x[1] * b.x[1] + a.x[2] * b.x[2];
}

static Vec cross(Vec a, Vec b)
{
    Vec n = { { a.x[1] * b.x[2] - a.x[2] * b.x[1],
                a.x[2] * b.x[0] - a.x[0] * b.x[2],
                a.x[0] * b.x[1] - a.x[1] * b.x[0] } };
    return n;
}

static double norm(Vec a)
{
    return sqrt(dot(a, a));
}

/* Divides the net's points and sets its measure: a net is out of measure if
 * a divided coordinate isn't within +-2^25. */
static void divide_points(const double *net, int width, Hull *h)
{
    h->width = width;
    h->measured = 1;
    for (int i = 0; i < width; i++)
        for (int c = 0; c < 3; c++) {
            double x = net[4 * i + c] / net[4 * i + 3];
            if (!within(-MAX_MEASURE, x, MAX_MEASURE)) h->measured = 0;
            h->point[i].x[c] = x;
        }
}

/* The box of the points (bounding_box); out of measure, all of space. */
static void fill_box(Hull *h)
{
    for (int c = 0; c < 3; c++) {
        double lo = INFINITY, hi = -INFINITY;
        for (int i = 0; i < h->width; i++) {
            lo = least(lo, h->point[i].x[c]);
            hi = greatest(hi, h->point[i].x[c]);
        }
        h->box[c] = h->measured ? lo : -INFINITY;
        h->box[c + 3] = h->measured ? hi : INFINITY;
    }
}

static void fill_hull(const double *net, int width, Hull *h)
{
    divide_points(net, width, h);
    fill_box(h);
}

static int boxes_apart(const double *a, const double *b, double gap)
{
    for (int c = 0; c < 3; c++)
        if (a[c] > b[c + 3] + gap || b[c] > a[c + 3] + gap) return 1;
    return 0;
}

/* The length of the box's diagonal. */
static double box_size(const double *b)
{
    double x = b[3] - b[0], y = b[4] - b[1], z = b[5] - b[2];
    return sqrt(x * x + y * y + z * z);
}

/* The least and the greatest projection of the points on the axis. */
static void extent(const Hull *h, Vec axis, double *lo, double *hi)
{
    *lo = INFINITY;
    *hi = -INFINITY;
    for (int i = 0; i < h->width; i++) {
        double y = dot(h->point[i], axis);
        *lo = least(*lo, y);
        *hi = greatest(*hi, y);
    }
}

static int apart_along(Vec axis, const Hull *a, const Hull *b, double gap)
{
    double a0, a1, b0, b1;
    extent(a, axis, &a0, &a1);
    extent(b, axis, &b0, &b1);
    gap = gap * sqrt(dot(axis, axis));
    return a0 > b1 + gap || b0 > a1 + gap;
}

static Vec chord(const Hull *h)
{
    return sub(h->point[h->width - 1], h->point[0]);
}

/* Whether the hulls are apart along the normal of both chords, or along the
 * normal of either chord in their plane. */
static int separated(const Hull *a, const Hull *b, double gap)
{
    Vec ca = chord(a), cb = chord(b), n = cross(ca, cb);
    if (n.x[0] == 0.0 && n.x[1] == 0.0 && n.x[2] == 0.0)
        n = cross(ca, sub(b->point[0], a->point[0]));
    return apart_along(n, a, b, gap) || apart_along(cross(ca, n), a, b, gap)
        || apart_along(cross(cb, n), a, b, gap);
}

static int near_line(const Hull *h, Vec origin, Vec axis, double gap)
{
    for (int i = 0; i < h->width; i++)
        if (!(norm(cross(sub(h->point[i], origin), axis)) <= gap)) return 0;
    return 1;
}

/* Whether the longer chord's line holds all points within the gap, and that
 * chord as the axis. Equal chords: the first's. None for length 0. */
static int along_one_line(const Hull *a, const Hull *b, double gap, Vec *axis)
{
    Vec ca = chord(a), cb = chord(b), origin;
    int first = dot(ca, ca) >= dot(cb, cb);
    double length;
    *axis = first ? ca : cb;
    origin = first ? a->point[0] : b->point[0];
    length = norm(*axis);
    if (!(length > 0.0)) return 0;
    gap = gap * length;
    return near_line(a, origin, *axis, gap) && near_line(b, origin, *axis, gap);
}

/* 02, M-103: the clearing test says "box, plane or line for each settled node";
 * the number of a settled verdict is its tag's. */
typedef enum { BY_BOX, BY_PLANE, BY_LINE, SPLIT, UNSEPARATED } Verdict;
enum { TAGS = 3 };

static int is_settled(Verdict v)
{
    return v == BY_BOX || v == BY_PLANE || v == BY_LINE;
}

/* The tag is "the first test in document 01's order that passes". */
static Verdict own_verdict(const Hull *a, const Hull *b, double gap)
{
    Vec axis;
    if (!a->measured || !b->measured) return UNSEPARATED;
    if (boxes_apart(a->box, b->box, gap)) return BY_BOX;
    if (separated(a, b, gap)) return BY_PLANE;
    if (!along_one_line(a, b, gap, &axis)) return SPLIT;
    return apart_along(axis, a, b, gap) ? BY_LINE : UNSEPARATED;
}

/* ---- Search (01, Search) ----------------------------------------------- */

/* First lo, hi, second lo, hi, lowest x, y, z, highest x, y, z. */
typedef struct { double f[10]; } Region;

/* The asked range of a line, and whether it is a whole turn of a closed one. */
typedef struct {
    int whole;
    double lo, hi;
} Turn;

typedef struct {
    const Line *line[2];
    double gap;
    Turn turn[2];
    uint32_t width[2];
    uint32_t piece_count[2];
    double breaks[2][MAX_BREAKS];
    double pieces[2][LENT_PIECES];
    double nets[2][LENT_NETS];  /* node k owns slot k on both lines */
    double ranges[LENT_RANGES]; /* 4 a node: first lo, hi, second lo, hi */
    uint32_t depths[LENT_DEPTHS]; /* 2 a node: the first line's, the second's */
    Region raw[LENT_REGIONS / 10];
    Region report[LENT_REGIONS / 10];
    uint32_t marks[LENT_MARKS];
    uint64_t pairs, visits, splits, settled, given;
    uint64_t by[TAGS]; /* nodes settled by box, by plane, by line */
    uint64_t waiting, unspent;
    int ended;
} Search;

static double *piece_of(Search *s, int line, uint32_t i)
{
    return s->pieces[line] + (size_t)i * 4 * s->width[line];
}

static double *net_of(Search *s, int line, uint64_t node)
{
    return s->nets[line] + node * 4 * s->width[line];
}

/* Fills the pieces of both lines; number 19 before any write. */
static int fill_pieces(Search *s)
{
    for (int k = 0; k < 2; k++)
        if (4 * s->width[k] * s->piece_count[k] > LENT_PIECES) return 19;
    for (int k = 0; k < 2; k++)
        for (uint32_t i = 0; i < s->piece_count[k]; i++)
            fill_piece(s->line[k], s->breaks[k][i], s->breaks[k][i + 1],
                       piece_of(s, k, i));
    return 0;
}

/* Whether the lent memory holds the nodes, nets and regions of P pairs. */
static int memory_fits(const Search *s, uint64_t pairs, uint32_t splits)
{
    uint64_t nodes = pairs + 64;
    for (int k = 0; k < 2; k++)
        if (nodes * 4 * s->width[k] > LENT_NETS) return 0;
    return 4 * nodes <= LENT_RANGES && 2 * nodes <= LENT_DEPTHS
        && 10 * pairs * (splits + 1) <= LENT_REGIONS;
}

/* Puts the pair of pieces i and j down as a node. */
static void push_pair(Search *s, uint32_t i, uint32_t j)
{
    uint64_t node = s->waiting++;
    uint32_t at[2] = { i, j };
    for (int k = 0; k < 2; k++) {
        memcpy(net_of(s, k, node), piece_of(s, k, at[k]),
               4 * s->width[k] * sizeof(double));
        s->ranges[4 * node + 2 * k] = s->breaks[k][at[k]];
        s->ranges[4 * node + 2 * k + 1] = s->breaks[k][at[k] + 1];
        s->depths[2 * node + k] = 0;
    }
}

/* Counts the pairs whose boxes aren't apart by the gap, first line's pieces
 * ascending, then the second's; pushes them too if asked. */
static uint64_t for_pairs(Search *s, int push)
{
    static double boxes[2][MAX_PIECES][6];
    uint64_t pairs = 0;
    Hull h;
    for (int k = 0; k < 2; k++)
        for (uint32_t i = 0; i < s->piece_count[k]; i++) {
            fill_hull(piece_of(s, k, i), (int)s->width[k], &h);
            memcpy(boxes[k][i], h.box, sizeof h.box);
        }
    for (uint32_t i = 0; i < s->piece_count[0]; i++)
        for (uint32_t j = 0; j < s->piece_count[1]; j++) {
            if (boxes_apart(boxes[0][i], boxes[1][j], s->gap)) continue;
            pairs++;
            if (push) push_pair(s, i, j);
        }
    return pairs;
}

/* 02, M-101: "the line is closed, its asked hi - lo, as rounded, is the
 * period" */
static Turn turn_of(const Line *l)
{
    const double *range = l->range;
    Turn t = { l->closed && range[1] - range[0] == period(l), range[0], range[1] };
    return t;
}

/* The search is of the sheet's first line, or the track, and of line k, counted
 * from 0. */
static void take_pair(Search *s, const Sheet *sheet, uint32_t k)
{
    for (int i = 0; i < 2; i++) {
        const Line *l = &sheet->line[i == 0 ? 0 : k];
        s->line[i] = l;
        s->piece_count[i] = (uint32_t)fill_breaks(l, s->breaks[i]) - 1;
        s->width[i] = l->degree + 1;
        s->turn[i] = turn_of(l);
    }
    s->gap = sheet->gap;
}

/* Opens the search of line k of an admitted sheet: 0, or number 19. */
static int open_search(Search *s, const Sheet *sheet, uint32_t k)
{
    int no;
    take_pair(s, sheet, k);
    no = fill_pieces(s);
    if (no) return no;
    s->pairs = for_pairs(s, 0);
    if (!memory_fits(s, s->pairs, sheet->splits_per_pair)) return 19;
    s->visits = s->splits = s->settled = s->given = s->waiting = 0;
    memset(s->by, 0, sizeof s->by);
    for_pairs(s, 1);
    s->unspent = sheet->splits_per_pair * s->pairs;
    s->ended = s->pairs == 0;
    return 0;
}

static void load_hulls(Search *s, uint64_t node, Hull hull[2])
{
    for (int k = 0; k < 2; k++)
        fill_hull(net_of(s, k, node), (int)s->width[k], &hull[k]);
}

/* The region of a node: its ranges and the box of both nets. */
static Region region_of(const Search *s, uint64_t node, const Hull hull[2])
{
    Region r;
    memcpy(r.f, s->ranges + 4 * node, 4 * sizeof(double));
    for (int c = 0; c < 3; c++) {
        r.f[4 + c] = least(hull[0].box[c], hull[1].box[c]);
        r.f[7 + c] = greatest(hull[0].box[c + 3], hull[1].box[c + 3]);
    }
    return r;
}

/* Halves line k of the top node: the upper half is put down first, in the
 * node's slot, the lower on top. Both halves hold the middle. */
static void split_node(Search *s, int k)
{
    uint64_t top = s->waiting - 1, next = s->waiting;
    int other = 1 - k;
    double mid = middle(s->ranges[4 * top + 2 * k], s->ranges[4 * top + 2 * k + 1]);
    halve_net(net_of(s, k, top), (int)s->width[k], net_of(s, k, next),
              net_of(s, k, top));
    memcpy(net_of(s, other, next), net_of(s, other, top),
           4 * s->width[other] * sizeof(double));
    memcpy(s->ranges + 4 * next, s->ranges + 4 * top, 4 * sizeof(double));
    s->ranges[4 * top + 2 * k] = mid;
    s->ranges[4 * next + 2 * k + 1] = mid;
    memcpy(s->depths + 2 * next, s->depths + 2 * top, 2 * sizeof *s->depths);
    s->depths[2 * top + k]++;
    s->depths[2 * next + k]++;
    s->waiting++;
}

/* The line of a node to halve, 0 or 1, or NEITHER. 01: the one with the larger
 * box, of equal ones the second. 02, M-106: "If the line chosen by box size is
 * at 32, the other is halved; with both at 32 the node is given up". */
enum { NEITHER = -1 };

static int line_to_halve(const Hull hull[2], const uint32_t depths[2])
{
    int k = box_size(hull[1].box) >= box_size(hull[0].box);
    if (depths[k] < MAX_DEPTH) return k;
    return depths[1 - k] < MAX_DEPTH ? 1 - k : NEITHER;
}

/* One step for the top node, with the search's own verdict. */
static void step(Search *s)
{
    uint64_t top = s->waiting - 1;
    int line = NEITHER;
    Hull hull[2];
    Verdict v;
    load_hulls(s, top, hull);
    v = own_verdict(&hull[0], &hull[1], s->gap);
    s->visits++;
    if (v == SPLIT) line = line_to_halve(hull, s->depths + 2 * top);
    if (line != NEITHER) {
        if (s->unspent == 0) {
            s->ended = 1;
            return;
        }
        s->unspent--;
        s->splits++;
        split_node(s, line);
        return;
    }
    if (is_settled(v)) {
        s->settled++;
        s->by[v]++;
    } else {
        s->raw[s->given++] = region_of(s, top, hull);
    }
    s->waiting--;
    s->ended = s->waiting == 0;
}

/* ---- Merging (01, Merging) --------------------------------------------- */

/* Two ranges, lo and hi each, both closed. */
static int meet(const double *a, const double *b)
{
    return a[0] <= b[1] && b[0] <= a[1];
}

static int touch(const Region *a, const Region *b)
{
    return meet(a->f, b->f) && meet(a->f + 2, b->f + 2);
}

/* The smallest region that holds both. */
static Region unite(const Region *a, const Region *b)
{
    static const char high[10] = { 0, 1, 0, 1, 0, 0, 0, 1, 1, 1 };
    Region r;
    for (int i = 0; i < 10; i++)
        r.f[i] = high[i] ? greatest(a->f[i], b->f[i]) : least(a->f[i], b->f[i]);
    return r;
}

/* One pass of the region r over the n regions of `out`: those it touches go
 * into it, the others stay in order. Gives how many stay. */
static uint64_t absorb(Region *r, Region *out, uint64_t n)
{
    uint64_t kept = 0;
    for (uint64_t i = 0; i < n; i++) {
        if (touch(r, &out[i]))
            *r = unite(r, &out[i]);
        else
            out[kept++] = out[i];
    }
    return kept;
}

/* Merges the raw list from its end (merged): a grown region passes again over
 * all that remain until none is taken. */
static uint64_t merge(const Region *raw, uint64_t count, Region *out)
{
    uint64_t n = 0;
    while (count > 0) {
        Region r = raw[--count];
        uint64_t before;
        do {
            before = n;
            n = absorb(&r, out, n);
        } while (n < before);
        out[n++] = r;
    }
    return n;
}

/* Sorts by first start; equal starts, zeros of either sign too, stay. */
static void sort_regions(Region *list, uint64_t n)
{
    for (uint64_t i = 1; i < n; i++) {
        Region r = list[i];
        uint64_t j = i;
        for (; j > 0 && list[j - 1].f[0] > r.f[0]; j--) list[j] = list[j - 1];
        list[j] = r;
    }
}

/* ---- Stretch marks (02, M-101) ----------------------------------------- */

/* "and one starts at the asked lo while the other ends at the asked hi" */
static int over_seam(const Turn *t, const double *a, const double *b)
{
    return t->whole
        && ((a[0] == t->lo && b[1] == t->hi) || (b[0] == t->lo && a[1] == t->hi));
}

/* "on each line they meet plainly or over the seam" */
static int neighbours(const Turn turn[2], const Region *a, const Region *b)
{
    for (int k = 0; k < 2; k++) {
        const double *x = a->f + 2 * k, *y = b->f + 2 * k;
        if (!meet(x, y) && !over_seam(&turn[k], x, y)) return 0;
    }
    return 1;
}

/* Row i of `chained` has a 1 for each region that a chain of neighbours joins
 * to region i: the closure of the neighbours, by Warshall's rule. */
static void close_chains(unsigned char *chained, uint64_t n)
{
    for (uint64_t k = 0; k < n; k++)
        for (uint64_t i = 0; i < n; i++) {
            if (!chained[i * n + k]) continue;
            for (uint64_t j = 0; j < n; j++) chained[i * n + j] |= chained[k * n + j];
        }
}

/* "the lowest list index of its group, counted from 0" */
static void mark_regions(const Turn turn[2], const Region *list, uint64_t n,
                         uint32_t *marks)
{
    unsigned char *chained = malloc(n * n + 1);
    if (!chained) abort();
    for (uint64_t i = 0; i < n; i++)
        for (uint64_t j = 0; j < n; j++)
            chained[i * n + j] = i == j || neighbours(turn, &list[i], &list[j]);
    close_chains(chained, n);
    for (uint64_t i = 0; i < n; i++) {
        uint32_t lowest = 0;
        while (!chained[i * n + lowest]) lowest++;
        marks[i] = lowest;
    }
    free(chained);
}

/* ---- Report (01, Merging) ---------------------------------------------- */

/* The report of an ended search: the raw list is the given regions, then the
 * left nodes from the bottom. Gives the count of regions. */
static uint64_t report(Search *s)
{
    uint64_t n = s->given;
    Hull hull[2];
    for (uint64_t node = 0; node < s->waiting; node++) {
        load_hulls(s, node, hull);
        s->raw[n++] = region_of(s, node, hull);
    }
    n = merge(s->raw, n, s->report);
    sort_regions(s->report, n);
    mark_regions(s->turn, s->report, n, s->marks);
    return n;
}

/* ---- Printing (01, Sheet program) -------------------------------------- */

/* The bits in hexadecimal, zeros as +0, NaN always as the same bits. */
static void print_float(double x)
{
    uint64_t bits;
    memcpy(&bits, &x, sizeof bits);
    if (x == 0.0) bits = 0;
    if (x != x) bits = 0x7FF8000000000000;
    printf(" %08lX%08lX", (unsigned long)(bits >> 32),
           (unsigned long)(bits & 0xFFFFFFFF));
}

/* 02, M-103: "printed as box=, plane= and line= after" settled. */
static void print_tags(const uint64_t by[TAGS])
{
    static const char *name[TAGS] = { "box", "plane", "line" };
    for (int i = 0; i < TAGS; i++)
        printf(" %s=%lu", name[i], (unsigned long)by[i]);
}

/* 01, Merging: "complete if empty; budget if left > 0; else unseparated". */
static const char *verdict_word(const Search *s)
{
    if (s->waiting > 0) return "budget";
    return s->given > 0 ? "unseparated" : "complete";
}

static void print_result(const Search *s, uint64_t regions)
{
    printf("%s pairs=%lu visits=%lu splits=%lu settled=%lu", verdict_word(s),
           (unsigned long)s->pairs, (unsigned long)s->visits,
           (unsigned long)s->splits, (unsigned long)s->settled);
    if (level >= 103) print_tags(s->by);
    printf(" given=%lu left=%lu regions=%lu\n", (unsigned long)s->given,
           (unsigned long)s->waiting, (unsigned long)regions);
    for (uint64_t i = 0; i < regions; i++) {
        printf("region");
        for (int j = 0; j < 10; j++) print_float(s->report[i].f[j]);
        if (level >= 101) printf(" %lu", (unsigned long)s->marks[i]);
        printf("\n");
    }
}

/* The nets of line k of the search, which has this place in the sheet. */
static void print_nets(Search *s, int k, uint32_t place)
{
    for (uint32_t i = 0; i < s->piece_count[k]; i++) {
        const double *net = piece_of(s, k, i);
        printf("piece %lu %lu", (unsigned long)place, (unsigned long)i);
        for (uint32_t j = 0; j < 4 * s->width[k]; j++) print_float(net[j]);
        printf("\n");
    }
}

static void print_pieces(Search *s, const Sheet *sheet)
{
    for (uint32_t k = 1; k < sheet->lines; k++) {
        open_search(s, sheet, k);
        if (k == 1) print_nets(s, 0, 1);
        print_nets(s, 1, k + 1);
    }
}

/* ---- Sheet program ----------------------------------------------------- */

typedef struct {
    int number;
    uint32_t place;
} Refusal;

static Refusal refusal(int number, uint32_t place)
{
    Refusal r = { number, place };
    return r;
}

/* 02, M-105: 24 "when there are no lines or more than 64". */
static int chart_fits(const Sheet *s)
{
    return !s->chart || (s->lines >= 2 && s->lines <= MAX_CHART + 1);
}

/* Numbers 4 to 14, 22 and 23 line by line. 02, M-105: "Each datum is held
 * against the track's after that line's 14"; the place is "the line's place in
 * the sheet, the track being 1". */
static Refusal admit(Sheet *s)
{
    for (uint32_t k = 0; k < s->lines; k++) {
        Line *l = &s->line[k];
        int no = line_fault(l);
        if (no) return refusal(no, k + 1);
        if (k > 0 && !one_datum(s->line[0].datum, l->datum))
            return refusal(23, k + 1);
        fill_flat(l);
        fill_list(l);
    }
    return refusal(0, 0);
}

/* Numbers 15 to 18 of an admitted sheet. 02, M-105: "15 and 18 are met line by
 * line". */
static Refusal ask(const Sheet *s)
{
    double breaks[MAX_BREAKS];
    for (uint32_t k = 0; k < s->lines; k++)
        if (!range_fits(&s->line[k])) return refusal(15, k + 1);
    if (!within(0.0, s->gap, MAX_GAP)) return refusal(16, 0);
    if (s->splits_per_pair > MAX_SPLITS) return refusal(17, 0);
    for (uint32_t k = 0; k < s->lines; k++) {
        int n = fill_breaks(&s->line[k], breaks);
        if (!breaks_have_middles(breaks, n)) return refusal(18, k + 1);
    }
    return refusal(0, 0);
}

/* Number 19 of every line, each on the memory that is lent to it alone. */
static Refusal find_room(const Sheet *sheet, Search *s)
{
    for (uint32_t k = 1; k < sheet->lines; k++)
        if (open_search(s, sheet, k)) return refusal(19, 0);
    return refusal(0, 0);
}

/* Numbers 1 to 19 and 22 to 24 in the table's order. */
static Refusal test_sheet(const unsigned char *bytes, size_t length,
                          Sheet *sheet, Search *s)
{
    Refusal r = refusal(walk_sheet(bytes, length, sheet), 0);
    if (!r.number && !chart_fits(sheet)) r = refusal(24, 0);
    if (!r.number) r = admit(sheet);
    if (!r.number) r = ask(sheet);
    if (!r.number) r = find_room(sheet, s);
    return r;
}

/* Searches line k and prints its report; gives whether it is complete. */
static int print_report(const Sheet *sheet, Search *s, uint32_t k)
{
    open_search(s, sheet, k);
    while (!s->ended) step(s);
    print_result(s, report(s));
    return s->waiting == 0 && s->given == 0;
}

/* 02, M-105: "each line's own report in sheet order ..; a last line". */
static void answer(const unsigned char *bytes, size_t length, int pieces)
{
    static Sheet sheet;
    static Search search;
    int complete = 1;
    Refusal r = test_sheet(bytes, length, &sheet, &search);
    if (r.number) {
        printf("refused %d %lu\n", r.number, (unsigned long)r.place);
        return;
    }
    for (uint32_t k = 1; k < sheet.lines; k++)
        complete &= print_report(&sheet, &search, k);
    if (sheet.chart) printf("chart %s\n", complete ? "complete" : "incomplete");
    if (pieces) print_pieces(&search, &sheet);
}

/* Reads up to n bytes; keeps at most MAX_BYTES + 1 of them, which is enough
 * to tell a sheet that is too long. Gives how many were kept. */
static size_t read_sheet(unsigned char *bytes, uint32_t n)
{
    size_t kept = 0;
    int c;
    for (uint32_t i = 0; i < n && (c = getchar()) != EOF; i++)
        if (kept <= MAX_BYTES) bytes[kept++] = (unsigned char)c;
    return kept;
}

static void answer_many(void)
{
    static unsigned char bytes[MAX_BYTES + 1];
    unsigned char b[4];
    while (fread(b, 1, 4, stdin) == 4) {
        uint32_t n = (uint32_t)b[0] | (uint32_t)b[1] << 8
                   | (uint32_t)b[2] << 16 | (uint32_t)b[3] << 24;
        answer(bytes, read_sheet(bytes, n), 0);
        printf("---\n");
    }
}

int main(int argc, char **argv)
{
    static unsigned char bytes[MAX_BYTES + 1];
    int pieces;
    if (argc > 2 && strcmp(argv[1], "--level") == 0) {
        level = atoi(argv[2]);
        argc -= 2;
        argv += 2;
    }
    pieces = argc > 1 && strcmp(argv[1], "--pieces") == 0;
    if (argc > 1 && strcmp(argv[1], "--many") == 0) {
        answer_many();
        return 0;
    }
    answer(bytes, fread(bytes, 1, sizeof bytes, stdin), pieces);
    return 0;
}
