/*
 * The library's operations as document 01 has them, with 02's M-100, M-101,
 * M-103, M-104 and M-106, on lent memory of any length and on any state: the table's
 * numbers 4 to 23 and the paragraph under it, Search, Merging, marks, tags. The
 * parts of a sheet's answer (admission, data, breaks, pieces, boxes, tests,
 * halving, merging, the neighbours' chains) are clearance.c's.
 *
 * A state travels as words of 64 bits; what they are is the header's table
 * (include/lovgurshem.h, STATE).
 */
#define main sheet_main
#define step sheet_step
#define report sheet_report
#define region_of sheet_region_of
#define own_verdict tests_verdict
#include "clearance.c"
#undef main
#undef step
#undef report
#undef region_of
#undef own_verdict

/* 01, Search: "The result counts", and what a search keeps beside the lent
 * memory. */
typedef struct {
    uint16_t pairs, quota; /* P and S */
    uint32_t waiting;
    uint64_t visits;
    uint32_t splits, unspent, settled, given;
    uint32_t by[TAGS]; /* nodes settled by box, by plane, by line */
    uint8_t width[2];
    double gap;
    int stopped; /* a split came due with allowance 0 */
    Turn turn[2];
} State;

/* A lent slice: its start and how much of it is lent. */
typedef struct { double *at; size_t length; } Floats;
typedef struct { uint8_t *at; size_t length; } Bytes;
typedef struct { uint32_t *at; size_t length; } Marks;

typedef struct {
    Floats pieces[2], nets[2], ranges, raw, report;
    Bytes depths;
    Marks marks;
} Lent;

/* A line as a call hands it over: counts of its own for each slice. */
typedef struct {
    uint32_t closed, degree; /* 0 open, any other closed */
    size_t knot_count, mult_count, coord_count, weight_count;
    const double *knots, *coords, *weights;
    const uint32_t *mults;
    uint32_t datum;
} Given;

/* ---- a state as words -------------------------------------------------- */

enum { STATE_WORDS = 23, COUNT_WORDS = 12 };

static double float_of(uint64_t bits)
{
    double x;
    memcpy(&x, &bits, sizeof x);
    return x;
}

static uint64_t bits_of(double x)
{
    uint64_t bits;
    memcpy(&bits, &x, sizeof bits);
    return bits;
}

/* Whether the words are a state's, each within its bits; the state they are. */
static int read_words(const uint64_t *w, size_t n, State *s)
{
    if (n < STATE_WORDS) return 0;
    if (w[0] > 0xFFFF || w[1] > 0xFFFF) return 0;
    if (w[2] > 0xFFFFFFFF) return 0;
    if (w[4] > 0xFFFFFFFF) return 0;
    if (w[5] > 0xFFFFFFFF) return 0;
    if (w[6] > 0xFFFFFFFF) return 0;
    if (w[7] > 0xFFFFFFFF) return 0;
    for (int i = 0; i < 2; i++)
        if (w[8 + i] < 2 || w[8 + i] > MAX_WIDTH) return 0;
    if (w[10] > 1) return 0;
    for (int i = 0; i < TAGS; i++)
        if (w[12 + i] > 0xFFFFFFFF) return 0;
    for (int i = 15; i < 17; i++)
        if (w[i] != 0) return 0;
    if (w[17] > 1 || w[18] > 1) return 0;
    *s = (State){ (uint16_t)w[0], (uint16_t)w[1], (uint32_t)w[2], w[3], (uint32_t)w[4], (uint32_t)w[5], (uint32_t)w[6],
                  (uint32_t)w[7], { (uint32_t)w[12], (uint32_t)w[13], (uint32_t)w[14] }, { (uint8_t)w[8], (uint8_t)w[9] }, float_of(w[11]), (int)w[10],
                  { { (int)w[17], float_of(w[19]), float_of(w[20]) }, { (int)w[18], float_of(w[21]), float_of(w[22]) } } };
    return 1;
}

/* The words that a step moves. */
static void move_words(const State *s, uint64_t *w)
{
    w[2] = s->waiting;
    w[3] = s->visits;
    w[4] = s->splits;
    w[5] = s->unspent;
    w[6] = s->settled;
    w[7] = s->given;
    w[10] = (uint64_t)s->stopped;
    for (int i = 0; i < TAGS; i++) w[12 + i] = s->by[i];
}

/* All words, as the opening writes them: those without bits are 0. */
static void write_words(const State *s, uint64_t *w)
{
    w[0] = s->pairs;
    w[1] = s->quota;
    move_words(s, w);
    w[8] = s->width[0];
    w[9] = s->width[1];
    w[11] = bits_of(s->gap);
    for (int i = 15; i < 17; i++) w[i] = 0;
    for (int i = 0; i < 2; i++) {
        w[17 + i] = (uint64_t)s->turn[i].whole;
        w[19 + 2 * i] = bits_of(s->turn[i].lo);
        w[20 + 2 * i] = bits_of(s->turn[i].hi);
    }
}

/* ---- the operations on a state ----------------------------------------- */

/* 01, the paragraph under the table: "The search has ended". */
static int has_ended(const State *s)
{
    return s->stopped || s->waiting == 0;
}

/* 01, "Needed": nets, depths; then ranges and raw regions. */
static int nets_fit(const State *s, const Lent *m)
{
    uint64_t nodes = (uint64_t)s->pairs + 64;
    return nodes * 4 * s->width[0] <= m->nets[0].length
        && nodes * 4 * s->width[1] <= m->nets[1].length
        && 2 * nodes <= m->depths.length;
}

static int slices_fit(const State *s, const Lent *m)
{
    uint64_t nodes = (uint64_t)s->pairs + 64;
    return nets_fit(s, m) && 4 * nodes <= m->ranges.length
        && 10 * (uint64_t)s->pairs * ((uint64_t)s->quota + 1) <= m->raw.length;
}

/* 02, M-106: "the top node's depth is the sum of its two, and either over 32
 * meets 19 too". Both of a slot that isn't wholly lent read as 0. */
static int top_fits(const State *s, const Lent *m)
{
    uint8_t d[2] = { 0, 0 };
    uint64_t at = 2 * ((uint64_t)s->waiting - 1);
    for (int i = 0; i < 2; i++)
        if (at + 2 <= m->depths.length) d[i] = m->depths.at[at + (uint64_t)i];
    if (d[0] > MAX_DEPTH || d[1] > MAX_DEPTH) return 0;
    return s->waiting <= (uint64_t)s->pairs + d[0] + d[1];
}

/* "a state that is no search's: the count waiting is over P + the top node's
 * depth (if one waits), .. pairs + splits != settled + given + waiting, splits +
 * unspent != S x P, or visits is over splits + settled + given + 1". 02, M-103:
 * "A state whose three don't sum so meets 19". The slices fit. */
static int is_search(const State *s, const Lent *m)
{
    uint64_t pairs = s->pairs, splits = s->splits, settled = s->settled;
    uint64_t given = s->given, waiting = s->waiting;
    if (waiting > 0 && !top_fits(s, m)) return 0;
    if (pairs + splits != settled + given + waiting) return 0;
    if (splits + s->unspent != (uint64_t)s->quota * pairs) return 0;
    if ((uint64_t)s->by[BY_BOX] + s->by[BY_PLANE] + s->by[BY_LINE] != settled) return 0;
    return s->visits <= splits + settled + given + 1;
}

static double *slot(const State *s, const Lent *m, int line, uint32_t k)
{
    return m->nets[line].at + (size_t)k * 4 * s->width[line];
}

static void node_hulls(const State *s, const Lent *m, uint32_t k, Hull h[2])
{
    for (int i = 0; i < 2; i++) fill_hull(slot(s, m, i, k), s->width[i], &h[i]);
}

/* 01, Search and Merging: a region has the node's ranges, and the box of both
 * nets. Stores it as region number n of the raw slice. */
static void store_region(const Lent *m, uint32_t k, const Hull h[2], uint64_t n)
{
    double *to = m->raw.at + 10 * n;
    memcpy(to, m->ranges.at + 4 * (size_t)k, 4 * sizeof *to);
    for (int c = 0; c < 3; c++) {
        to[4 + c] = least(h[0].box[c], h[1].box[c]);
        to[7 + c] = greatest(h[0].box[c + 3], h[1].box[c + 3]);
    }
}

/* Line i of node k is halved: the upper half in slot k, the lower on top; the
 * other line's net in both. Each half range holds the middle. */
static void halve_node(const State *s, const Lent *m, uint32_t k, int i)
{
    size_t w = 4 * (size_t)s->width[i], o = 4 * (size_t)s->width[1 - i];
    double *range = m->ranges.at + 4 * (size_t)k;
    double mid = middle(range[2 * i], range[2 * i + 1]);
    double net[4 * MAX_WIDTH];
    uint8_t *depths = m->depths.at + 2 * (size_t)k;
    memcpy(net, slot(s, m, i, k), w * sizeof *net);
    halve_net(net, s->width[i], slot(s, m, i, k) + w, slot(s, m, i, k));
    memcpy(slot(s, m, 1 - i, k) + o, slot(s, m, 1 - i, k), o * sizeof *net);
    memcpy(range + 4, range, 4 * sizeof *range);
    range[2 * i] = mid;
    range[4 + 2 * i + 1] = mid;
    memcpy(depths + 2, depths, 2 * sizeof *depths);
    depths[i]++;
    depths[2 + i]++;
}

/* The line that a Split of node k halves, 0 or 1, or NEITHER. */
static int split_line(const State *s, const Lent *m, uint32_t k)
{
    Hull h[2];
    uint32_t depths[2] = { m->depths.at[2 * (size_t)k], m->depths.at[2 * (size_t)k + 1] };
    node_hulls(s, m, k, h);
    return line_to_halve(h, depths);
}

/* A step with a verdict for the top node: 20, 19, or 0 and the next state. */
static int step(State *s, Verdict v, const Lent *m)
{
    Hull h[2];
    uint32_t top = s->waiting - 1;
    int line = NEITHER;
    if (has_ended(s)) return 20;
    if (!slices_fit(s, m) || !is_search(s, m)) return 19;
    if (v == SPLIT) line = split_line(s, m, top);
    if (is_settled(v)) {
        s->settled++;
        s->by[v]++;
        s->waiting--;
    } else if (line == NEITHER) {
        node_hulls(s, m, top, h);
        store_region(m, top, h, s->given++);
        s->waiting--;
    } else if (s->unspent == 0) {
        s->stopped = 1;
    } else {
        halve_node(s, m, top, line);
        s->unspent--;
        s->splits++;
        s->waiting++;
    }
    s->visits++;
    return 0;
}

/* The own verdict: 20, 19 (for nets and depths), or 0 and the verdict. */
static int own_verdict(const State *s, const Lent *m, Verdict *v)
{
    Hull h[2];
    if (has_ended(s)) return 20;
    if (!nets_fit(s, m) || !is_search(s, m)) return 19;
    node_hulls(s, m, s->waiting - 1, h);
    *v = tests_verdict(&h[0], &h[1], s->gap);
    return 0;
}

/* The loop above the step: its own verdict to each step until the search has
 * ended; a refused step ends it with that number. */
static int run(State *s, const Lent *m)
{
    while (!has_ended(s)) {
        Verdict v = UNSEPARATED;
        int no;
        no = own_verdict(s, m, &v);
        if (!no) no = step(s, v, m);
        if (no) return no;
    }
    return 0;
}

/* The result of a report: the word (0 complete, 1 budget, 2 unseparated) and
 * how many regions; the counts are the state's, left the nodes waiting. */
typedef struct { int word; uint64_t regions; } Told;

/* A report: 21, 19, or 0 with the raw list whole in the raw slice, the merged
 * regions, then +0 up to the raw list's length, in the report slice, and their
 * marks in the marks slice, "unchanged past the regions" (02, M-101). */
static int report(const State *s, const Lent *m, Told *t)
{
    uint64_t n = (uint64_t)s->given + s->waiting;
    Region *list = (Region *)m->report.at;
    Hull h[2];
    if (!has_ended(s)) return 21;
    if (!slices_fit(s, m)
        || 10 * (uint64_t)s->pairs * ((uint64_t)s->quota + 1) > m->report.length
        || (uint64_t)s->pairs * ((uint64_t)s->quota + 1) > m->marks.length
        || !is_search(s, m))
        return 19;
    for (uint32_t k = 0; k < s->waiting; k++) {
        node_hulls(s, m, k, h);
        store_region(m, k, h, (uint64_t)s->given + k);
    }
    t->word = s->waiting > 0 ? 1 : s->given > 0 ? 2 : 0;
    t->regions = merge((const Region *)m->raw.at, n, list);
    sort_regions(list, t->regions);
    for (uint64_t i = 10 * t->regions; i < 10 * n; i++) m->report.at[i] = 0.0;
    mark_regions(s->turn, list, t->regions, m->marks.at);
    return 0;
}

/* A handed line as clearance.c has it; its number, 4 to 14 or 22, or 0. */
static int take_given(const Given *g, Line *l)
{
    int fault;
    l->closed = g->closed != 0;
    l->degree = g->degree;
    l->rational = g->weight_count > 0;
    l->knot_count = (uint32_t)g->knot_count;
    l->mult_count = (uint32_t)g->mult_count;
    l->weight_count = (uint32_t)g->weight_count;
    l->pole_count = (uint32_t)(g->coord_count / 3);
    memcpy(l->knots, g->knots, g->knot_count * sizeof(double));
    memcpy(l->mults, g->mults, g->mult_count * sizeof(uint32_t));
    memcpy(l->poles, g->coords, g->coord_count * sizeof(double));
    memcpy(l->weights, g->weights, g->weight_count * sizeof(double));
    fault = line_fault(l);
    /* 10: "or coordinates are no multiple of 3" */
    if (g->coord_count % 3 != 0 && (fault == 0 || (fault > 10 && fault != 22))) fault = 10;
    return fault;
}

/* ---- the calls: a state comes and goes as words ------------------------ */

/* The opening: the number, with 256 times the line for 4 to 15, 18, 22 and 23,
 * or 0 and the first state's words. The words are a lent slice as the pieces
 * are. With a least count of 1 it is the first act alone, and the word is P. */
static int acts(const Given given[2], const double range[2][2], double gap,
                uint32_t splits, const Lent *m, uint64_t *w, size_t n, size_t least)
{
    static Sheet sheet;
    static Search breaks; /* for its breaks, widths, counts of pieces and turns */
    static double boxes[2][MAX_PIECES][6];
    State first = { 0 };
    Refusal r;
    uint64_t pairs = 0;
    int fault;
    for (int i = 0; i < 2; i++) {
        fault = take_given(&given[i], &sheet.line[i]);
        if (fault) return fault + 256 * (i + 1);
        fill_flat(&sheet.line[i]);
        fill_list(&sheet.line[i]);
        memcpy(sheet.line[i].range, range[i], sizeof sheet.line[i].range);
    }
    if (!one_datum(given[0].datum, given[1].datum)) return 23 + 256 * 2;
    sheet.lines = 2;
    sheet.gap = gap;
    sheet.splits_per_pair = splits;
    r = ask(&sheet);
    if (r.number) return r.number + 256 * (int)r.place;
    if (n < least) return 19;
    take_pair(&breaks, &sheet, 1);
    for (int i = 0; i < 2; i++)
        if (4 * (size_t)breaks.width[i] * breaks.piece_count[i] > m->pieces[i].length)
            return 19;
    for (int i = 0; i < 2; i++)
        for (uint32_t j = 0; j < breaks.piece_count[i]; j++) {
            static Hull h;
            double *net = m->pieces[i].at + (size_t)j * 4 * breaks.width[i];
            fill_piece(&sheet.line[i], breaks.breaks[i][j], breaks.breaks[i][j + 1], net);
            fill_hull(net, (int)breaks.width[i], &h);
            memcpy(boxes[i][j], h.box, sizeof h.box);
        }
    for (uint32_t i = 0; i < breaks.piece_count[0]; i++)
        for (uint32_t j = 0; j < breaks.piece_count[1]; j++)
            pairs += !boxes_apart(boxes[0][i], boxes[1][j], gap);
    if (least == 1) return w[0] = pairs, 0;
    first.pairs = (uint16_t)pairs;
    first.quota = (uint16_t)splits;
    first.unspent = (uint32_t)(splits * pairs);
    first.width[0] = (uint8_t)breaks.width[0];
    first.width[1] = (uint8_t)breaks.width[1];
    first.gap = gap;
    memcpy(first.turn, breaks.turn, sizeof first.turn);
    if (!slices_fit(&first, m)) return 19;
    for (uint32_t i = 0; i < breaks.piece_count[0]; i++)
        for (uint32_t j = 0; j < breaks.piece_count[1]; j++) {
            uint32_t at[2] = { i, j }, k = first.waiting;
            if (boxes_apart(boxes[0][i], boxes[1][j], gap)) continue;
            for (int x = 0; x < 2; x++) {
                size_t w = 4 * (size_t)first.width[x];
                memcpy(slot(&first, m, x, k), m->pieces[x].at + at[x] * w, w * sizeof(double));
                memcpy(m->ranges.at + 4 * (size_t)k + 2 * x, breaks.breaks[x] + at[x], 2 * sizeof(double));
                m->depths.at[2 * (size_t)k + (size_t)x] = 0;
            }
            first.waiting++;
        }
    write_words(&first, w);
    return 0;
}

static int call_open(const Given given[2], const double range[2][2], double gap,
                     uint32_t splits, const Lent *m, uint64_t *w, size_t n)
{
    return acts(given, range, gap, splits, m, w, n, STATE_WORDS);
}

/* Reads and writes of the lent memory the pieces alone. */
static int call_examine(const Given given[2], const double range[2][2], double gap,
                        uint32_t splits, const Lent *m, uint64_t *pairs, size_t n)
{
    return acts(given, range, gap, splits, m, pairs, n, 1);
}

/* A verdict as a number: "every other number of 32 bits Unseparated". */
static Verdict verdict_of(uint32_t n)
{
    switch (n) {
    case 1: return BY_BOX;
    case 2: return SPLIT;
    case 4: return BY_PLANE;
    case 5: return BY_LINE;
    default: return UNSEPARATED;
    }
}

static uint32_t verdict_number(Verdict v)
{
    static const uint32_t number[] = { [BY_BOX] = 1, [BY_PLANE] = 4, [BY_LINE] = 5, [SPLIT] = 2, [UNSEPARATED] = 3 };
    return number[v];
}

/* 19 for words that are no state's comes before everything else. */
static int call_step(uint32_t verdict, uint64_t *w, size_t n, const Lent *m)
{
    State s;
    int no;
    if (!read_words(w, n, &s)) return 19;
    no = step(&s, verdict_of(verdict), m);
    if (no == 0) move_words(&s, w);
    return no;
}

static int call_own_verdict(const uint64_t *w, size_t n, const Lent *m)
{
    State s;
    Verdict v = UNSEPARATED;
    int no;
    if (!read_words(w, n, &s)) return 19;
    no = own_verdict(&s, m, &v);
    return no ? no : (int)verdict_number(v);
}

static int call_run(uint64_t *w, size_t n, const Lent *m)
{
    State s;
    int no;
    if (!read_words(w, n, &s)) return 19;
    no = run(&s, m);
    if (no == 0) move_words(&s, w);
    return no;
}

/* The counts are a lent slice too: 19 after 21. */
static int call_report(const uint64_t *w, size_t n, const Lent *m, uint64_t *counts, size_t length)
{
    State s;
    Told t;
    int no;
    if (!read_words(w, n, &s)) return 19;
    if (!has_ended(&s)) return 21;
    if (length < COUNT_WORDS) return 19;
    no = report(&s, m, &t);
    if (no == 0) {
        uint64_t now[COUNT_WORDS] = { (uint64_t)t.word, s.pairs, s.visits, s.splits, s.settled, s.given, s.waiting, s.unspent, t.regions,
                                      s.by[BY_BOX], s.by[BY_PLANE], s.by[BY_LINE] };
        memcpy(counts, now, sizeof now);
    }
    return no;
}
