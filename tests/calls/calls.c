/*
 * Random lists of calls on the compiled library and on the model, side by
 * side; after every call the answer, the state and every slice, what is lent
 * and what isn't, are compared.
 *
 *   calls SEED LISTS [LEAST MOST]    LISTS lists of LEAST to MOST calls each
 *
 * A list begins with openings until one isn't refused, every second one after
 * its first act alone. Then come steps with
 * any verdict, own verdicts, runs and reports. A call may be lent too short a
 * start of a slice, too few words of a state or of counts, or a state with any
 * of its words forged; in two lists of three states are forged that may pass,
 * with any terms (whole turns, asked ends), and in one of three the memory too.
 * Before the lists come steps with each number of a list of verdicts, states
 * with each of a list of tag counts, and nodes that one test clears, settled
 * with each tag (02, M-103); then Splits alone down to 32 on both lines, nodes
 * with each of a list of depths, and depths of any length (02, M-106).
 * Prints counts of each kind of call by number, of groups of regions, and
 * differences; exits 1 if there is one.
 *
 * Free: the bits of a NaN, and the sign of a zero least or greatest.
 * Left out, as 01 says nothing of it: NaN in ranges (how it sorts).
 */
#include "../model/calls.c"
#include "lovgurshem.h"
#include <stdlib.h>

/* What callers have compiled in (02, M-103: the old numbers keep their sense). */
#if LOVGURSHEM_SETTLED != 1 || LOVGURSHEM_SPLIT != 2 || LOVGURSHEM_UNSEPARATED != 3 || LOVGURSHEM_SETTLED_PLANE != 4 || LOVGURSHEM_SETTLED_LINE != 5
#error "the header's verdicts are other numbers"
#endif
#if LOVGURSHEM_STATE != 23 || LOVGURSHEM_COUNTS != 12
#error "the header has other counts of words"
#endif

/* ---- the library ------------------------------------------------------- */

#define PART(f) (f).at, (f).length

/* ---- chance ------------------------------------------------------------ */

static uint64_t chance_state;

static uint64_t chance(void)
{
    uint64_t z = chance_state += 0x9E3779B97F4A7C15;
    z = (z ^ z >> 30) * 0xBF58476D1CE4E5B9;
    z = (z ^ z >> 27) * 0x94D049BB133111EB;
    return z ^ z >> 31;
}

static uint64_t below(uint64_t n) { return chance() % n; }
static int one_in(uint64_t n) { return below(n) == 0; }

/* A number on a coarse grid, so that boxes, chords and ranges often meet. */
static double coarse(void) { return ((double)below(33) - 16.0) * 0.25; }

static double fine(void) { return (double)(int64_t)(chance() >> 11) * 0x1p-50 - 4.0; }

static double odd(void)
{
    static const double x[] = { 0.0, -0.0, 1.0, -1.0, 0x1p25, -0x1p25, 0x1.0000000000001p25,
                                0x1p-1074, 0x1p1000, INFINITY, -INFINITY, NAN };
    return x[below(sizeof x / sizeof *x)];
}

/* ---- two memories ------------------------------------------------------ */

enum { PIECES1, PIECES2, NETS1, NETS2, RANGES, RAW, REPORT, SLICES };
static const char *slice_name[] = { "pieces1", "pieces2", "nets1", "nets2", "ranges", "raw", "report" };

typedef struct {
    double *f[SLICES];
    uint8_t *depths;
    uint32_t *marks;
} World;

static World lib, model;
static size_t cap[SLICES], depth_cap, mark_cap;
static const size_t room[SLICES] = { 16384, 16384, 131072, 131072, 16384, 65536, 65536 };
enum { GUARD = 16, DEPTHS = 8192, MARKS = 8192 };

static void new_worlds(void)
{
    for (int i = 0; i < SLICES; i++) {
        lib.f[i] = malloc((room[i] + GUARD) * sizeof(double));
        model.f[i] = malloc((room[i] + GUARD) * sizeof(double));
    }
    lib.depths = malloc(DEPTHS + GUARD);
    model.depths = malloc(DEPTHS + GUARD);
    lib.marks = malloc((MARKS + GUARD) * sizeof(uint32_t));
    model.marks = malloc((MARKS + GUARD) * sizeof(uint32_t));
}

static double filler(int slice, int wild)
{
    if (slice == RANGES || slice == RAW) return one_in(20) ? -0.0 : one_in(4) ? fine() : coarse();
    return wild && one_in(8) ? odd() : one_in(4) ? fine() : coarse();
}

/* Both memories get the same numbers. */
static void fill_worlds(int wild)
{
    for (int i = 0; i < SLICES; i++)
        for (size_t j = 0; j < cap[i] + GUARD; j++)
            lib.f[i][j] = model.f[i][j] = filler(i, wild);
    for (size_t j = 0; j < depth_cap + GUARD; j++)
        lib.depths[j] = model.depths[j] = (uint8_t)(one_in(4) ? chance() : below(34));
    for (size_t j = 0; j < mark_cap + GUARD; j++)
        lib.marks[j] = model.marks[j] = one_in(2) ? (uint32_t)chance() : (uint32_t)below(9);
}

static Lent lend(World *w, const size_t n[SLICES], size_t depths, size_t marks)
{
    Lent m = { { { w->f[PIECES1], n[PIECES1] }, { w->f[PIECES2], n[PIECES2] } },
               { { w->f[NETS1], n[NETS1] }, { w->f[NETS2], n[NETS2] } },
               { w->f[RANGES], n[RANGES] }, { w->f[RAW], n[RAW] },
               { w->f[REPORT], n[REPORT] }, { w->depths, depths }, { w->marks, marks } };
    return m;
}

/* ---- comparing --------------------------------------------------------- */

/* A step is STEP and its verdict. */
enum { OPEN, STEP, OWN = STEP + UNSEPARATED + 1, RUN, TELL, EXAMINE, KINDS };
static const char *kind_name[] = { "open", "step Settled by box", "step Settled by plane", "step Settled by line", "step Split",
                                   "step Unseparated", "own verdict", "run", "report", "examine" };
static uint64_t counts[KINDS][32], calls, differences, forged_calls, short_calls, forged_passed;
static uint64_t list_number, call_number, lists_seed;
static uint64_t halved[2], gave_way[2], deep[2], stopped, merged_regions, raw_regions; /* deep: with allowance 0, with more */
static uint64_t groups[2], turned, whole_openings;
static uint64_t tagged[TAGS][TAGS], told_tags[TAGS]; /* steps by the own verdict and the step's tag; reports with a tag's count over 0 */
static uint64_t swept_verdicts, swept_sums[2], swept_tags, swept_depths[2], swept_lengths, descents;
static int forged; /* whether the call's state is forged */
static uint64_t spoiled[STATE_WORDS], spoiled_passed[STATE_WORDS], few_words, few_counts, odd_gaps, wide_verdicts;

static State last; /* the state of the last call */

static void differs(int kind, const char *what, double a, double b)
{
    if (differences++ < 20)
        printf("DIFFERENCE seed %lu list %lu call %lu %s (widths %d %d, gap %g): %s library %.17g model %.17g\n",
               (unsigned long)lists_seed, (unsigned long)list_number, (unsigned long)call_number,
               kind_name[kind], last.width[0], last.width[1], last.gap, what, a, b);
}

static int same_bits(double a, double b) { return memcmp(&a, &b, sizeof a) == 0; }

/* Whether element j of a slice may be a in one and b in the other: a box's
 * zeros in the raw regions, any zero in the merged ones, NaN in all. */
static int same(int slice, size_t j, double a, double b, uint64_t merged)
{
    if (same_bits(a, b) || (a != a && b != b)) return 1;
    if (slice == RAW && j % 10 >= 4) return a == b;
    if (slice == REPORT && j < 10 * merged) return a == b;
    return 0;
}

static void compare_worlds(int kind, uint64_t merged)
{
    for (int i = 0; i < SLICES; i++) {
        size_t n = cap[i] + GUARD;
        if (memcmp(lib.f[i], model.f[i], n * sizeof(double)) == 0) continue;
        for (size_t j = 0; j < n; j++)
            if (!same(i, j, lib.f[i][j], model.f[i][j], merged)) {
                char what[64];
                snprintf(what, sizeof what, "%s[%lu]", slice_name[i], (unsigned long)j);
                differs(kind, what, lib.f[i][j], model.f[i][j]);
                memcpy(lib.f[i], model.f[i], n * sizeof(double));
                break;
            }
    }
    if (memcmp(lib.depths, model.depths, depth_cap + GUARD) != 0) {
        differs(kind, "depths", 0, 0);
        memcpy(lib.depths, model.depths, depth_cap + GUARD);
    }
    for (size_t j = 0; j < mark_cap + GUARD; j++)
        if (lib.marks[j] != model.marks[j]) {
            char what[32];
            snprintf(what, sizeof what, "marks[%lu]", (unsigned long)j);
            differs(kind, what, lib.marks[j], model.marks[j]);
            memcpy(lib.marks, model.marks, (mark_cap + GUARD) * sizeof(uint32_t));
        }
}

static void compare_number(int kind, const char *what, uint64_t a, uint64_t b)
{
    if (a != b) differs(kind, what, (double)a, (double)b);
}

/* The words of a state, the library's and the model's, lent with some behind
 * them. Both begin alike and are compared whole after the call. */
enum { UNTOUCHED = 0x5A5A, WORDS = LOVGURSHEM_STATE + 3 };
static uint64_t words[2][WORDS];
static size_t words_lent;
static int spoiled_word; /* which one, or -1 */

/* What a word's bits hold at most; a width is 2 to 26, word 11 is a gap, words
 * 15 and 16 have no bits, and 19 to 22 are ends of ranges. */
static const uint64_t most[LOVGURSHEM_STATE] = { 0xFFFF, 0xFFFF, 0xFFFFFFFF, UINT64_MAX, 0xFFFFFFFF, 0xFFFFFFFF, 0xFFFFFFFF, 0xFFFFFFFF, 26, 26, 1, UINT64_MAX,
                                                 0xFFFFFFFF, 0xFFFFFFFF, 0xFFFFFFFF, 0, 0, 1, 1, UINT64_MAX, UINT64_MAX, UINT64_MAX, UINT64_MAX };

/* Any pattern of a float: infinite, negative, a zero, a NaN with any sign and
 * payload, quiet or not. */
static uint64_t odd_bits(void)
{
    uint64_t sign = (uint64_t)one_in(2) << 63;
    switch (below(5)) {
    case 0: return bits_of(odd());
    case 1: return sign | 0x7FF0000000000000 | (one_in(2) ? 1 : chance() >> 12);
    case 2: return sign | bits_of(fabs(coarse()));
    case 3: return sign | 0x7FF0000000000000;
    default: return chance();
    }
}

static uint64_t odd_word(int i, uint64_t word)
{
    static const uint64_t widths[] = { 0, 1, 2, 26, 27, 28, 255, 256, 258, 282 };
    if (i == 11 || i >= 19) return odd_bits();
    if ((i == 8 || i == 9) && !one_in(4)) return widths[below(10)];
    switch (below(7)) {
    case 0: return i == 15 || i == 16 ? 1 : most[i];
    case 1: case 2: return most[i] + 1;
    case 3: return UINT64_MAX - (one_in(2) ? 0 : below(9));
    case 4: return (uint64_t)1 << below(64);
    case 5: return word + ((most[i] + 1) << below(16));
    default: return chance();
    }
}

/* The words that a call gets: the state's, or for an opening any. Some calls
 * get too few, or one word of any other value. */
static int plain; /* neither slices nor words are cut short, no word is forged */

static void hand_words(const State *s)
{
    uint64_t *w = words[0];
    for (int i = 0; i < WORDS; i++) w[i] = UNTOUCHED;
    if (s) write_words(s, w);
    words_lent = one_in(3) ? LOVGURSHEM_STATE : WORDS;
    spoiled_word = -1;
    if (plain) {
        words_lent = LOVGURSHEM_STATE;
    } else if (one_in(30)) {
        words_lent = one_in(2) ? LOVGURSHEM_STATE - 1 : below(LOVGURSHEM_STATE);
        few_words++;
    } else if (s && one_in(12)) {
        spoiled_word = (int)below(LOVGURSHEM_STATE);
        w[spoiled_word] = odd_word(spoiled_word, w[spoiled_word]);
        spoiled[spoiled_word]++;
    }
    memcpy(words[1], words[0], sizeof words[0]);
}

static void compare_words(int kind, int refused)
{
    for (int i = 0; i < WORDS; i++)
        if (words[0][i] != words[1][i]) {
            char what[32];
            snprintf(what, sizeof what, "word %d", i);
            differs(kind, what, (double)words[0][i], (double)words[1][i]);
        }
    if (spoiled_word >= 0) spoiled_passed[spoiled_word] += !refused;
}

/* The state after a call that wasn't refused; a gap or an end that was forged
 * for the call is kept by it. */
static void next_state(State *s)
{
    if (!read_words(words[1], WORDS, s)) differs(RUN, "the words are no state's", 0, 0);
}

static void count(int kind, int number)
{
    calls++;
    counts[kind][number & 31]++;
}

/* ---- lent lengths ------------------------------------------------------ */

/* What the state needs, as far as there is memory; one slice in some calls
 * shorter: by one, by any amount, or empty. Longer than needed in others. */
static Lent lent[2];
static size_t depths_lent; /* if not 0, so many depths are lent */

static void choose_lent(const State *s)
{
    last = *s;
    uint64_t nodes = (uint64_t)s->pairs + 64;
    uint64_t raw = 10 * (uint64_t)s->pairs * ((uint64_t)s->quota + 1);
    uint64_t need[SLICES + 2] = { 0, 0, nodes * 4 * s->width[0], nodes * 4 * s->width[1], 4 * nodes, raw, raw, 2 * nodes, raw / 10 };
    size_t n[SLICES + 2];
    int exact = one_in(3);
    for (int i = 0; i < SLICES + 2; i++) {
        size_t most = i == SLICES ? depth_cap : i > SLICES ? mark_cap : cap[i];
        n[i] = exact && need[i] < most ? need[i] : most;
    }
    if (!plain && one_in(8)) {
        int i = (int)(NETS1 + below(SLICES + 2 - NETS1));
        size_t least = need[i] < n[i] ? need[i] : n[i];
        short_calls++;
        n[i] = one_in(3) ? below(least + 1) : one_in(8) ? 0 : least > 0 ? least - 1 : 0;
    }
    if (depths_lent > 0) n[SLICES] = depths_lent;
    lent[0] = lend(&lib, n, n[SLICES], n[SLICES + 1]);
    lent[1] = lend(&model, n, n[SLICES], n[SLICES + 1]);
}

/* ---- calls ------------------------------------------------------------- */

/* Unseparated is every number of 32 bits but 1, 2, 4 and 5: 0 to 300, these
 * four and 3 with any of the three upper bytes, multiples of 2^8 and 2^16, any. */
static uint32_t other_number(void)
{
    uint32_t n, k = 1 + (uint32_t)below(5);
    switch (below(6)) {
    case 0: n = (uint32_t)below(301); break;
    case 1: n = k << 8 * (1 + below(3)); break;
    case 2: n = k + (1u << (8 + below(24))); break;
    case 3: n = k + (uint32_t)below(0x1000000) * 256; break;
    case 4: n = one_in(2) ? 0x80000000 : UINT32_MAX - (uint32_t)below(6); break;
    default: n = (uint32_t)chance() | 8; break;
    }
    return verdict_of(n) == UNSEPARATED ? n : 3;
}

/* A number for the verdict. */
static uint32_t number_of(Verdict v)
{
    uint32_t n = v == UNSEPARATED && one_in(3) ? other_number() : verdict_number(v);
    wide_verdicts += n > 255;
    return n;
}

/* Document 02, M-102: a halving's two slots follow from the net alone, whatever
   the free slot held. Each slot above the top node gets NaN, infinities and
   random bits. */
static int filling;
static uint64_t filled_steps;

static void fill_free(const State *s)
{
    for (int i = 0; i < 2; i++)
        for (size_t j = (size_t)s->waiting * 4 * s->width[i]; j < cap[NETS1 + i]; j++) {
            uint64_t bits = chance();
            double x = NAN;
            if (one_in(3)) x = bits & 1 ? INFINITY : -INFINITY;
            else if (one_in(2)) memcpy(&x, &bits, sizeof x);
            lib.f[NETS1 + i][j] = model.f[NETS1 + i][j] = x;
        }
    filled_steps++;
}

/* What a Split did to a node of these depths: which line it halved, and whether
 * in the place of one at 32; or that it gave up a node with both at 32. */
static void count_split(const State *old, const State *s, const uint8_t was[2])
{
    const uint8_t *d = model.depths + 2 * ((size_t)old->waiting - 1);
    if (s->splits > old->splits) {
        int line = d[1] != was[1];
        halved[line]++;
        gave_way[line] += was[1 - line] == 32;
    }
    if (s->given > old->given) deep[old->unspent > 0]++;
}

static int do_step(State *s, uint32_t handed)
{
    Verdict v = verdict_of(handed);
    int kind = STEP + (int)v, no;
    uint8_t was[2] = { 0, 0 };
    State old = *s;
    Lent *a = &lent[0], *b = &lent[1];
    if (filling) fill_free(s);
    choose_lent(s);
    hand_words(s);
    if (s->waiting > 0 && 2 * (size_t)s->waiting <= depth_cap) memcpy(was, model.depths + 2 * (size_t)s->waiting - 2, 2);
    uint32_t got = lovgurshem_step(handed, words[0], words_lent,
        PART(a->nets[0]), PART(a->nets[1]), PART(a->ranges), PART(a->depths), PART(a->raw));
    no = call_step(handed, words[1], words_lent, b);
    compare_number(kind, "answer", got, (uint64_t)no);
    compare_words(kind, no);
    if (no == 0) {
        next_state(s);
        if (v == SPLIT) count_split(&old, s, was);
        stopped += s->stopped && !old.stopped;
    }
    count(kind, no);
    compare_worlds(kind, 0);
    return no;
}

static int do_own(const State *s)
{
    int no;
    Lent *a = &lent[0];
    choose_lent(s);
    hand_words(s);
    uint32_t got = lovgurshem_own_verdict(words[0], words_lent, PART(a->nets[0]), PART(a->nets[1]), PART(a->depths));
    no = call_own_verdict(words[1], words_lent, &lent[1]);
    compare_number(OWN, "answer", got, (uint64_t)no);
    compare_words(OWN, no > 5);
    odd_gaps += no <= 5 && !(float_of(words[1][11]) >= 0.0 && float_of(words[1][11]) <= 0x1p24);
    count(OWN, no);
    compare_worlds(OWN, 0);
    return no;
}

static int do_run(State *s)
{
    int no;
    Lent *a = &lent[0];
    choose_lent(s);
    hand_words(s);
    uint32_t got = lovgurshem_run(words[0], words_lent, PART(a->nets[0]), PART(a->nets[1]), PART(a->ranges),
        PART(a->depths), PART(a->raw));
    no = call_run(words[1], words_lent, &lent[1]);
    compare_number(RUN, "answer", got, (uint64_t)no);
    compare_words(RUN, no);
    if (no == 0) next_state(s);
    count(RUN, no);
    compare_worlds(RUN, 0);
    return no;
}

/* Reports by whether a mark isn't its place, with a whole turn of the search's
 * own or with forged terms. */
static void count_groups(uint64_t merged)
{
    int grouped = 0;
    for (uint64_t i = 0; i < merged; i++) grouped |= model.marks[i] != i;
    groups[forged] += (uint64_t)grouped;
    turned += words[1][17] || words[1][18];
}

static int do_report(const State *s)
{
    uint64_t told[2][LOVGURSHEM_COUNTS + 1], merged = 0;
    size_t told_lent = LOVGURSHEM_COUNTS + below(2);
    int no;
    Lent *a = &lent[0];
    choose_lent(s);
    hand_words(s);
    if (!plain && one_in(20)) {
        told_lent = one_in(2) ? LOVGURSHEM_COUNTS - 1 : below(LOVGURSHEM_COUNTS);
        few_counts++;
    }
    for (int i = 0; i <= LOVGURSHEM_COUNTS; i++) told[0][i] = told[1][i] = UNTOUCHED;
    uint32_t got = lovgurshem_report(words[0], words_lent, PART(a->nets[0]), PART(a->nets[1]), PART(a->ranges),
        PART(a->depths), PART(a->raw), PART(a->report), PART(a->marks), told[0], told_lent);
    no = call_report(words[1], words_lent, &lent[1], told[1], told_lent);
    compare_number(TELL, "answer", got, (uint64_t)no);
    compare_words(TELL, no);
    for (int i = 0; i <= LOVGURSHEM_COUNTS; i++) {
        char what[32];
        snprintf(what, sizeof what, "counts %d", i);
        compare_number(TELL, what, told[0][i], told[1][i]);
    }
    if (no == 0) {
        merged = told[1][8];
        merged_regions += merged;
        raw_regions += told[1][5] + told[1][6];
        for (int i = 0; i < TAGS; i++) told_tags[i] += told[1][9 + i] > 0;
        count_groups(merged);
    }
    count(TELL, no);
    compare_worlds(TELL, merged);
    /* zeros of free sign stay free in the report slice afterwards */
    if (no == 0) memcpy(lib.f[REPORT], model.f[REPORT], (cap[REPORT] + GUARD) * sizeof(double));
    return no;
}

/* ---- openings ---------------------------------------------------------- */

typedef struct {
    Given given;
    double knots[160], coords[2000], weights[600];
    uint32_t mults[160];
} Drawn;

/* Lines of up to 2, 5 or 129 spans. */
static int spans;

static void draw_line(Drawn *d)
{
    uint32_t p = one_in(spans == 2 ? 40 : 12) ? 1 + (uint32_t)below(25) : 1 + (uint32_t)below(4);
    size_t n = 2 + below((uint64_t)spans), poles, sum = 0;
    double t = one_in(2) ? 0.0 : coarse();
    int rational = one_in(3), closed = one_in(3);
    uint32_t seam = 1 + (uint32_t)below(p);
    d->given.closed = !closed ? 0 : one_in(4) ? (uint32_t)chance() | 1 : 1;
    d->given.degree = p;
    for (size_t i = 0; i < n; i++) {
        int end = i == 0 || i == n - 1;
        d->knots[i] = t;
        t += one_in(3) ? 0x1p-40 + fabs(fine()) : 1.0;
        d->mults[i] = end ? p + 1 : 1 + (uint32_t)below(p);
        if (spans > 5 && !end && !one_in(6)) d->mults[i] = 1;
        if (one_in(12)) d->mults[i] = 1 + (uint32_t)below(p);
        if (closed && end) d->mults[i] = seam;
        if (closed && n == 3 && !end) d->mults[i] = p;
        sum += d->mults[i];
    }
    if (!closed && sum < 2 * p + 2 && !(sum > p && one_in(4))) {
        sum += 2 * p + 2 - d->mults[0] - d->mults[n - 1];
        d->mults[0] = d->mults[n - 1] = p + 1;
    }
    poles = closed ? sum - seam : sum - p - 1;
    if (poles > 600) poles = 600;
    for (size_t i = 0; i < 3 * poles; i++) d->coords[i] = i % 3 == 2 && one_in(2) ? 0.0 : one_in(4) ? fine() : coarse();
    for (size_t i = 0; i < poles; i++) d->weights[i] = one_in(2) ? 1.0 : 0.5 + (double)below(9) * 0.25;
    d->given.knot_count = d->given.mult_count = n;
    d->given.coord_count = 3 * poles;
    d->given.weight_count = rational ? poles : 0;
}

/* A span along a direction from a place on. Two on one line that are half the
 * direction apart: with a gap from the boxes' distance on, below the lines',
 * only the line test clears them. */
static const struct { double way[3], boxes; } directions[] = { { { 1, 1, 1 }, 0.5 }, { { 3, 4, 0 }, 2.0 }, { { 1, -2, 2 }, 1.0 } };

static void draw_along(Drawn *d, const double way[3], double from)
{
    uint32_t p = 1 + (uint32_t)below(4);
    d->given = (Given){ .degree = p, .knot_count = 2, .mult_count = 2, .coord_count = 3 * (p + 1) };
    for (int i = 0; i < 2; i++) {
        d->knots[i] = i;
        d->mults[i] = p + 1;
    }
    for (uint32_t i = 0; i < 3 * (p + 1); i++) d->coords[i] = (from + (double)(i / 3) / p) * way[i % 3];
}

static void spoil_line(Drawn *d)
{
    static const double far[] = { NAN, INFINITY, -INFINITY, 0x1.0000000000001p20, 0x1.0000000000001p24, 0x1p10, 0x1.0000000000001p10,
                                  0x1.fffffffffffffp-11, 0x1p-10, -0x1p24, 0x1p20, -0x1.0000000000001p24, 0.0 };
    Given *g = &d->given;
    double x = far[below(sizeof far / sizeof *far)];
    switch (below(11)) {
    case 0: g->degree = one_in(2) ? 0 : one_in(2) ? 26 : (uint32_t)chance(); break;
    case 1: g->knot_count = below(2); break;
    case 2: g->mult_count -= one_in(2) ? 1 : (size_t)-1; d->mults[g->mult_count - (g->mult_count > 0)] = 1; break;
    case 3: d->knots[below(g->knot_count)] = x; break;
    case 4: d->knots[1] = d->knots[0]; break;
    case 5: d->mults[below(g->mult_count)] = one_in(2) ? g->degree + 2 : UINT32_MAX; break;
    case 6: d->mults[below(g->mult_count)] = 0; break;
    case 7: g->coord_count += below(7) - 3; if (g->coord_count > 2000) g->coord_count = 0; break;
    case 8: g->weight_count = g->coord_count / 3 + (one_in(2) ? 1 : (size_t)-1); break;
    case 9: g->weight_count = g->coord_count / 3; if (g->weight_count) d->weights[below(g->weight_count)] = x; break;
    default: if (g->coord_count) d->coords[below(g->coord_count)] = x; break;
    }
}

/* Two data, often one number (02, M-104): within the span and outside it, with
 * the same lower bits, or any. */
static uint64_t data_drawn[2]; /* one datum; 23 */

static void draw_data(Drawn d[2], int spoil)
{
    static const uint32_t edge[] = { 0, 1, 2, 9998, 9999, 10000, 10001, 65536, 65537, 75535, 0x0FFFFFFF, 0x10000001, 0x80000001, UINT32_MAX };
    uint32_t a = one_in(2) ? 1 + (uint32_t)below(9999) : one_in(2) ? 1 : 9999, b;
    if (spoil && one_in(4)) a = one_in(4) ? (uint32_t)chance() : edge[below(sizeof edge / sizeof *edge)];
    b = a;
    if (spoil && one_in(6)) {
        switch (below(5)) {
        case 0: b = a ^ 1u << below(32); break;
        case 1: b = a + (one_in(2) ? 1 : UINT32_MAX); break;
        case 2: b = edge[below(sizeof edge / sizeof *edge)]; break;
        case 3: b = one_in(2) ? 0 : (uint32_t)chance(); break;
        default: b = a + (one_in(2) ? 0x10000 : 0x100); break;
        }
    }
    d[0].given.datum = a;
    d[1].given.datum = b;
    data_drawn[!one_datum(a, b)]++;
}

#define LINE(g) (g).closed, (g).degree, (g).knots, (g).knot_count, (g).mults, (g).mult_count, (g).coords, (g).coord_count, (g).weights, (g).weight_count, (g).datum

/* The first act alone, on the slices that the opening is lent; every eighth time without a word for P. Answers P, or UINT64_MAX where none was told. */
static uint64_t do_examine(const Given g[2], const double range[2][2], double gap, uint32_t splits)
{
    static uint64_t times;
    uint64_t pairs[2][3] = { { UNTOUCHED, UNTOUCHED, UNTOUCHED }, { UNTOUCHED, UNTOUCHED, UNTOUCHED } };
    size_t n = times++ % 8 == 7 ? 0 : 1 + times % 2;
    uint32_t got = lovgurshem_examine(range[0][0], range[0][1], range[1][0], range[1][1], gap, splits,
        LINE(g[0]), LINE(g[1]), PART(lent[0].pieces[0]), PART(lent[0].pieces[1]), pairs[0], n);
    int no = call_examine(g, range, gap, splits, &lent[1], pairs[1], n);
    compare_number(EXAMINE, "answer", got, (uint64_t)no);
    for (int i = 0; i < 3; i++) compare_number(EXAMINE, "word", pairs[0][i], pairs[1][i]);
    count(EXAMINE, no & 255);
    compare_worlds(EXAMINE, 0);
    return no == 0 ? pairs[0][0] : UINT64_MAX;
}

/* 1 to 18 and from 22 on leave the words and every slice as they were; all are
   compared in full, whatever is answered. */
static int do_open(State *s, int spoil)
{
    static Drawn d[2];
    double range[2][2], gap = one_in(2) ? 0.0 : one_in(2) ? (double)below(5) * 0.25 : fabs(fine());
    static const uint32_t quota[] = { 0, 1, 2, 3, 5, 9, 20, 40, 100, 256 };
    uint32_t splits = quota[below(10)];
    size_t n[SLICES + 1];
    int in_line = one_in(8), to = (int)below(sizeof directions / sizeof *directions);
    if (in_line) gap = directions[to].boxes * (1.0 + (double)below(4) * 0.0625);
    for (int i = 0; i < 2; i++) {
        Given *g = &d[i].given;
        if (in_line) draw_along(&d[i], directions[to].way, 1.5 * i);
        else draw_line(&d[i]);
        if (spoil && one_in(4)) spoil_line(&d[i]);
        g->knots = d[i].knots; g->coords = d[i].coords; g->weights = d[i].weights; g->mults = d[i].mults;
        /* the bounds: flat knots number degree and number poles */
        uint32_t at = 0, lo = 0, hi = 0, poles = (uint32_t)(g->coord_count / 3);
        for (uint32_t k = 0; k < g->knot_count && k < g->mult_count; k++) {
            if (at <= g->degree) lo = k;
            if (at <= poles) hi = k;
            at += g->mults[k] > 100 ? 100 : g->mults[k];
        }
        if (g->closed) lo = (uint32_t)below(g->knot_count + 1) % 160, hi = lo;
        range[i][0] = d[i].knots[lo];
        range[i][1] = g->closed ? d[i].knots[lo] + (d[i].knots[g->knot_count > 0 ? g->knot_count - 1 : 0] - d[i].knots[0]) : d[i].knots[hi];
        if (g->closed && one_in(3)) range[i][1] -= (double)below(8) * 0.25;
        if (one_in(3)) range[i][0] += 0.25;
        else if (range[i][0] == 0.0 && one_in(4)) range[i][0] = -0.0;
        if (one_in(3)) range[i][1] -= one_in(2) ? 0.25 : 0x1p-30;
        if (spoil && one_in(10)) range[i][below(2)] = one_in(2) ? odd() : range[i][1] + 1.0;
        if (spoil && one_in(15)) range[i][1] = nextafter(range[i][0], INFINITY);
    }
    if (spoil && one_in(12)) gap = one_in(3) ? NAN : one_in(2) ? -0x1p-1074 : 0x1.0000000000001p24;
    if (one_in(30)) gap = one_in(2) ? 0x1p24 : -0.0;
    if (spoil && one_in(12)) splits = one_in(2) ? 257 : (uint32_t)chance();
    draw_data(d, spoil);
    for (int i = 0; i <= SLICES; i++) n[i] = i == SLICES ? depth_cap : cap[i];
    if (one_in(8)) {
        int i = (int)below(SLICES + 1);
        short_calls++;
        n[i] = below(i == SLICES ? 140 : i == RANGES ? 280 : i == RAW ? 200 : 1200);
        if (i <= PIECES2 && !one_in(4)) n[i] = (1 + below(4)) * 4 * (d[i].given.degree % 32 + 1) - below(2);
        if (n[i] > (i == SLICES ? depth_cap : cap[i])) n[i] = 0;
    }
    lent[0] = lend(&lib, n, n[SLICES], mark_cap);
    lent[1] = lend(&model, n, n[SLICES], mark_cap);
    hand_words(NULL);
    Lent *a = &lent[0];
    static uint64_t times;
    Given both[2] = { d[0].given, d[1].given };
    uint64_t pairs = times++ % 2 ? do_examine(both, (const double (*)[2])range, gap, splits) : UINT64_MAX;
    uint32_t got = lovgurshem_open(range[0][0], range[0][1], range[1][0], range[1][1], gap, splits,
        LINE(d[0].given), LINE(d[1].given), PART(a->pieces[0]), PART(a->pieces[1]), PART(a->nets[0]), PART(a->nets[1]),
        PART(a->ranges), PART(a->depths), PART(a->raw), words[0], words_lent);
    int no = call_open(both, (const double (*)[2])range, gap, splits, &lent[1], words[1], words_lent);
    compare_number(OPEN, "answer", got, (uint64_t)no);
    compare_words(OPEN, no);
    if (no == 0) {
        next_state(s);
        if (pairs != UINT64_MAX) compare_number(EXAMINE, "P", pairs, words[0][0]);
        whole_openings += s->turn[0].whole || s->turn[1].whole;
    }
    count(OPEN, no & 255);
    compare_worlds(OPEN, 0);
    return no;
}

/* ---- forging ----------------------------------------------------------- */

static uint64_t bent(uint64_t x, uint64_t most)
{
    switch (below(7)) {
    case 0: case 1: return x + 1 > most ? 0 : x + 1;
    case 2: case 3: return x == 0 ? most : x - 1;
    case 4: return 0;
    case 5: return most;
    default: return chance() & most;
    }
}

/* Tags whose sum is settled's only modulo 2^32: it is 2^32 or 2^33 more. */
static void bend_sum(State *s)
{
    static const uint32_t more[][TAGS] = { { 0x80000000, 0x80000000, 0 }, { 0xFFFFFFFF, 1, 0 }, { 0xFFFFFFFF, 0, 1 }, { 0x55555555, 0x55555555, 0x55555556 },
                                           { 0xFFFFFFFF, 0xFFFFFFFF, 2 }, { 0xAAAAAAAA, 0xAAAAAAAB, 0xAAAAAAAB } };
    const uint32_t *add = more[below(sizeof more / sizeof *more)];
    uint64_t from = below(TAGS);
    for (int i = 0; i < TAGS; i++) s->by[(i + from) % TAGS] += add[i];
}

static void bend(State *s)
{
    static const uint8_t widths[] = { 0, 1, 2, 26, 27, 255 };
    uint32_t *tag = &s->by[below(TAGS)], *other = &s->by[below(TAGS)];
    switch (below(20)) {
    case 0: s->pairs = (uint16_t)bent(s->pairs, UINT16_MAX); break;
    case 1: s->quota = (uint16_t)bent(s->quota, UINT16_MAX); break;
    case 2: s->waiting = one_in(3) ? s->pairs + (uint32_t)below(70) : (uint32_t)bent(s->waiting, UINT32_MAX); break;
    case 3: s->visits = one_in(2) ? (uint64_t)s->splits + s->settled + s->given + below(3) : bent(s->visits, UINT64_MAX); break;
    case 4: s->splits = (uint32_t)bent(s->splits, UINT32_MAX); break;
    case 5: s->unspent = (uint32_t)bent(s->unspent, UINT32_MAX); break;
    case 6: {
        uint32_t was = s->settled;
        s->settled = (uint32_t)bent(s->settled, UINT32_MAX);
        if (one_in(2)) *tag += s->settled - was;
        break;
    }
    case 7: s->given = (uint32_t)bent(s->given, UINT32_MAX); break;
    case 8: s->width[0] = one_in(3) ? (uint8_t)bent(s->width[0], 255) : widths[below(6)]; break;
    case 9: s->width[1] = one_in(3) ? (uint8_t)bent(s->width[1], 255) : widths[below(6)]; break;
    case 10: s->gap = float_of(odd_bits()); break;
    case 11: /* sums that are right in 32 bits only */
        s->settled += 0x80000000;
        s->given += 0x80000000;
        *tag += 0x80000000;
        break;
    case 12: {
        uint32_t n = 1 + (uint32_t)below(1000);
        s->splits += s->unspent + n;
        s->settled += s->unspent + n;
        *tag += s->unspent + n;
        s->unspent = -n;
        break;
    }
    case 13: s->stopped = !s->stopped; break;
    case 14: s->turn[below(2)].whole ^= 1; break;
    case 15: case 16: *tag = (uint32_t)bent(*tag, UINT32_MAX); break;
    case 17: /* the sum stays */
        *tag += 1;
        *other -= 1;
        break;
    case 18: bend_sum(s); break;
    default: *(one_in(2) ? &s->turn[below(2)].lo : &s->turn[below(2)].hi) = float_of(odd_bits()); break;
    }
}

/* Terms that regions meet: whole turns whose ends are a start and an end among
 * the raw regions and the ranges, zeros of either sign. */
static void invent_terms(State *s)
{
    for (int i = 0; i < 2; i++) {
        size_t a = below(8), b = below(8);
        const double *from = one_in(2) ? model.f[RAW] + 10 * a : model.f[RANGES] + 4 * a;
        const double *to = one_in(2) ? model.f[RAW] + 10 * b : model.f[RANGES] + 4 * b;
        s->turn[i] = (Turn){ !one_in(4), from[2 * i], to[2 * i + 1] };
        if (s->turn[i].lo == 0.0 && one_in(2)) s->turn[i].lo = -s->turn[i].lo;
        if (s->turn[i].hi == 0.0 && one_in(2)) s->turn[i].hi = -s->turn[i].hi;
    }
}

/* Tags that sum to settled. */
static void share(State *s)
{
    uint32_t a = (uint32_t)below((uint64_t)s->settled + 1), b = one_in(4) ? 0 : (uint32_t)below((uint64_t)s->settled - a + 1);
    uint32_t part[TAGS] = { a, b, s->settled - a - b };
    uint64_t from = below(TAGS);
    for (int i = 0; i < TAGS; i++) s->by[i] = part[(i + from) % TAGS];
}

/* Both memories get these depths in slot k, where there is one. */
static void put_depths(size_t k, uint64_t first, uint64_t second)
{
    if (2 * k + 2 > depth_cap) return;
    lib.depths[2 * k] = model.depths[2 * k] = (uint8_t)first;
    lib.depths[2 * k + 1] = model.depths[2 * k + 1] = (uint8_t)second;
}

/* Two depths with this sum, if each may be at most 32 or one more. */
static void put_sum(size_t k, uint64_t sum)
{
    uint64_t most = 32 + (uint64_t)one_in(8), first;
    if (sum > 2 * most) sum = 2 * most;
    first = sum > most ? sum - most + below(2 * most - sum + 1) : below(sum + 1);
    put_depths(k, first, sum - first);
}

/* A state that passes the six tests (if the top node's depths let it), and
 * that no list of calls need have made. */
static void invent(State *s)
{
    uint64_t all, of;
    s->pairs = (uint16_t)below(40);
    s->quota = (uint16_t)below(one_in(3) ? 300 : 12);
    while (10 * (size_t)s->pairs * (s->quota + 1u) > cap[RAW] && !one_in(20)) s->quota /= 2;
    all = (uint64_t)s->pairs * s->quota;
    s->splits = (uint32_t)(one_in(4) ? all : below(all + 1));
    s->unspent = (uint32_t)(all - s->splits);
    of = (uint64_t)s->pairs + s->splits;
    s->waiting = (uint32_t)below((of < 104 ? of : 104) + 1);
    s->given = (uint32_t)(one_in(3) ? of - s->waiting : below(of - s->waiting + 1));
    s->settled = (uint32_t)(of - s->waiting - s->given);
    share(s);
    s->visits = one_in(2) ? (uint64_t)s->splits + s->settled + s->given + one_in(2) : below(of + 2);
    s->stopped = one_in(4);
    if (one_in(3)) s->width[below(2)] = (uint8_t)(one_in(8) ? below(256) : 2 + below(25));
    for (int i = 0; i < 2; i++)
        while (s->width[i] > 3 && (s->pairs + 64u) * 4 * s->width[i] > cap[NETS1 + i] && !one_in(20)) s->width[i] /= 2;
    if (one_in(6)) s->gap = float_of(odd_bits());
    if (!one_in(3)) invent_terms(s);
    if (s->waiting > 0) {
        uint64_t least_sum = s->waiting > s->pairs ? s->waiting - s->pairs : 0;
        put_sum(s->waiting - 1, one_in(3) ? least_sum + below(2) : one_in(3) ? 64 - below(2) : least_sum + below(64));
    }
}

static void forge_memory(const State *s)
{
    for (uint64_t i = 1 + below(6); i > 0; i--) {
        int slice = (int)(NETS1 + below(4));
        size_t top = s->waiting && s->waiting < 200 ? s->waiting - 1 : 0;
        size_t at = slice == NETS1 ? top * 4 * s->width[0] + below(4 * s->width[0] + 1)
                  : slice == NETS2 ? top * 4 * s->width[1] + below(4 * s->width[1] + 1)
                  : slice == RANGES ? top * 4 + below(4) : below(cap[slice]);
        if (at >= cap[slice]) at = below(cap[slice]);
        lib.f[slice][at] = model.f[slice][at] = filler(slice, 1);
        if (one_in(2)) {
            static const uint8_t d[] = { 0, 1, 31, 32, 32, 33, 64, 255 };
            put_depths(top, d[below(8)], d[below(8)]);
        }
    }
}

/* An ended search with a few regions in a grid of cells, 0 to 4 on each line,
 * most of them apart: the first cell starts where the asked range does, the
 * last ends where it ends. Or the ends are any cells', also falling. */
static void forge_regions(State *s)
{
    uint32_t n = 1 + (uint32_t)below(14);
    *s = (State){ .pairs = (uint16_t)n, .quota = (uint16_t)below(3), .visits = n, .given = n, .width = { 2, 2 }, .stopped = one_in(2) };
    s->unspent = (uint32_t)s->quota * n;
    for (int i = 0; i < 2; i++) {
        s->turn[i] = (Turn){ !one_in(3), one_in(2) ? 0.0 : -0.0, 4.0 };
        if (one_in(6)) s->turn[i].lo = (double)below(4), s->turn[i].hi = (double)below(4) + 0.5;
        if (one_in(8)) *(one_in(2) ? &s->turn[i].lo : &s->turn[i].hi) = float_of(odd_bits());
        for (size_t k = 0; k < n; k++) {
            double cell = (double)below(4), *a = lib.f[RAW] + 10 * k + 2 * i, *b = model.f[RAW] + 10 * k + 2 * i;
            a[0] = b[0] = cell == 0.0 && one_in(2) ? -0.0 : cell;
            a[1] = b[1] = cell == 3.0 || one_in(6) ? cell + 1.0 : cell + 0.5;
        }
    }
}

/* ---- numbers of verdicts, and sums of tags (02, M-103) ------------------ */

/* A search with one node waiting, others settled by each test and given up. */
static State small_search(int deep_top, uint32_t unspent)
{
    State s = { .pairs = 3, .quota = 2, .waiting = 1, .visits = 14 - 2 * unspent, .splits = 6 - unspent, .unspent = unspent,
                .settled = 7 - unspent, .given = 1, .by = { 1, 1, 5 - unspent }, .width = { 2, 2 } };
    put_depths(0, deep_top ? 32 : 2, deep_top ? 32 : 3);
    return s;
}

/* A step with this number where a split halves, ends the search, gives up. */
static void step_with(uint32_t number)
{
    for (int i = 0; i < 3; i++) {
        State s = small_search(i == 2, i == 1 ? 0 : 4);
        if (do_step(&s, number) != 0) differs(STEP + (int)verdict_of(number), "refused, with the number", number, 0);
    }
    swept_verdicts++;
}

static void each_verdict(void)
{
    for (uint32_t n = 0; n <= 300; n++) step_with(n);
    for (uint32_t k = 1; k <= 5; k++)
        for (int shift = 8; shift < 32; shift++) {
            step_with(k << shift);
            step_with(k + (1u << shift));
        }
    step_with(0x80000000);
    step_with(UINT32_MAX);
}

/* An own verdict, a step, a loop and a report of a state with these tags, which
 * pass if `fit`. */
static void calls_with(uint32_t box, uint32_t plane, uint32_t line, int fit)
{
    State s = small_search(0, 4), t, u;
    int passed;
    s.by[BY_BOX] = box;
    s.by[BY_PLANE] = plane;
    s.by[BY_LINE] = line;
    t = u = s;
    u.stopped = 1;
    passed = do_own(&s) <= 5;
    passed += do_step(&s, 1 + (uint32_t)below(5)) == 0;
    small_search(0, 4);
    passed += do_run(&t) == 0;
    passed += do_report(&u) == 0;
    if (passed != (fit ? 4 : 0)) differs(TELL, "own verdict, step, run or report passed", passed, fit ? 4 : 0);
    swept_sums[fit]++;
}

/* Three nodes are settled. */
static void each_sum(void)
{
    static const uint32_t edge[] = { 0, 1, 2, 3, 4, 5, 0x55555555, 0x55555556, 0x55555557, 0x7FFFFFFF, 0x80000000, 0x80000001, 0x80000003, 0xAAAAAAAA, 0xAAAAAAAB,
                                     0xAAAAAAAC, 0xAAAAAAAD, 0xFFFFFFFC, 0xFFFFFFFD, 0xFFFFFFFE, 0xFFFFFFFF };
    enum { EDGES = sizeof edge / sizeof *edge };
    for (int i = 0; i < EDGES; i++)
        for (int j = 0; j < EDGES; j++)
            for (int k = 0; k < EDGES; k++) {
                uint64_t sum = (uint64_t)edge[i] + edge[j] + edge[k];
                uint32_t off = (uint32_t)sum - 3;
                if (off + 1 <= 2) calls_with(edge[i], edge[j], edge[k], sum == 3);
            }
}

/* Two spans for each test, the first in 01's order that passes on them; the own
 * verdict says so, and the step counts the node by the step's tag. */
static void each_tag(void)
{
    static const struct { double gap, net[2][8]; } parted[TAGS] = {
        [BY_BOX] = { 0.5, { { 0, 0, 0, 1, 2, 2, 0, 1 }, { 3, 3, 0, 1, 5, 5, 0, 1 } } },
        [BY_PLANE] = { 0.5, { { 0, 0, 0, 1, 2, 2, 0, 1 }, { 1, 0, 0, 1, 3, 2, 0, 1 } } },
        [BY_LINE] = { 0.5, { { 0, 0, 0, 1, 4, 4, 4, 1 }, { 4.5, 4.5, 4.5, 1, 6, 6, 6, 1 } } },
    };
    for (int own = 0; own < TAGS; own++)
        for (int tag = 0; tag < TAGS; tag++) {
            State s = small_search(0, 4), old;
            s.gap = parted[own].gap;
            old = s;
            for (int i = 0; i < 2; i++) {
                memcpy(lib.f[NETS1 + i], parted[own].net[i], sizeof parted[own].net[i]);
                memcpy(model.f[NETS1 + i], parted[own].net[i], sizeof parted[own].net[i]);
            }
            compare_number(OWN, "the test that is said", (uint64_t)do_own(&s), verdict_number((Verdict)own));
            if (do_step(&s, verdict_number((Verdict)tag)) != 0) differs(STEP + tag, "refused", 0, 0);
            compare_number(STEP + tag, "settled", words[0][6], old.settled + 1);
            for (int i = 0; i < TAGS; i++) compare_number(STEP + tag, "a tag's count", words[0][12 + i], old.by[i] + (i == tag));
            if (do_report(&s) != 0) differs(TELL, "refused", 0, 0);
            swept_tags++;
        }
}

/* ---- two depths a node (02, M-106) -------------------------------------- */

/* Both memories get a net from the origin to x, 0, 0 in the first slot. */
static void put_lengths(double x, double y)
{
    double net[2][8] = { { 0, 0, 0, 1, x, 0, 0, 1 }, { 0, 0, 0, 1, y, 0, 0, 1 } };
    for (int i = 0; i < 2; i++) {
        memcpy(lib.f[NETS1 + i], net[i], sizeof net[i]);
        memcpy(model.f[NETS1 + i], net[i], sizeof net[i]);
    }
}

/* Splits alone, from lines so long down to 32 on both, with 64 splits or more;
 * with 64 the node at 32 and 32 is met at allowance 0. */
static void descend(double x, double y, uint16_t quota)
{
    State s = { .pairs = 1, .quota = quota, .waiting = 1, .unspent = quota, .width = { 2, 2 } };
    uint64_t before = deep[0] + deep[1];
    put_lengths(x, y);
    put_depths(0, 0, 0);
    while (!has_ended(&s))
        if (do_step(&s, LOVGURSHEM_SPLIT) != 0) {
            differs(STEP + SPLIT, "refused", 0, 0);
            return;
        }
    if (do_report(&s) != 0) differs(TELL, "refused", 0, 0);
    if (deep[0] + deep[1] - before < 2 || s.waiting == 0) differs(STEP + SPLIT, "not down to 32 and 32", s.waiting, s.given);
    descents++;
}

/* The first line's box larger all the way, the second's, both of one size, and
 * each larger by turns; measured, or without a measure. */
static void each_descent(void)
{
    static const double length[][2] = { { 0x1p20, 0 }, { 0, 0x1p20 }, { 0, 0 }, { 1, 1 }, { 1, 0.75 }, { 0.75, 1 }, { 0x1p20, 1 }, { 1, 0x1p20 },
                                        { 0x1p10, 3 }, { 3, 0x1p10 }, { 0x1p30, 1 }, { 1, 0x1p30 }, { 0x1p40, 0x1p40 }, { 0x1p30, 0x1p40 }, { NAN, 1 }, { 1, NAN } };
    static const uint16_t quota[] = { 64, 65, 66, 100, 256 };
    for (size_t i = 0; i < sizeof length / sizeof *length; i++)
        for (size_t j = 0; j < sizeof quota / sizeof *quota; j++) descend(length[i][0], length[i][1], quota[j]);
}

/* An own verdict, a step, a loop and a report of a search with so many nodes
 * waiting and these depths of the top one; 02: "the top node's depth is the sum
 * of its two, and either over 32 meets 19 too". */
static void calls_at(uint32_t waiting, uint32_t first, uint32_t second)
{
    enum { PAIRS = 2, QUOTA = 40 };
    uint32_t splits = waiting > PAIRS ? waiting - PAIRS : 0, given = PAIRS + splits - waiting;
    State s = { .pairs = PAIRS, .quota = QUOTA, .waiting = waiting, .visits = splits + given, .splits = splits, .unspent = PAIRS * QUOTA - splits,
                .given = given, .width = { 2, 2 } }, t = s, u = s;
    int fit = waiting <= PAIRS + first + second && first <= 32 && second <= 32, passed;
    u.stopped = 1;
    for (size_t k = 0; k + 1 < waiting; k++) put_depths(k, k / 2, k - k / 2);
    put_depths(waiting - 1, first, second);
    passed = do_own(&s) <= 5;
    passed += do_report(&u) == 0;
    passed += do_step(&s, 1 + (uint32_t)below(5)) == 0;
    put_depths(waiting - 1, first, second);
    passed += do_run(&t) == 0;
    if (passed != (fit ? 4 : 0)) differs(TELL, "own verdict, report, step or run passed", passed, fit ? 4 : 0);
    swept_depths[fit]++;
}

static void each_depth(void)
{
    static const uint8_t edge[] = { 0, 1, 2, 30, 31, 32, 33, 34, 63, 64, 65, 127, 128, 223, 224, 254, 255 };
    enum { EDGES = sizeof edge };
    for (int i = 0; i < EDGES; i++)
        for (int j = 0; j < EDGES; j++) {
            uint32_t both = 2 + (uint32_t)edge[i] + edge[j];
            const uint32_t waiting[] = { 1, 2, 3, 34, 35, 65, 66, 67, 68, both - 1, both, both + 1 };
            for (size_t k = 0; k < sizeof waiting / sizeof *waiting; k++)
                if (waiting[k] <= 68) calls_at(waiting[k], edge[i], edge[j]);
        }
}

/* A Split of a node with each depth from 30 to 32 on both lines, 0 too, and with
 * each order of the boxes, at each allowance. */
static void each_division(void)
{
    static const uint8_t depth[] = { 0, 1, 30, 31, 32 };
    static const double length[][2] = { { 2, 1 }, { 1, 2 }, { 1, 1 } };
    for (int i = 0; i < 5; i++)
        for (int j = 0; j < 5; j++)
            for (int k = 0; k < 3; k++)
                for (uint16_t quota = 0; quota < 3; quota++) {
                    State s = { .pairs = 1, .quota = quota, .waiting = 1, .unspent = quota, .width = { 2, 2 } };
                    put_lengths(length[k][0], length[k][1]);
                    put_depths(0, depth[i], depth[j]);
                    if (do_step(&s, LOVGURSHEM_SPLIT) != 0) differs(STEP + SPLIT, "refused", depth[i], depth[j]);
                    if (depth[i] == 32 && depth[j] == 32) compare_number(STEP + SPLIT, "unspent with both at 32", s.unspent, quota);
                }
}

/* Two a node: 132 for two pairs. One short, of odd length, one a node; and with
 * 67 nodes said to wait, the slot of the top one lent in part. */
static void each_length(void)
{
    for (depths_lent = 1; depths_lent <= 2 * 68 + 1; depths_lent++) {
        State s = { .pairs = 2, .quota = 40, .waiting = 2, .unspent = 80, .width = { 2, 2 } }, t = s, u = s, f = s;
        int passed, enough = depths_lent >= 132;
        u.stopped = 1;
        f.waiting = 67;
        f.splits = 65;
        f.unspent = 15;
        put_depths(0, 0, 0);
        put_depths(1, 3, 4);
        put_depths(66, 32, 32);
        passed = do_own(&s) <= 5;
        passed += do_report(&u) == 0;
        passed += do_step(&s, LOVGURSHEM_SPLIT) == 0;
        passed += do_run(&t) == 0;
        if (passed != (enough ? 4 : 0)) differs(TELL, "own verdict, report, step or run passed with so many depths", (double)depths_lent, passed);
        if (do_own(&f) <= 5 || do_step(&f, LOVGURSHEM_SPLIT) == 0) differs(STEP, "67 nodes of two pairs passed with so many depths", (double)depths_lent, 0);
        swept_lengths++;
    }
    depths_lent = 0;
}

static void sweep(void)
{
    cap[PIECES1] = cap[PIECES2] = 0;
    cap[NETS1] = cap[NETS2] = 8 * 68;
    cap[RANGES] = 4 * 68;
    depth_cap = 2 * 68;
    cap[RAW] = cap[REPORT] = 10 * (mark_cap = 257);
    fill_worlds(0);
    plain = 1;
    each_verdict();
    each_sum();
    each_tag();
    each_descent();
    each_depth();
    each_division();
    each_length();
    plain = 0;
}

/* ---- a list ------------------------------------------------------------ */

/* Whether the state's words are a state's: forged widths may not be. */
static int readable(const State *s)
{
    uint64_t w[STATE_WORDS];
    State t;
    write_words(s, w);
    return read_words(w, STATE_WORDS, &t);
}

static void one_call(State *s, int bias)
{
    uint64_t r = below(100);
    if (r < 10) do_own(s);
    else if (r < 16) do_report(s);
    else if (r < 19 && (bias != 1 || one_in(8))) do_run(s);
    else if (bias == 1) do_step(s, number_of(one_in(25) ? (one_in(2) ? (Verdict)below(TAGS) : UNSEPARATED) : SPLIT));
    else if (bias == 2) do_step(s, number_of((Verdict)below(UNSEPARATED + 1)));
    else {
        Verdict v = SPLIT, own;
        Lent m;
        size_t n[SLICES];
        memcpy(n, cap, sizeof n);
        m = lend(&model, n, depth_cap, mark_cap);
        if (readable(s)) own_verdict(s, &m, &v);
        own = v;
        /* 02, M-103: "A verdict given by a caller is tagged .. by that caller" */
        if (is_settled(own) && one_in(3)) {
            v = (Verdict)below(TAGS);
            do_own(s);
        }
        if (do_step(s, number_of(v)) == 0 && is_settled(own)) tagged[own][v]++;
    }
}

static uint64_t steps_and_reports(void)
{
    uint64_t n = counts[TELL][0];
    for (int k = STEP; k < OWN; k++) n += counts[k][0];
    return n;
}

/* At most n openings, until one isn't refused. */
static void open_until(State *s, int n)
{
    State first;
    for (; n > 0; n--, call_number++)
        if (do_open(&first, n > 4 && one_in(2)) == 0) {
            *s = first;
            return;
        }
}

static void one_list(uint64_t least_calls, uint64_t most_calls)
{
    int forging = !one_in(3), wild = one_in(3), big = one_in(30), bias = (int)below(3);
    uint64_t n = least_calls + below(most_calls - least_calls + 1);
    State s = { 0 }, kept;
    spans = big ? 129 : one_in(2) ? 2 : 5;
    cap[PIECES1] = cap[PIECES2] = big ? 16000 : 700;
    cap[NETS1] = cap[NETS2] = big ? 104 * 4 * 255 : one_in(3) ? 104 * 4 * 27 : 104 * 4 * 6;
    cap[RANGES] = 2 * (depth_cap = big ? 8000 : 208);
    cap[RAW] = cap[REPORT] = big ? 60000 : one_in(3) ? 16000 : 6000;
    mark_cap = cap[RAW] / 10;
    fill_worlds(wild && forging);
    filling = !big && one_in(3);
    call_number = 0;
    open_until(&s, 12);
    kept = s;
    for (; call_number < n; call_number++) {
        if (one_in(60)) {
            open_until(&s, 1);
            continue;
        }
        if (forging && wild && one_in(6)) forge_memory(&s);
        if (forging && wild && one_in(12)) {
            State f;
            forge_regions(&f);
            forged_calls++;
            forged = 1;
            do_report(&f);
            forged = 0;
            continue;
        }
        if (forging && one_in(5)) {
            State f = one_in(3) ? kept : s;
            uint64_t before = steps_and_reports();
            int invented = one_in(2);
            if (invented) invent(&f);
            for (uint64_t i = invented ? one_in(4) : 1 + one_in(4); i > 0; i--) bend(&f);
            forged_calls++;
            forged = 1;
            one_call(&f, 2);
            forged = 0;
            forged_passed += steps_and_reports() > before;
            if (one_in(invented ? 2 : 20) && readable(&f)) s = f;
            continue;
        }
        if (one_in(20)) kept = s;
        if (has_ended(&s) && one_in(4)) {
            do_report(&s);
            do_report(&s);
            open_until(&s, one_in(2) ? 6 : 0);
            continue;
        }
        one_call(&s, bias);
    }
}

int main(int argc, char **argv)
{
    uint64_t lists, least_calls = 50, most_calls = 300;
    if (argc != 3 && argc != 5) {
        fprintf(stderr, "usage: calls SEED LISTS [LEAST MOST]\n");
        return 2;
    }
    lists_seed = strtoull(argv[1], NULL, 10);
    lists = strtoull(argv[2], NULL, 10);
    if (argc == 5) {
        least_calls = strtoull(argv[3], NULL, 10);
        most_calls = strtoull(argv[4], NULL, 10);
    }
    new_worlds();
    chance_state = lists_seed;
    sweep();
    for (list_number = 0; list_number < lists; list_number++) {
        chance_state = lists_seed * 0x9E3779B97F4A7C15 + list_number * 0xD1B54A32D192ED03;
        one_list(least_calls, most_calls);
    }
    printf("lists %lu, calls %lu, with a forged state %lu (%lu of them a step or report that wasn't refused), with a slice cut short %lu, with too few words %lu, too few counts %lu\n",
           (unsigned long)lists, (unsigned long)calls, (unsigned long)forged_calls, (unsigned long)forged_passed, (unsigned long)short_calls, (unsigned long)few_words, (unsigned long)few_counts);
    printf("one word forged, and of these not refused:");
    for (int i = 0; i < LOVGURSHEM_STATE; i++) printf(" %d=%lu/%lu", i, (unsigned long)spoiled[i], (unsigned long)spoiled_passed[i]);
    printf("\nown verdicts with a gap that isn't 0 to 2^24: %lu; verdicts over 255: %lu\n", (unsigned long)odd_gaps, (unsigned long)wide_verdicts);
    for (int k = 0; k < KINDS; k++) {
        printf("%s:", kind_name[k]);
        for (int i = 0; i < 32; i++)
            if (counts[k][i]) printf(" %d=%lu", i, (unsigned long)counts[k][i]);
        printf("\n");
    }
    printf("steps with each of %lu verdict numbers; tags of three settled nodes that sum %lu, that don't %lu; an own verdict by each test before each tag %lu; reports with nodes settled by box %lu, plane %lu, line %lu\n",
           (unsigned long)swept_verdicts, (unsigned long)swept_sums[1], (unsigned long)swept_sums[0], (unsigned long)swept_tags,
           (unsigned long)told_tags[BY_BOX], (unsigned long)told_tags[BY_PLANE], (unsigned long)told_tags[BY_LINE]);
    printf("steps Settled by box, plane, line with the own verdict by box %lu %lu %lu, by plane %lu %lu %lu, by line %lu %lu %lu\n",
           (unsigned long)tagged[0][0], (unsigned long)tagged[0][1], (unsigned long)tagged[0][2], (unsigned long)tagged[1][0], (unsigned long)tagged[1][1],
           (unsigned long)tagged[1][2], (unsigned long)tagged[2][0], (unsigned long)tagged[2][1], (unsigned long)tagged[2][2]);
    printf("halved first %lu, second %lu, of these with the other at 32 %lu, %lu; Split with both at 32 %lu, at allowance 0 %lu; stopped %lu; regions raw %lu, merged %lu\n",
           (unsigned long)halved[0], (unsigned long)halved[1], (unsigned long)gave_way[0], (unsigned long)gave_way[1], (unsigned long)deep[1], (unsigned long)deep[0],
           (unsigned long)stopped, (unsigned long)raw_regions, (unsigned long)merged_regions);
    printf("descents by Split alone %lu; depths of a top node that fit %lu, that don't %lu; lengths of the depths %lu\n",
           (unsigned long)descents, (unsigned long)swept_depths[1], (unsigned long)swept_depths[0], (unsigned long)swept_lengths);
    printf("steps with every free slot of the nets filled %lu\n", (unsigned long)filled_steps);
    printf("openings with lines of one datum %lu, with others %lu\n", (unsigned long)data_drawn[0], (unsigned long)data_drawn[1]);
    printf("openings with a whole turn %lu; reports with one %lu; with a group %lu, and of a forged state %lu\n",
           (unsigned long)whole_openings, (unsigned long)turned, (unsigned long)groups[0], (unsigned long)groups[1]);
    printf("differences %lu\n", (unsigned long)differences);
    return differences != 0;
}
