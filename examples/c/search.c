/*
 * A dredge track searched against an outfall, step by step, and then a whole
 * sheet answered. Prints the report as the program clearance prints it.
 *
 *   search SHEET     SHEET a file as the program clearance reads it
 *
 * Built with: cc -std=c99 -I include examples/c/search.c target/staticlib/liblovgurshem.a
 */
#include "lovgurshem.h"
#include <inttypes.h>
#include <stdio.h>
#include <stdlib.h>
#include <string.h>

#define COUNT(a) (sizeof (a) / sizeof *(a))
#define SLICE(a) (a), COUNT(a)

/* The track: degree 3, nine spans. The outfall: degree 2, three spans. */
static const double track_knots[] = { 0, 1, 2, 3, 4, 5, 6, 7, 8, 9 };
static const uint32_t track_mults[] = { 4, 1, 1, 1, 1, 1, 1, 1, 1, 4 };
static const double track_coords[] = {
    5, 12, -12, 41.5, 18.25, -12, 78, 21.5, -12.5, 112.75, 14, -13,
    149, 3.5, -13.25, 185.5, -2.25, -13.5, 221, 1.75, -13.75, 258.25, 10.5, -14,
    296, 16, -14, 333.5, 13.25, -13.5, 369.75, 6, -13, 403, 2.5, -12.75,
};
static const double outfall_knots[] = { 0, 1, 2, 3 };
static const uint32_t outfall_mults[] = { 3, 1, 1, 3 };
static const double outfall_coords[] = {
    214, 88, -9.5, 216.5, 60, -11, 219, 38, -12.5, 221, 19, -13.5, 222.5, 6.5, -14.25,
};
static const uint32_t datum = 1; /* both lines are held in one grid */
static const double gap = 5.0;

/* The pieces' nets, and one word, tell P; the other slices are lent for it. */
enum { PIECES1 = 9, PIECES2 = 3, SPLITS = 64, WIDTH1 = 4, WIDTH2 = 3 };
static double pieces1[4 * WIDTH1 * PIECES1], pieces2[4 * WIDTH2 * PIECES2];
static uint64_t pairs[1], state[LOVGURSHEM_STATE], counts[LOVGURSHEM_COUNTS];
static size_t nodes, regions; /* P + 64, and P * (S + 1) */
static double *nets1, *nets2, *ranges, *raw, *report;
static uint32_t *marks;
static uint8_t *depths;

#define NETS1 nets1, 4 * WIDTH1 * nodes
#define NETS2 nets2, 4 * WIDTH2 * nodes
#define RANGES ranges, 4 * nodes
#define DEPTHS depths, 2 * nodes
#define RAW raw, 10 * regions
#define REPORT report, 10 * regions
#define MARKS marks, regions

/* The question and the lines, as both acts of an opening take them. */
static const double none[1]; /* weights: none, so each is 1 */
#define ASKED 0.0, 9.0, 0.0, 3.0, gap, SPLITS, \
    0, 3, SLICE(track_knots), SLICE(track_mults), SLICE(track_coords), none, 0, datum, \
    0, 2, SLICE(outfall_knots), SLICE(outfall_mults), SLICE(outfall_coords), none, 0, datum

/* Whether there is memory for this P. */
static int lend(uint64_t p)
{
    nodes = p + 64;
    regions = p * (SPLITS + 1);
    nets1 = calloc(4 * WIDTH1 * nodes, sizeof *nets1);
    nets2 = calloc(4 * WIDTH2 * nodes, sizeof *nets2);
    ranges = calloc(4 * nodes, sizeof *ranges);
    depths = calloc(2 * nodes, sizeof *depths);
    raw = calloc(10 * regions + 1, sizeof *raw); /* a pointer isn't NULL, also where P is 0 */
    report = calloc(10 * regions + 1, sizeof *report);
    marks = calloc(regions + 1, sizeof *marks);
    return nets1 && nets2 && ranges && depths && raw && report && marks;
}

static uint32_t open_search(void)
{
    uint32_t no = lovgurshem_examine(ASKED, SLICE(pieces1), SLICE(pieces2), SLICE(pairs));
    if (no != 0) return no;
    if (!lend(pairs[0])) return 19;
    return lovgurshem_open(ASKED, SLICE(pieces1), SLICE(pieces2), NETS1, NETS2, RANGES, DEPTHS, RAW, SLICE(state));
}

/* Each step gets the search's own verdict. Answers 20, the end, or a refusal. */
static uint32_t take_steps(void)
{
    for (;;) {
        uint32_t verdict = lovgurshem_own_verdict(SLICE(state), NETS1, NETS2, DEPTHS);
        if (verdict > LOVGURSHEM_SETTLED_LINE) return verdict;
        uint32_t no = lovgurshem_step(verdict, SLICE(state), NETS1, NETS2, RANGES, DEPTHS, RAW);
        if (no != 0) return no;
    }
}

/* The bits of a double; zeros as +0. */
static uint64_t bits(double x)
{
    uint64_t b;
    memcpy(&b, &x, sizeof b);
    return x == 0.0 ? 0 : b;
}

static void print_report(void)
{
    static const char *word[] = { "complete", "budget", "unseparated" };
    printf("%s pairs=%" PRIu64 " visits=%" PRIu64 " splits=%" PRIu64, word[counts[0]], counts[1], counts[2], counts[3]);
    printf(" settled=%" PRIu64 " box=%" PRIu64 " plane=%" PRIu64 " line=%" PRIu64, counts[4], counts[9], counts[10], counts[11]);
    printf(" given=%" PRIu64 " left=%" PRIu64 " regions=%" PRIu64 "\n", counts[5], counts[6], counts[8]);
    for (uint64_t i = 0; i < counts[8]; i++) {
        printf("region");
        for (int j = 0; j < 10; j++) printf(" %016" PRIX64, bits(report[10 * i + j]));
        printf(" %" PRIu32 "\n", marks[i]);
    }
}

static int answer_sheet(const char *path)
{
    static uint8_t sheet[16388], answer[LOVGURSHEM_ANSWER];
    FILE *f = fopen(path, "rb");
    if (!f) return 1;
    size_t n = fread(sheet, 1, sizeof sheet, f);
    fclose(f);
    size_t m = lovgurshem_answer(sheet, n, SLICE(answer));
    return fwrite(answer, 1, m, stdout) != m;
}

int main(int argc, char **argv)
{
    uint32_t no;
    if (argc != 2) {
        fprintf(stderr, "usage: search SHEET\n");
        return 2;
    }
    no = open_search();
    if (no != 0) {
        printf("refused %u %u\n", (unsigned)(no % 256), (unsigned)(no / 256));
        return 1;
    }
    no = take_steps();
    if (no == 20)
        no = lovgurshem_report(SLICE(state), NETS1, NETS2, RANGES, DEPTHS, RAW, REPORT, MARKS, SLICE(counts));
    if (no != 0) {
        printf("refused %u 0\n", (unsigned)no);
        return 1;
    }
    print_report();
    return answer_sheet(argv[1]);
}
