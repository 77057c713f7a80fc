/* calls N [steps] < SHEET: lovgurshem_open, lovgurshem_run and lovgurshem_report on the sheet's lines and question, N times in one process, in memory
   that is made once; with `steps` each node gets lovgurshem_own_verdict and lovgurshem_step in the place of the loop. The sheet is one that the program
   answers with a report. Prints the first of the report's counts and the number of regions. */
#include "lovgurshem.h"
#include <stdio.h>
#include <stdlib.h>
#include <string.h>

#define SLICE(a) (a), sizeof (a) / sizeof *(a)

struct line {
    uint32_t closed, degree, datum, mults[4096];
    double knots[2048], coords[2048], weights[2048];
    size_t knot_count, mult_count, coord_count, weight_count;
};

static uint32_t words[4097];
static size_t word_count, next;
static struct line first, second;
static double asked[5];
static double pieces1[8112], pieces2[8112], nets1[7904], nets2[7904], ranges[304], raw[8190], report[8190];
static uint8_t depths[152];
static uint32_t marks[819];
static uint64_t state[LOVGURSHEM_STATE], counts[LOVGURSHEM_COUNTS];

/* The count of the next word, which is of this kind. */
static size_t count_of(uint32_t kind)
{
    if (next >= word_count || words[next] >> 28 != kind) exit(2);
    return words[next++] & 0xfffffff;
}

static size_t floats(double *to, size_t n)
{
    if (n > 2048 || next + 2 * n > word_count) exit(2);
    memcpy(to, words + next, 8 * n);
    next += 2 * n;
    return n;
}

static void read_line(struct line *l)
{
    l->closed = next < word_count && words[next] >> 28 == 8;
    l->degree = (uint32_t)count_of(l->closed ? 8 : 1);
    l->knot_count = floats(l->knots, count_of(2));
    l->mult_count = count_of(3);
    if (next + l->mult_count > word_count) exit(2);
    memcpy(l->mults, words + next, 4 * l->mult_count);
    next += l->mult_count;
    l->coord_count = floats(l->coords, 3 * count_of(4));
    if (next < word_count && words[next] >> 28 == 5) l->weight_count = floats(l->weights, count_of(5));
    l->datum = (uint32_t)count_of(9);
}

/* The own verdict to each step, until the search ends: 0 or the number of a refusal. */
static uint32_t take_steps(void)
{
    for (;;) {
        uint32_t verdict = lovgurshem_own_verdict(SLICE(state), SLICE(nets1), SLICE(nets2), SLICE(depths));
        if (verdict == 20) return 0;
        if (verdict > LOVGURSHEM_SETTLED_LINE) return verdict;
        uint32_t no = lovgurshem_step(verdict, SLICE(state), SLICE(nets1), SLICE(nets2), SLICE(ranges), SLICE(depths), SLICE(raw));
        if (no != 0) return no;
    }
}

int main(int argc, char **argv)
{
    long turns = argc == 2 || argc == 3 ? atol(argv[1]) : 0;
    int steps = argc == 3;
    word_count = fread(words, 4, sizeof words / 4, stdin);
    read_line(&first);
    read_line(&second);
    uint32_t splits = (uint32_t)count_of(6);
    floats(asked, 5);
    if (turns < 1) return 2;
    for (long i = 0; i < turns; i++)
        if (lovgurshem_open(asked[0], asked[1], asked[2], asked[3], asked[4], splits,
                first.closed, first.degree, first.knots, first.knot_count, first.mults, first.mult_count, first.coords, first.coord_count, first.weights, first.weight_count, first.datum,
                second.closed, second.degree, second.knots, second.knot_count, second.mults, second.mult_count, second.coords, second.coord_count, second.weights, second.weight_count, second.datum,
                SLICE(pieces1), SLICE(pieces2), SLICE(nets1), SLICE(nets2), SLICE(ranges), SLICE(depths), SLICE(raw), SLICE(state)) != 0
            || (steps ? take_steps() : lovgurshem_run(SLICE(state), SLICE(nets1), SLICE(nets2), SLICE(ranges), SLICE(depths), SLICE(raw))) != 0
            || lovgurshem_report(SLICE(state), SLICE(nets1), SLICE(nets2), SLICE(ranges), SLICE(depths), SLICE(raw), SLICE(report), SLICE(marks), SLICE(counts)) != 0)
            return 1;
    printf("%u %u\n", (unsigned)counts[0], (unsigned)counts[8]);
    return 0;
}
