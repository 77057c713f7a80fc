/* merge: the time of a report by the length of its raw list, in microseconds. The state is that of a search of one pair that gave up N nodes;
   its raw list is written here: regions that stay apart, up along the line and down along it; a chain in which each touches the next, so that all
   become one; and a turn of the first line from 0 to 1, regions by turns at its start and at its end, so that none touches another and each meets
   the next over the seam. Groups are the regions whose mark is their own place. */
#include "lovgurshem.h"
#include <stdio.h>
#include <stdlib.h>
#include <time.h>

enum { MOST = 12800, WIDTH = 2, NODES = 1 + 64 };
static double nets[2][4 * WIDTH * NODES], ranges[4 * NODES], raw[10 * MOST], report[10 * MOST];
static uint8_t depths[2 * NODES];
static uint32_t marks[MOST];
static uint64_t counts[LOVGURSHEM_COUNTS];

/* Region i: a range of each line and an empty box. */
static void put(size_t i, double lo1, double hi1, double lo2, double hi2)
{
    double r[10] = { lo1, hi1, lo2, hi2 };
    for (int j = 0; j < 10; j++) raw[10 * i + j] = r[j];
}

static void fill(char kind, size_t n)
{
    for (size_t i = 0; i < n; i++) {
        double at = (double)i, down = (double)(n - i), side = 0.75 * (double)(i % 2);
        switch (kind) {
        case 'u': put(i, at, at + 0.5, at, at + 0.5); break;
        case 'd': put(i, down, down + 0.5, down, down + 0.5); break;
        case 'c': put(i, at, at + 1.0, at, at + 1.0); break;
        default: put(i, side, side + 0.25, at, at + 1.0); break;
        }
    }
}

static double seconds(void)
{
    struct timespec t;
    clock_gettime(CLOCK_PROCESS_CPUTIME_ID, &t);
    return (double)t.tv_sec + 1e-9 * (double)t.tv_nsec;
}

/* The least time of seven runs of some 20 ms each; sets the numbers of regions and of groups. */
static double timed(size_t n, int turn, uint64_t *regions, uint64_t *groups)
{
    /* pairs, quota, waiting, visits, splits, unspent, settled, given, widths, stopped; with a turn of the first line, its flag and its asked hi, 1 */
    uint64_t state[LOVGURSHEM_STATE] = { 1, n - 1, 0, 2 * n - 1, n - 1, 0, 0, n, WIDTH, WIDTH, 0 };
    double best = 1e9;
    if (turn) state[17] = 1, state[20] = 0x3FF0000000000000;
    for (int run = 0; run < 7; run++) {
        double start = seconds(), spent = 0.0;
        long turns = 0;
        do {
            if (lovgurshem_report(state, LOVGURSHEM_STATE, nets[0], 4 * WIDTH * NODES, nets[1], 4 * WIDTH * NODES, ranges, 4 * NODES,
                    depths, 2 * NODES, raw, 10 * n, report, 10 * n, marks, n, counts, LOVGURSHEM_COUNTS) != 0)
                exit(1);
            turns++;
            spent = seconds() - start;
        } while (spent < 0.02);
        if (spent / (double)turns < best) best = spent / (double)turns;
    }
    *regions = counts[8];
    *groups = 0;
    for (uint32_t i = 0; i < counts[8]; i++) *groups += marks[i] == i;
    return 1e6 * best;
}

int main(void)
{
    static const char *names[] = { "apart, upwards", "apart, downwards", "chain", "turn" };
    printf("| raw regions | list | regions | groups | report, µs |\n|---|---|---|---|---|\n");
    for (int k = 0; k < 4; k++)
        for (size_t n = 50; n <= MOST; n *= 4) {
            uint64_t regions = 0, groups = 0;
            fill("udct"[k], n);
            double t = timed(n, k == 3, &regions, &groups);
            printf("| %zu | %s | %u | %u | %.1f |\n", n, names[k], (unsigned)regions, (unsigned)groups, t);
        }
    return 0;
}
