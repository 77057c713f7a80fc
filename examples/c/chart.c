/*
 * The answer to a sheet, a chart's too, in instalments: what the program
 * clearance prints, in a buffer that one report fits.
 *
 *   chart SHEET      SHEET a file as the program clearance reads it
 *
 * Built with: cc -std=c99 -I include examples/c/chart.c target/staticlib/liblovgurshem.a
 */
#include "lovgurshem.h"
#include <stdio.h>

int main(int argc, char **argv)
{
    static uint8_t sheet[16388], out[LOVGURSHEM_ANSWER]; /* a word more than the longest sheet */
    uint64_t cursor[LOVGURSHEM_CURSOR] = { 0, 0 };
    size_t length, n;
    FILE *f = argc == 2 ? fopen(argv[1], "rb") : NULL;
    if (!f) {
        fprintf(stderr, "usage: chart SHEET\n");
        return 2;
    }
    length = fread(sheet, 1, sizeof sheet, f);
    fclose(f);
    while ((n = lovgurshem_next(sheet, length, cursor, LOVGURSHEM_CURSOR, out, sizeof out)) != 0)
        if (fwrite(out, 1, n, stdout) != n) return 1;
    return 0;
}
