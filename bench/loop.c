/* loop N < SHEET: the library's answer to the sheet, a chart's too, in instalments, N times in one process; prints the last. */
#include "lovgurshem.h"
#include <stdio.h>
#include <stdlib.h>

static uint8_t sheet[16388], part[LOVGURSHEM_ANSWER];

/* The answer to n bytes of the sheet, printed where `print` says so; how many instalments it has, 0 where one was not printed. */
static size_t answer(size_t n, int print) {
    uint64_t cursor[LOVGURSHEM_CURSOR] = {0};
    size_t m, parts = 0;
    while ((m = lovgurshem_next(sheet, n, cursor, LOVGURSHEM_CURSOR, part, sizeof part)) > 0) {
        if (print && fwrite(part, 1, m, stdout) != m)
            return 0;
        parts++;
    }
    return parts;
}

int main(int argc, char **argv) {
    long turns = argc == 2 ? atol(argv[1]) : 0;
    size_t n = fread(sheet, 1, sizeof sheet, stdin);
    if (turns < 1)
        return 2;
    for (long i = 1; i < turns; i++)
        answer(n, 0);
    return answer(n, 1) > 0 ? 0 : 1;
}
