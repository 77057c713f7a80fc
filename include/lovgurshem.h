/*
 * Lovgurshem: the clearance search of two B-spline lines, for programs in C
 * and in languages that call C. Link with target/staticlib/liblovgurshem.a
 * (`tools/build lovgurshem`; 64-bit Linux on x86-64-v2).
 *
 * What this header says of answers and slices is proved: a function's answer
 * and the contents of every slice afterwards follow from what was handed in by
 * one equation, refusals included (crates/lovgurshem/src/lib.rt). What a
 * caller must see to stands under SLICES, FLOATS, STACK and STATE.
 *
 * SLICES. A slice is two arguments, a pointer to its first element and the
 * count of its elements. A pointer isn't NULL, also where the count is 0, and
 * is aligned for its element; the memory behind it is the caller's, readable,
 * and writable where the pointer isn't const. Slices that are written overlap
 * no other slice of the same call. Any count is taken: a slice that is too
 * short is a refusal, and what lies behind the count is neither read nor
 * written. No pointer is kept after the call, nothing is allocated, and there
 * is no global data: calls on different memory may run at the same time.
 *
 * FLOATS are IEEE 754 doubles in the default environment: rounding to nearest,
 * ties to even, subnormals kept (a program linked for fast, inexact math turns
 * these off). Any double is taken, NaN too.
 *
 * STACK, as measured, with a margin: lovgurshem_answer and lovgurshem_next want
 * 640 KB, however many lines a chart has, lovgurshem_open and lovgurshem_examine
 * 80 KB, the others 16 KB. Of the C library memcpy and memset are called, and
 * nothing else.
 *
 * NUMBERS. Answers of examine, open, step, run and report are 0, or the number
 * of the refusal: 4 to 14 and 22 a line's fault, 23 lines that are not of one
 * datum, 15 to 18 the question's fault, 19 a slice that is shorter than needed
 * or a state that is no search's, 20 a search that has ended, 21 one that
 * hasn't. A line's fault, range or breaks (4 to 15, 18 and 22) have 256 times
 * the line, 1 or 2, added, and 23 has 256 times 2. 1 to 18 and from 22 on leave
 * the words and every slice as they were. The numbers are tested in this order:
 *   open     4 to 14 of the first line, with 22 of a closed one after 7; the
 *            same of the second; 23; 15 to 18; 19 for the state's words and the
 *            pieces; 19 for the rest
 *   examine  as open, with the word for P in the place of the state's words, and
 *            no 19 for a rest
 *   others   19 for words that are no state's (below), before everything else;
 *            then in own verdict and step 20, in report 21; then 19, in report
 *            for the counts too (run is refused as the step that it takes)
 *
 * STATE. A search's state is LOVGURSHEM_STATE words, written whole by the
 * opening. Later calls take no gap and no other part of the question: all that
 * they need is in the words and in the lent memory.
 *   word      bits
 *   0         16    starting pairs, P
 *   1         16    splits per pair, S
 *   2         32    nodes waiting
 *   3         64    visits
 *   4         32    splits
 *   5         32    allowance left
 *   6         32    nodes settled
 *   7         32    nodes given up
 *   8, 9      2-26  points of a net of the first line, and of the second
 *   10        1     whether the search was stopped
 *   11        64    the gap, as the bits of a double
 *   12 to 14  32    nodes settled by box, by plane and by line
 *   15, 16    none  kept for the edition and its joint length
 *   17, 18    1     whether the first line, and the second, is closed and asked
 *                   for a whole turn: hi - lo, as rounded, is its period
 *   19 to 22  64    lo1, hi1, lo2, hi2 as asked, as the bits of doubles
 * Words 15 and 16 have no bits yet: the opening writes 0. Fewer words, a word
 * beyond its bits, a width (8, 9) that isn't 2 to 26 or a word without bits
 * that isn't 0 are no state's. Every pattern of words 11 and 19 to 22 is a
 * double, a NaN's too. A step and the loop write words 2 to 7, 10 and 12 to 14;
 * the others, and words behind the last, are left alone. Own verdict and report
 * write none. A state whose words 12 to 14 don't sum to word 6 is no search's;
 * the sum isn't cut to 32 bits. Nor is one with a depth over 32 at the top node,
 * or with more nodes waiting than P and the sum of that node's two depths.
 *
 * The state and the lent memory (nets, ranges, depths, raw) belong together:
 * carry both on from call to call as the last one left them. Then each call
 * reads the state that the last one answered.
 *
 * SIZES, in elements, for P starting pairs, S splits per pair and
 * width = degree + 1 of a line:
 *   pieces of a line   4 * width for each piece (a piece lies between two
 *                      neighbours of lo, the knots strictly between, and hi;
 *                      the knots of a closed line come again, all but the
 *                      first, a period later)
 *   nets of a line     4 * width * (P + 64)
 *   ranges             4 * (P + 64)
 *   depths             2 * (P + 64)
 *   marks              P * (S + 1)
 *   raw, report        10 * P * (S + 1) each
 * Node k, counted from 0 at the bottom, has slot k of the nets, of the ranges
 * and of the depths: depths[2 * k] is how often the first line was halved on the
 * way from its piece to the node, depths[2 * k + 1] how often the second, each at
 * most 32.
 * P is at most the product of the two counts of pieces. A call that needs a slice
 * and is lent a shorter one is number 19; a step or report then changes nothing,
 * and lent enough the next call goes on. To learn P before the rest is lent, call
 * lovgurshem_examine with the pieces alone: an opening of the same lines and
 * question that is then lent for this P isn't refused.
 */
#ifndef LOVGURSHEM_H
#define LOVGURSHEM_H

#include <stddef.h>
#include <stdint.h>

#ifdef __cplusplus
extern "C" {
#endif

/* Words of a state, and of a report's counts. */
#define LOVGURSHEM_STATE 23
#define LOVGURSHEM_COUNTS 12

/* Bytes of a buffer that every instalment of an answer fits, and so every answer
 * that is no chart's; words of a cursor. */
#define LOVGURSHEM_ANSWER 162446
#define LOVGURSHEM_CURSOR 2

/* Verdicts, as own verdict answers them and as a step takes them; settled by
 * box, by plane and by line. */
#define LOVGURSHEM_SETTLED 1
#define LOVGURSHEM_SPLIT 2
#define LOVGURSHEM_UNSEPARATED 3
#define LOVGURSHEM_SETTLED_PLANE 4
#define LOVGURSHEM_SETTLED_LINE 5

/* The first of a report's counts. */
#define LOVGURSHEM_COMPLETE 0
#define LOVGURSHEM_BUDGET 1
#define LOVGURSHEM_UNSEPARATED_WORD 2

/*
 * The answer to a sheet that is no chart, byte for byte what the program
 * clearance prints for it, written from the front of out; answers its length,
 * which is never 0. The rest of out stays as it was. Any other bytes are
 * answered too: those that are no sheet with "refused" and a number. With fewer
 * than LOVGURSHEM_ANSWER bytes in out, and for a chart, whose answer comes in
 * instalments (below), it writes nothing and answers 0.
 */
size_t lovgurshem_answer(const uint8_t *sheet, size_t sheet_length,
    uint8_t *out, size_t out_length);

/*
 * The next instalment of the answer to any sheet, a chart's too, written from
 * the front of out; answers its length, 0 when nothing is left. Joined, they are
 * byte for byte what the program clearance prints:
 *
 *     uint64_t cursor[LOVGURSHEM_CURSOR] = { 0, 0 };
 *     size_t n;
 *     while ((n = lovgurshem_next(sheet, length, cursor, LOVGURSHEM_CURSOR,
 *                 out, LOVGURSHEM_ANSWER)) != 0)
 *         fwrite(out, 1, n, stdout);
 *
 * A chart that isn't refused has an instalment for each line and one for the
 * last line, at most 65; every other answer is one instalment. The cursor's
 * word 0 is how many were taken, 0 to begin with. Word 1, unread at 0, is 2
 * where nothing follows, else 1 or 0, whether each report so far says complete;
 * any number above 2 is as 2. With other words than the calls on this sheet left
 * there the answer may be another, and nothing else than cursor and out is
 * written.
 *
 * With fewer than LOVGURSHEM_ANSWER bytes in out or LOVGURSHEM_CURSOR words in
 * cursor 0 is answered. An answer of 0 changes nothing. Any other adds 1 to word
 * 0, writes word 1 and the instalment's bytes, and leaves the rest as it was.
 */
size_t lovgurshem_next(const uint8_t *sheet, size_t sheet_length,
    uint64_t *cursor, size_t cursor_length,
    uint8_t *out, size_t out_length);

/*
 * Opens a search: the stretch lo1 to hi1 of the first line against lo2 to hi2
 * of the second, for this gap, with at most so many splits per pair.
 *
 * A line is a number, 0 for an open one and any other for a closed one, its
 * degree, distinct knots, their multiplicities, three coordinates a pole, one
 * weight a pole, and its datum; a count of 0 weights means that every weight is
 * 1. A closed line's period is its last knot less its first, rounded; its range
 * starts from the first knot on and below the last, and is, as rounded, no longer
 * than the period.
 *
 * Refused in this order: 4 to 14 of the first line, 22 after 7, then of the
 * second; 23 when either datum isn't from 1 to 9,999 or the two differ; 15 to 18;
 * 19 for fewer than LOVGURSHEM_STATE words or short pieces. So far nothing is
 * written. Then the pieces' nets are written to pieces1 and
 * pieces2, and 19 is tested for nets, ranges, depths and raw, whose contents it
 * leaves, as it leaves the words. At 0 the first P slots of nets, ranges and
 * depths are the pairs' and the words are the state's; nothing else in any slice
 * changes. raw is only measured here.
 */
uint32_t lovgurshem_open(double lo1, double hi1, double lo2, double hi2,
    double gap, uint32_t splits,
    uint32_t closed1, uint32_t degree1,
    const double *knots1, size_t knots1_length,
    const uint32_t *mults1, size_t mults1_length,
    const double *coords1, size_t coords1_length,
    const double *weights1, size_t weights1_length,
    uint32_t datum1,
    uint32_t closed2, uint32_t degree2,
    const double *knots2, size_t knots2_length,
    const uint32_t *mults2, size_t mults2_length,
    const double *coords2, size_t coords2_length,
    const double *weights2, size_t weights2_length,
    uint32_t datum2,
    double *pieces1, size_t pieces1_length,
    double *pieces2, size_t pieces2_length,
    double *nets1, size_t nets1_length,
    double *nets2, size_t nets2_length,
    double *ranges, size_t ranges_length,
    uint8_t *depths, size_t depths_length,
    const double *raw, size_t raw_length,
    uint64_t *state, size_t state_length);

/*
 * The first act of an opening of these lines and this question: decides what an
 * opening decides before it writes, then writes the pieces' nets to pieces1 and
 * pieces2, and P to the first word of pairs. Nothing else is written, and a
 * refusal writes nothing.
 *
 * Refused as lovgurshem_open is, up to its 19 for short pieces, with which no
 * word in pairs is 19 too. At 0 lovgurshem_open, lent pieces that are as long,
 * the state's words, and nets, ranges, depths and raw for this P, answers 0, and
 * the state's word 0 is this P. With another number than 0, and a word in pairs,
 * lovgurshem_open on the same pieces, lent the state's words, has the same.
 */
uint32_t lovgurshem_examine(double lo1, double hi1, double lo2, double hi2,
    double gap, uint32_t splits,
    uint32_t closed1, uint32_t degree1,
    const double *knots1, size_t knots1_length,
    const uint32_t *mults1, size_t mults1_length,
    const double *coords1, size_t coords1_length,
    const double *weights1, size_t weights1_length,
    uint32_t datum1,
    uint32_t closed2, uint32_t degree2,
    const double *knots2, size_t knots2_length,
    const uint32_t *mults2, size_t mults2_length,
    const double *coords2, size_t coords2_length,
    const double *weights2, size_t weights2_length,
    uint32_t datum2,
    double *pieces1, size_t pieces1_length,
    double *pieces2, size_t pieces2_length,
    uint64_t *pairs, size_t pairs_length);

/*
 * What the clearing tests give for the top node's nets and the state's gap:
 * LOVGURSHEM_SETTLED, _SETTLED_PLANE or _SETTLED_LINE by the first test that
 * passes (boxes, planes, along one line), _SPLIT or _UNSEPARATED: 1 to 5.
 * Refused 19 for words that are no state's, then 20, then 19 for short nets or
 * depths or a state that is no search's. Writes nothing.
 */
uint32_t lovgurshem_own_verdict(const uint64_t *state, size_t state_length,
    const double *nets1, size_t nets1_length,
    const double *nets2, size_t nets2_length,
    const uint8_t *depths, size_t depths_length);

/*
 * A step with a verdict for the top node: 1, 4 and 5 are Settled by box, plane
 * and line, 2 Split, and every other number of 32 bits Unseparated, which lists
 * the node and so loses nothing.
 *
 * Settled removes the node and counts it by the test that this number names,
 * whatever the own verdict is. Unseparated, or Split with both depths at 32,
 * gives it up: its region goes to raw, and no allowance is spent. Any other Split
 * with no allowance left keeps it, and the search ends; with some it spends one
 * and halves the line whose box is larger, of equal ones the second, but the
 * other if that line's depth is 32. At 0 the words are the next state's, and
 * only the slots or the region that the step fills have changed. Refused 19
 * for words that are no state's, then 20, then 19; then nothing has changed.
 */
uint32_t lovgurshem_step(uint32_t verdict, uint64_t *state, size_t state_length,
    double *nets1, size_t nets1_length,
    double *nets2, size_t nets2_length,
    double *ranges, size_t ranges_length,
    uint8_t *depths, size_t depths_length,
    double *raw, size_t raw_length);

/*
 * Steps with the search's own verdicts until the search ends; at 0 the words
 * are the state then. A search that has ended is answered 0 and stays as it
 * is. Number 19 is for words that are no state's, or comes from a step that is
 * refused: then the words stay, and the memory has what the steps before it
 * wrote, nothing if it was the first. A search that was opened, lent enough,
 * comes to its end.
 */
uint32_t lovgurshem_run(uint64_t *state, size_t state_length,
    double *nets1, size_t nets1_length,
    double *nets2, size_t nets2_length,
    double *ranges, size_t ranges_length,
    uint8_t *depths, size_t depths_length,
    double *raw, size_t raw_length);

/*
 * The report of a search that has ended. At 0 the counts are the word
 * (LOVGURSHEM_COMPLETE, _BUDGET or _UNSEPARATED_WORD), pairs, visits, splits,
 * settled, given, left, allowance left, how many regions, and of the settled
 * those by box, by plane and by line; raw has the raw list whole, and report the
 * merged regions, then +0 up to the raw list's length. A region is ten doubles:
 * first lo, hi, second lo, hi, lowest x, y, z, highest x, y, z.
 *
 * marks has a number for each merged region, its stretch mark: the lowest index
 * of its group in the merged list, counted from 0; past the regions marks is
 * unchanged. Marks are equal exactly when a chain of neighbours joins two
 * regions. Two regions are neighbours if on each line their ranges meet plainly
 * or over the seam. Two ranges meet plainly if each starts at or before the
 * other's end; over the seam if the line is asked for a whole turn (words 17,
 * 18) and one starts at the asked lo while the other ends at the asked hi.
 *
 * Refused 19 for words that are no state's, then 21, then 19: for short nets,
 * ranges, depths, raw, report or marks, for fewer than LOVGURSHEM_COUNTS counts
 * and for a state that is no search's. Then nothing has changed, in marks too.
 * A second report gives the same.
 */
uint32_t lovgurshem_report(const uint64_t *state, size_t state_length,
    const double *nets1, size_t nets1_length,
    const double *nets2, size_t nets2_length,
    const double *ranges, size_t ranges_length,
    const uint8_t *depths, size_t depths_length,
    double *raw, size_t raw_length,
    double *report, size_t report_length,
    uint32_t *marks, size_t marks_length,
    uint64_t *counts, size_t counts_length);

#ifdef __cplusplus
}
#endif

#endif
