/*
 * The functions of two archives beside each other, in one process: that of this tree, and that of another, whose names begin with `before_` here.
 * Prints for each case the best time of both, in microseconds. host/beside/run renames, builds and runs; both must have the structs of this header.
 */
#include <stdio.h>
#include <string.h>
#include <time.h>

#include "vanecitron_book.h"

vanecitron_check_result before_vanecitron_check(const uint8_t *book, size_t book_length);
vanecitron_check_result before_vanecitron_cut_sheet(const uint8_t *book, size_t book_length, uint8_t *sheet, size_t sheet_length);
vanecitron_round_result before_vanecitron_round(const uint8_t *book, size_t book_length, const uint8_t *u, size_t u_length, const uint8_t *v,
                                                size_t v_length, const uint8_t *p, size_t p_length, uint8_t *next_u, size_t next_u_length,
                                                uint8_t *next_v, size_t next_v_length, uint8_t *next_p, size_t next_p_length);
vanecitron_compare_result before_vanecitron_compare(const uint8_t *book, size_t book_length, const uint8_t *u, size_t u_length, const uint8_t *v,
                                                    size_t v_length, uint32_t allowance);
vanecitron_least_result before_vanecitron_least(const uint8_t *book, size_t book_length, const uint8_t *u, size_t u_length, uint8_t *buffer,
                                                size_t buffer_length, size_t offset);

/* the book and the runs of a case, and what is lent */
static uint8_t bytes[VANECITRON_BOOK_MOST], u[VANECITRON_RUN], v[VANECITRON_RUN], sheet[VANECITRON_SHEET_MOST], least[VANECITRON_LEAST_MOST];
static uint8_t next[3][VANECITRON_NEXT_RUN];
static vanecitron_book book;
static size_t u_length, v_length;

/* what is timed: the same call of either archive; the number that it gives must be the same for both */
typedef uint64_t call(int before);

static uint64_t check(int before)
{
    return before ? before_vanecitron_check(book.bytes, book.length).rules : vanecitron_check(book.bytes, book.length).rules;
}

static uint64_t cut_sheet(int before)
{
    return before ? before_vanecitron_cut_sheet(book.bytes, book.length, sheet, sizeof sheet).rules
                  : vanecitron_cut_sheet(book.bytes, book.length, sheet, sizeof sheet).rules;
}

static uint64_t single_round(int before)
{
    return before ? before_vanecitron_round(book.bytes, book.length, u, u_length, v, v_length, u, 0, next[0], VANECITRON_NEXT_RUN, next[1],
                                            VANECITRON_NEXT_RUN, next[2], VANECITRON_NEXT_MARK)
                        .u_length
                  : vanecitron_round(book.bytes, book.length, u, u_length, v, v_length, u, 0, next[0], VANECITRON_NEXT_RUN, next[1],
                                     VANECITRON_NEXT_RUN, next[2], VANECITRON_NEXT_MARK)
                        .u_length;
}

static uint64_t compare(int before)
{
    return before ? before_vanecitron_compare(book.bytes, book.length, u, u_length, v, v_length, VANECITRON_ALLOWANCE).rounds
                  : vanecitron_compare(book.bytes, book.length, u, u_length, v, v_length, VANECITRON_ALLOWANCE).rounds;
}

static uint64_t least_run(int before)
{
    return before ? before_vanecitron_least(book.bytes, book.length, u, u_length, least, sizeof least, 0).length
                  : vanecitron_least(book.bytes, book.length, u, u_length, least, sizeof least, 0).length;
}

static double seconds(void)
{
    struct timespec now;
    clock_gettime(CLOCK_PROCESS_CPUTIME_ID, &now);
    return (double)now.tv_sec + 1e-9 * (double)now.tv_nsec;
}

/* the time of so many calls, with the stack lower by so many bytes: where arrays come to lie in the caches is worth a tenth of a short call */
static double batch(call *of, int before, unsigned count, size_t lower)
{
    volatile uint8_t below[lower + 1];
    below[lower] = 0;
    (void)below[lower];
    double began = seconds();
    for (unsigned i = 0; i < count; i++) {
        of(before);
    }
    return seconds() - began;
}

/* the best batch of each counts, of batches that follow each other in turn, each turn with the stack elsewhere: other work on the machine only adds time */
static int measure(const char *name, const char *under, call *of)
{
    double best[2] = {1e9, 1e9}, took;
    unsigned count = 1;
    if (of(0) != of(1)) {
        fprintf(stderr, "%s, %s: the two answer differently\n", name, under);
        return 1;
    }
    while (batch(of, 1, count, 0) < 1e-3) {
        count *= 2;
    }
    size_t lower = 0;
    for (double began = seconds(); seconds() - began < 0.5;) {
        lower = (lower + 1040) % 8192;
        for (int before = 0; before < 2; before++) {
            took = batch(of, before, count, lower);
            best[before] = took < best[before] ? took : best[before];
        }
    }
    printf("%s, %s\t%.4f\t%.4f\n", name, under, 1e6 * best[1] / count, 1e6 * best[0] / count);
    return 0;
}

/* every function under the book and with the runs that are there */
static int measure_all(const char *under)
{
    return measure("check", under, check) | measure("cut sheet", under, cut_sheet) | measure("single round", under, single_round) |
           measure("comparison", under, compare) | measure("least run", under, least_run);
}

/* book Q, and the two runs of which each is its sides one after the other */
static void book_q(size_t length)
{
    static const uint8_t sides[2][4] = {{0, 1, 3, 2}, {2, 0, 3, 1}};
    book = vanecitron_book_begin(bytes, sizeof bytes, 4);
    vanecitron_book_rule(&book, sides[0], 4, sides[1], 4);
    u_length = v_length = length;
    for (size_t i = 0; i < length; i++) {
        u[i] = sides[0][i % 4];
        v[i] = sides[1][i % 4];
    }
}

/* one rule whose sides are alike but for their last steps: the search for three pieces tries every pair of cuts, and is half of the check's work */
static void shared_front(void)
{
    book = vanecitron_book_begin(bytes, sizeof bytes, 3);
    u_length = v_length = VANECITRON_SIDE;
    memset(u, 0, VANECITRON_SIDE);
    memset(v, 0, VANECITRON_SIDE);
    u[VANECITRON_SIDE - 1] = 1;
    v[VANECITRON_SIDE - 1] = 2;
    vanecitron_book_rule(&book, u, VANECITRON_SIDE, v, VANECITRON_SIDE);
}

/* a book of 32 rules of 64 and 64 steps, each given by its side and its place there, and two runs of such sides in turn */
static void full_book(uint8_t step(unsigned side, unsigned place))
{
    uint8_t sides[2 * VANECITRON_RULES][VANECITRON_SIDE];
    for (unsigned side = 0; side < 2 * VANECITRON_RULES; side++) {
        for (unsigned place = 0; place < VANECITRON_SIDE; place++) {
            sides[side][place] = step(side, place);
        }
    }
    book = vanecitron_book_begin(bytes, sizeof bytes, VANECITRON_LETTERS);
    for (unsigned rule = 0; rule < VANECITRON_RULES; rule++) {
        vanecitron_book_rule(&book, sides[2 * rule], VANECITRON_SIDE, sides[2 * rule + 1], VANECITRON_SIDE);
    }
    u_length = v_length = VANECITRON_RUN;
    for (size_t i = 0; i < VANECITRON_RUN; i++) {
        unsigned rule = (unsigned)(i / VANECITRON_SIDE % VANECITRON_RULES);
        u[i] = sides[2 * rule][i % VANECITRON_SIDE];
        v[i] = sides[2 * rule + 1][i % VANECITRON_SIDE];
    }
}

static uint8_t random_step(unsigned side, unsigned place)
{
    static uint32_t state = 1;
    state = side + place == 0 ? 1 : state * 1664525u + 1013904223u;
    return (uint8_t)(state >> 26);
}

/* every side has every letter, and no two letters stand together in two places: 64 pieces */
static uint8_t step_by_step(unsigned side, unsigned place)
{
    return (uint8_t)((side + (place % 2 == 1 ? (place + 1) / 2 : 64 - place / 2)) % 64);
}

/* the four steps of a side of which no two stand together in another */
static uint8_t own_step(unsigned side, unsigned place)
{
    unsigned step = 1 + 3 * (side / 62);
    const unsigned own[] = {side, side + step, side + 2 * step + 1, side + 3 * step + 3};
    return (uint8_t)(2 + own[place] % 62);
}

/* a front and an end of 30 steps in common, and the own steps between: four pieces */
static uint8_t shared_step(unsigned side, unsigned place)
{
    return place < 30 ? 0 : place < 34 ? own_step(side, place - 30) : 1;
}

/* one step over and over, and the own steps at a place of each side's own: tails and fronts overlap as far as they can */
static uint8_t repeated_step(unsigned side, unsigned place)
{
    unsigned at = side % 61;
    return place < at || at + 4 <= place ? 0 : own_step(side, place - at);
}

/* 31 rules of a step and of 64 steps that end alike, and a run of such steps, each of which is answered by 63 more: the most rounds, nearly all of row 2 */
static void most_rounds(void)
{
    uint8_t step, side[VANECITRON_SIDE];
    for (unsigned place = 1; place < VANECITRON_SIDE; place++) {
        side[place] = (uint8_t)(62 + (place - 1) % 5 % 2);
    }
    book = vanecitron_book_begin(bytes, sizeof bytes, VANECITRON_LETTERS);
    for (unsigned rule = 0; rule < 31; rule++) {
        step = (uint8_t)(2 * rule);
        side[0] = (uint8_t)(2 * rule + 1);
        vanecitron_book_rule(&book, &step, 1, side, VANECITRON_SIDE);
    }
    u_length = v_length = VANECITRON_RUN;
    for (size_t i = 0; i < VANECITRON_RUN; i++) {
        u[i] = v[i] = (uint8_t)(2 * (i % 31));
    }
}

int main(void)
{
    int differ = 0;
    book_q(4);
    differ |= measure_all("Q, runs of 4");
    book_q(VANECITRON_RUN);
    differ |= measure_all("Q, runs of 4,096");
    shared_front();
    differ |= measure_all("one rule with a front of 63, runs of 64");
    full_book(random_step);
    differ |= measure_all("a full random book, runs of 4,096");
    full_book(step_by_step);
    differ |= measure_all("a full book of 64 pieces a side, runs of 4,096");
    full_book(shared_step);
    differ |= measure_all("a full book with long pieces, runs of 4,096");
    full_book(repeated_step);
    differ |= measure_all("a full book of one step over and over, runs of 4,096");
    most_rounds();
    differ |= measure_all("most rounds, runs of 4,096");
    return differ;
}
