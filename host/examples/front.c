/*
 * A terminal for a run that is under way: what is left of it once a front has been done, which steps it can begin with, and how it is worked off step by step.
 * Built and run by host/run-examples. front.expected is worked out by hand from docs/SPECIFICATION.md:
 *
 *   Book Q     abdc = cadb: each of the four letters stands in both sides, and no pair of letters stands twice, so that the pieces are the empty run, a, b, c
 *              and d. ab is none, though abdc begins with it.
 *   Chains     abdc and cadb are joined to each other alone; cadbadb, abdcadb and abdabdc are joined, and no other run to them; so are acadb and aabdc. In
 *              abd, bdc, db and the like no side stands, so that each is joined to itself alone.
 *   Left       Of the runs that are joined to the given one those that begin with the front are taken, and of what follows it there the first in dictionary
 *              order: of cadbadb less a these are bdcadb and bdabdc, and the second is the first in order.
 *   ab = ac    a is a piece, and acd and abd are joined. What follows a is cd and bd, which no chain joins to each other: the first of them, bd, is given.
 */
#include <stdio.h>
#include <string.h>

#include "vanecitron_book.h"

static uint8_t bytes[VANECITRON_BOOK_MOST];
static vanecitron_book book;

/* steps written as letters, at most `room` of them */
static size_t run_of(const char *letters, uint8_t *run, size_t room)
{
    size_t length = strlen(letters);
    for (size_t i = 0; i < length && i < room; i++) {
        run[i] = (uint8_t)(letters[i] - 'a');
    }
    return length < room ? length : room;
}

/* the book has four letters and one rule */
static void begin_book(const char *left, const char *right)
{
    uint8_t l[VANECITRON_SIDE], r[VANECITRON_SIDE];
    size_t left_length = run_of(left, l, sizeof l), right_length = run_of(right, r, sizeof r);
    book = vanecitron_book_begin(bytes, sizeof bytes, 4);
    vanecitron_book_rule(&book, l, left_length, r, right_length);
    printf("book %s = %s\n", left, right);
}

static void print_run(const uint8_t *run, uint64_t length)
{
    for (uint64_t i = 0; i < length; i++) {
        putchar('a' + run[i]);
    }
}

static void print_refusal(vanecitron_least_result r)
{
    printf("refused %u %llu (%s)", r.refusal, (unsigned long long)r.place, vanecitron_refusal_text(r.refusal));
}

/* what is left of a run less a front at an offset of a buffer, and the whole buffer then; it is filled with z before */
static void front(const char *letters, const char *piece, size_t room, size_t offset)
{
    uint8_t u[16], p[VANECITRON_ROUND_MARK + 1], buffer[16];
    size_t u_length = run_of(letters, u, sizeof u), p_length = run_of(piece, p, sizeof p);
    memset(buffer, 'z' - 'a', sizeof buffer);
    vanecitron_least_result r = vanecitron_front(book.bytes, book.length, u, u_length, p, p_length, buffer, room, offset);
    printf("'%s' less '%s' at %zu of %zu: ", letters, piece, offset, room);
    if (r.refusal == VANECITRON_ACCEPTED) {
        printf("%llu steps", (unsigned long long)r.length);
    } else {
        print_refusal(r);
    }
    printf(", buffer=");
    print_run(buffer, room);
    printf("\n");
}

/*
 * each step that a run can begin with, and what is left then; the step stands before it in the buffer, and a chain joins both to the run. For book Q, where each
 * step is a piece: of a step that is none the library says 18, and not whether the run can begin with it
 */
static void beginnings(const char *letters)
{
    uint8_t u[16], buffer[16];
    size_t u_length = run_of(letters, u, sizeof u);
    printf("'%s' can begin with", letters);
    for (uint8_t step = 0; step < 4; step++) {
        vanecitron_least_result r = vanecitron_front(book.bytes, book.length, u, u_length, &step, 1, buffer, sizeof buffer, 1);
        if (r.refusal == VANECITRON_ACCEPTED) {
            buffer[0] = step;
            vanecitron_compare_result c = vanecitron_compare(book.bytes, book.length, u, u_length, buffer, 1 + r.length, VANECITRON_ALLOWANCE);
            printf(" %c, then ", 'a' + step);
            print_run(buffer + 1, r.length);
            fputs(c.outcome == VANECITRON_SAME ? ";" : " (which is not the same);", stdout);
        }
    }
    printf(" nothing else\n");
}

/* works steps off a run, one at a time, as far as they are fronts of what is left */
static void work_off(const char *letters, const char *steps)
{
    uint8_t runs[2][16];
    vanecitron_least_result r = {0, 0, run_of(letters, runs[0], sizeof runs[0])};
    printf("'%s':", letters);
    for (size_t i = 0; r.refusal == VANECITRON_ACCEPTED && steps[i] != 0; i++) {
        uint8_t step = (uint8_t)(steps[i] - 'a'), *left = runs[(i + 1) % 2];
        r = vanecitron_front(book.bytes, book.length, runs[i % 2], r.length, &step, 1, left, sizeof runs[0], 0);
        printf(" %c ", steps[i]);
        if (r.refusal == VANECITRON_ACCEPTED) {
            printf("done, left '");
            print_run(left, r.length);
            printf("';");
        } else {
            print_refusal(r);
        }
    }
    printf("\n");
}

/* buffers of length 0, by null pointers and by pointers that may not be read */
static void empty_buffers(void)
{
    uint8_t *nowhere = (uint8_t *)1, step = 2;
    vanecitron_least_result r = vanecitron_front(book.bytes, book.length, NULL, 0, nowhere, 0, NULL, 0, 0);
    printf("nothing less nothing in no bytes: refused %u, length %llu\n", r.refusal, (unsigned long long)r.length);
    r = vanecitron_front(book.bytes, book.length, &step, 1, &step, 1, nowhere, 0, 0);
    printf("a step less itself in no bytes: refused %u, length %llu\n", r.refusal, (unsigned long long)r.length);
    r = vanecitron_front(NULL, 0, NULL, 0, NULL, 0, NULL, 0, 0);
    printf("under no book: refused %u %llu\n", r.refusal, (unsigned long long)r.place);
}

int main(void)
{
    if (vanecitron_version() != VANECITRON_VERSION) {
        printf("the archive is not of version %s\n", VANECITRON_VERSION_TEXT);
        return 1;
    }
    begin_book("abdc", "cadb");
    front("abdc", "c", 3, 0);
    front("abdc", "a", 8, 2);
    front("cadbadb", "a", 6, 0);
    front("acadb", "a", 4, 0);
    front("cadb", "", 8, 4);
    front("c", "c", 4, 4);

    /* no run that is joined to the given one begins so; or it is no piece, whether the run begins with it or not */
    front("abdc", "d", 4, 0);
    front("abd", "c", 4, 0);
    front("", "c", 4, 0);
    front("abdc", "ab", 4, 0);
    front("abdc", "dd", 4, 0);

    /* room is judged by what is left */
    front("abdc", "c", 8, 5);
    front("abdc", "c", 8, 6);
    front("c", "c", 4, 5);
    front("abde", "e", 4, 0);
    front("abdc", "ce", 4, 0);
    front("abdc", "ccccccccccccccccccccccccccccccccccccccccccccccccccccccccccccccccc", 4, 0);

    beginnings("cadbadb");
    beginnings("bdc");
    work_off("abdc", "cadb");
    work_off("cadbadb", "abdc");
    work_off("cadb", "ad");
    empty_buffers();

    begin_book("ab", "ac");
    front("acd", "a", 4, 0);
    front("acd", "ac", 4, 0);
    return 0;
}
