/*
 * The specification's example, book Q, through every function of the library but vanecitron_front, which front.c has, and those of a held book, which change.c
 * has. Built and run by host/run-examples; compare.expected is worked out from docs/SPECIFICATION.md.
 */
#include <stdio.h>
#include <string.h>

#include "vanecitron_book.h"

/* book Q */
static uint8_t bytes[VANECITRON_BOOK_MOST];
static vanecitron_book book;

/* steps written as letters, at most `room` of them */
static size_t run_of(const char *letters, uint8_t *run, size_t room)
{
    size_t length = strlen(letters);
    for (size_t i = 0; i < length && i < room; i++) {
        run[i] = (uint8_t)(letters[i] - 'a');
    }
    return length < room ? length : room;
}

/* a book of four letters with one rule */
static vanecitron_book book_of(uint8_t *lent, size_t room, const char *left, const char *right)
{
    uint8_t l[VANECITRON_SIDE], r[VANECITRON_SIDE];
    size_t left_length = run_of(left, l, sizeof l), right_length = run_of(right, r, sizeof r);
    vanecitron_book made = vanecitron_book_begin(lent, room, 4);
    vanecitron_book_rule(&made, l, left_length, r, right_length);
    return made;
}

static void print_run(const char *name, const uint8_t *run, uint64_t length)
{
    printf(" %s=", name);
    for (uint64_t i = 0; i < length; i++) {
        putchar('a' + run[i]);
    }
}

/* the cut sheet of a book: the cut of each side, and how many pieces it is the product of */
static void print_sheet(const vanecitron_book *of, uint8_t *sheet, size_t room)
{
    vanecitron_check_result s = vanecitron_cut_sheet(of->bytes, of->length, sheet, room);
    for (uint64_t i = 0; i < 2 * s.rules; i++) {
        const uint8_t *side = sheet + VANECITRON_SHEET_SIDE * i;
        printf("side %llu: X %u, Y %u, Z %u, ", (unsigned long long)i, side[VANECITRON_SHEET_X], side[VANECITRON_SHEET_Y], side[VANECITRON_SHEET_Z]);
        if (side[VANECITRON_SHEET_PIECES] == VANECITRON_NO_PRODUCT) {
            printf("no product of pieces\n");
        } else {
            printf("%u pieces\n", side[VANECITRON_SHEET_PIECES]);
        }
    }
}

static void compare(const char *first, const char *second, uint32_t allowance)
{
    uint8_t u[16], v[16];
    size_t u_length = run_of(first, u, sizeof u), v_length = run_of(second, v, sizeof v);
    vanecitron_compare_result r = vanecitron_compare(book.bytes, book.length, u, u_length, v, v_length, allowance);
    printf("compare '%s' '%s' %u: ", first, second, allowance);
    switch (r.outcome) {
    case VANECITRON_SAME: printf("same %llu\n", (unsigned long long)r.rounds); break;
    case VANECITRON_DIFFERENT: printf("different %llu\n", (unsigned long long)r.rounds); break;
    default: printf("refused %u %llu (%s)\n", r.refusal, (unsigned long long)r.place, vanecitron_refusal_text(r.refusal));
    }
}

/* one round after the other, up to the end */
static void follow(const char *first, const char *second)
{
    static uint8_t runs[2][2][VANECITRON_NEXT_RUN], marks[2][VANECITRON_NEXT_MARK];
    size_t u_length = run_of(first, runs[0][0], VANECITRON_NEXT_RUN), v_length = run_of(second, runs[0][1], VANECITRON_NEXT_RUN), p_length = 0;
    for (int now = 0;; now = 1 - now) {
        uint8_t *u = runs[now][0], *v = runs[now][1], *p = marks[now];
        uint8_t *next_u = runs[1 - now][0], *next_v = runs[1 - now][1], *next_p = marks[1 - now];
        vanecitron_round_result r =
            vanecitron_round(book.bytes, book.length, u, u_length, v, v_length, p, p_length, next_u, VANECITRON_NEXT_RUN, next_v, VANECITRON_NEXT_RUN,
                             next_p, VANECITRON_NEXT_MARK);
        if (r.refusal != VANECITRON_ACCEPTED) {
            printf("round: refused %u %llu\n", r.refusal, (unsigned long long)r.place);
            return;
        }
        if (r.outcome != VANECITRON_NEXT) {
            printf("round: end %s\n", r.outcome == VANECITRON_SAME ? "same" : "different");
            return;
        }
        printf("round: next");
        print_run("u", next_u, r.u_length);
        print_run("v", next_v, r.v_length);
        print_run("p", next_p, r.p_length);
        printf("\n");
        u_length = r.u_length;
        v_length = r.v_length;
        p_length = r.p_length;
    }
}

/* the least run of a run at an offset of a buffer, and the whole buffer then; it is filled with z before */
static void least(const char *letters, size_t room, size_t offset)
{
    uint8_t run[16], buffer[16];
    size_t length = run_of(letters, run, sizeof run);
    memset(buffer, 'z' - 'a', sizeof buffer);
    vanecitron_least_result r = vanecitron_least(book.bytes, book.length, run, length, buffer, room, offset);
    printf("least '%s' at %zu of %zu: ", letters, offset, room);
    if (r.refusal == VANECITRON_ACCEPTED) {
        printf("%llu steps,", (unsigned long long)r.length);
    } else {
        printf("refused %u %llu (%s),", r.refusal, (unsigned long long)r.place, vanecitron_refusal_text(r.refusal));
    }
    print_run("buffer", buffer, room);
    printf("\n");
}

/* the program on its example, on no bytes, and with a buffer that is one byte short */
static void program(void)
{
    static uint8_t output[VANECITRON_OUTPUT];
    uint8_t u[16], v[16], input[VANECITRON_BOOK_HEAD + VANECITRON_BOOK_RULE(4, 4) + VANECITRON_BOOK_COMPARISON(4, 4)];
    size_t u_length = run_of("abdc", u, sizeof u), v_length = run_of("cadb", v, sizeof v);
    vanecitron_book asked = book_of(input, sizeof input, "abdc", "cadb");
    vanecitron_book_comparison(&asked, 100, u, u_length, v, v_length);
    vanecitron_program_result r = vanecitron_program(asked.bytes, asked.length, output, sizeof output);
    printf("program: refused %u, %llu bytes:\n%.*s", r.refusal, (unsigned long long)r.length, (int)r.length, (const char *)output);
    r = vanecitron_program(NULL, 0, output, sizeof output);
    printf("program on nothing: refused %u, %llu bytes:\n%.*s", r.refusal, (unsigned long long)r.length, (int)r.length, (const char *)output);
    r = vanecitron_program(asked.bytes, asked.length, output, sizeof output - 1);
    printf("program in a byte too few: refused %u %llu\n", r.refusal, (unsigned long long)r.place);
    r = vanecitron_program(asked.bytes, asked.length, NULL, 0);
    printf("program in no bytes: refused %u %llu\n", r.refusal, (unsigned long long)r.place);
}

/* buffers of length 0, by null pointers and by pointers that may not be read */
static void empty_buffers(void)
{
    uint8_t *nowhere = (uint8_t *)1, sheet[1] = {7};
    vanecitron_check_result c = vanecitron_check(NULL, 0);
    printf("check of nothing: refused %u %llu\n", c.refusal, (unsigned long long)c.place);
    c = vanecitron_check(nowhere, 0);
    printf("check of nothing: refused %u %llu\n", c.refusal, (unsigned long long)c.place);
    vanecitron_check_result s = vanecitron_cut_sheet(book.bytes, book.length, NULL, 0);
    printf("sheet of no bytes: refused %u %llu\n", s.refusal, (unsigned long long)s.place);
    s = vanecitron_cut_sheet(book.bytes, VANECITRON_BOOK_HEAD, NULL, 0);
    printf("sheet of no bytes for no rules: refused %u, rules %llu\n", s.refusal, (unsigned long long)s.rules);
    s = vanecitron_cut_sheet(book.bytes, book.length, sheet, sizeof sheet);
    printf("sheet of one byte: refused %u %llu, byte %u\n", s.refusal, (unsigned long long)s.place, sheet[0]);
    vanecitron_compare_result m = vanecitron_compare(book.bytes, book.length, NULL, 0, nowhere, 0, 0);
    printf("compare of empty runs: refused %u, outcome %u, rounds %llu\n", m.refusal, m.outcome, (unsigned long long)m.rounds);
    vanecitron_round_result r = vanecitron_round(book.bytes, book.length, NULL, 0, NULL, 0, NULL, 0, NULL, 0, nowhere, 0, NULL, 0);
    printf("round in no bytes: refused %u %llu\n", r.refusal, (unsigned long long)r.place);
    vanecitron_least_result l = vanecitron_least(book.bytes, book.length, NULL, 0, nowhere, 0, 0);
    printf("least of an empty run in no bytes: refused %u, length %llu\n", l.refusal, (unsigned long long)l.length);
}

int main(void)
{
    if (vanecitron_version() != VANECITRON_VERSION) {
        printf("the archive is not of version %s\n", VANECITRON_VERSION_TEXT);
        return 1;
    }
    book = book_of(bytes, sizeof bytes, "abdc", "cadb");
    vanecitron_check_result c = vanecitron_check(book.bytes, book.length);
    if (c.refusal != VANECITRON_ACCEPTED) {
        printf("check: refused %u (%s)\n", c.refusal, vanecitron_refusal_text(c.refusal));
        return 1;
    }
    printf("check: refused %u, rules %llu\n", c.refusal, (unsigned long long)c.rules);

    uint8_t sheet[VANECITRON_SHEET_MOST];
    print_sheet(&book, sheet, sizeof sheet);
    printf("ample allowance for 7 steps: %u\n", vanecitron_ample_allowance(sheet, c.rules, 7));

    compare("", "", 100);
    compare("a", "", 100);
    compare("abd", "abd", 100);
    compare("abd", "cad", 100);
    compare("abdc", "cadb", 100);
    compare("abdcad", "cadbad", 100);
    compare("cadbadb", "abdabdc", vanecitron_ample_allowance(sheet, c.rules, 7));
    compare("cadbadb", "abdabdc", 2);
    compare("cadbadb", "abdabdc", 3);
    compare("abde", "abd", 100);
    compare("abd", "abde", 100);

    follow("cadbadb", "abdabdc");

    least("abdc", 4, 0);
    least("cadb", 8, 2);
    least("cadbadb", 7, 0);
    least("abdcadb", 9, 1);
    least("cadb", 8, 5);
    least("", 4, 4);
    least("", 4, 5);
    least("abde", 8, 0);

    uint8_t lent[VANECITRON_BOOK_MOST];
    vanecitron_book another = book_of(lent, sizeof lent, "a", "b");
    printf("sheet of a = b:\n");
    print_sheet(&another, sheet, sizeof sheet);
    another = book_of(lent, sizeof lent, "a", "aa");
    c = vanecitron_check(another.bytes, another.length);
    printf("check of a = aa: refused %u %llu (%s)\n", c.refusal, (unsigned long long)c.place, vanecitron_refusal_text(c.refusal));
    c = vanecitron_check(book.bytes, book.length - 1);
    printf("check of a book cut off: refused %u %llu (%s)\n", c.refusal, (unsigned long long)c.place, vanecitron_refusal_text(c.refusal));

    empty_buffers();
    program();
    return 0;
}
