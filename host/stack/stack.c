/*
 * The stack that each function of the library needs, measured: a call runs on a painted stack of its own, and the lowest byte that is no longer as
 * painted is the mark. What an empty function needs there, which is the way into it, is taken off; what memcpy and memset need is in it. Fails where a
 * call needs more than VANECITRON_STACK says, or where its answer is not the one written here, so that each call is known to take the row or to meet the
 * refusal that it is there for.
 *
 * The library has no recursion and no arrays whose size depends on the input, so a call needs as much as its deepest chain of functions. The calls take
 * each row of a round, meet each kind of refusal that a function has, and have books, held ones too, tickets, runs, marks and inputs at their limits.
 */
#define _XOPEN_SOURCE 700
#include <stdint.h>
#include <stdio.h>
#include <stdlib.h>
#include <string.h>
#include <ucontext.h>

#include "vanecitron_book.h"

#define STACK (1u << 18)
#define PAINT 0xa5
#define RULE VANECITRON_BOOK_RULE_MOST /* the bytes of a rule whose sides have the most steps */
#define STRANGER 255u                  /* a step that no book has */

/* what a call is given; the runs and the input have room for one byte over the limit */
static uint8_t book[VANECITRON_BOOK_MOST + RULE], input[VANECITRON_INPUT + 1];
static uint8_t u[VANECITRON_ROUND_RUN + 1], v[VANECITRON_ROUND_RUN + 1], p[VANECITRON_ROUND_MARK + 1];
static uint8_t record[RULE + 1];
static size_t book_length, input_length, u_length, v_length, p_length, record_length, withdrawn, ticket_length;
static uint32_t allowance;

/* what it is lent, and how much of that; the held book has room for one rule over the limit, and the ticket, which is given too, for one byte */
static uint8_t sheet[VANECITRON_SHEET_MOST], next_u[VANECITRON_NEXT_RUN], next_v[VANECITRON_NEXT_RUN], next_p[VANECITRON_NEXT_MARK];
static uint8_t least[VANECITRON_LEAST_MOST], output[VANECITRON_OUTPUT], held[VANECITRON_HELD + RULE], ticket[VANECITRON_TICKET + 1];
static size_t sheet_room, next_u_room, next_v_room, next_p_room, least_room, output_room, held_room, ticket_room;
static size_t offset;

/* what it answers */
static vanecitron_check_result checked;
static vanecitron_round_result rounded;
static vanecitron_compare_result compared;
static vanecitron_least_result written;
static vanecitron_program_result printed;
static vanecitron_held_result found;

static void nothing(void) {}

static void call_check(void)
{
    checked = vanecitron_check(book, book_length);
}

static void call_cut_sheet(void)
{
    checked = vanecitron_cut_sheet(book, book_length, sheet, sheet_room);
}

static void call_round(void)
{
    rounded = vanecitron_round(book, book_length, u, u_length, v, v_length, p, p_length, next_u, next_u_room, next_v, next_v_room, next_p, next_p_room);
}

static void call_compare(void)
{
    compared = vanecitron_compare(book, book_length, u, u_length, v, v_length, allowance);
}

static void call_least(void)
{
    written = vanecitron_least(book, book_length, u, u_length, least, least_room, offset);
}

static void call_front(void)
{
    written = vanecitron_front(book, book_length, u, u_length, p, p_length, least, least_room, offset);
}

static void call_program(void)
{
    printed = vanecitron_program(input, input_length, output, output_room);
}

static void call_load(void)
{
    checked = vanecitron_load(book, book_length, held, held_room);
}

static void call_add(void)
{
    checked = vanecitron_add(held, held_room, record, record_length, sheet, sheet_room);
}

static void call_withdraw(void)
{
    checked = vanecitron_withdraw(held, held_room, withdrawn, sheet, sheet_room);
}

static void call_propose_add(void)
{
    checked = vanecitron_propose_add(held, held_room, record, record_length, sheet, sheet_room, ticket, ticket_room);
}

static void call_propose_withdraw(void)
{
    checked = vanecitron_propose_withdraw(held, held_room, withdrawn, sheet, sheet_room, ticket, ticket_room);
}

static void call_post(void)
{
    checked = vanecitron_post(held, held_room, ticket, ticket_length, sheet, sheet_room);
}

static void call_held_book(void)
{
    found = vanecitron_held_book(held, held_room);
}

/* --- answers as text --- */

static char answer[64];

static void tell(const char *word, uint64_t number)
{
    snprintf(answer, sizeof answer, "%s %llu", word, (unsigned long long)number);
}

static const char *outcome_text(uint32_t outcome)
{
    switch (outcome) {
    case VANECITRON_SAME: return "same";
    case VANECITRON_DIFFERENT: return "different";
    case VANECITRON_NEXT: return "next";
    default: return "no outcome";
    }
}

/* a refusal, if it is one */
static int tell_refusal(uint32_t refusal, uint64_t place)
{
    snprintf(answer, sizeof answer, "refused %u %llu", refusal, (unsigned long long)place);
    return refusal != VANECITRON_ACCEPTED;
}

static void tell_checked(void)
{
    if (!tell_refusal(checked.refusal, checked.place)) {
        tell("rules", checked.rules);
    }
}

/* a run behind what is told so far: a short one in letters, a long one by its length */
static void tell_run(const uint8_t *run, uint64_t length)
{
    char *end = answer + strlen(answer);
    if (length == 0 || length > 8) {
        snprintf(end, 8, length == 0 ? " -" : " %u", (unsigned)length);
        return;
    }
    *end++ = ' ';
    for (uint64_t i = 0; i < length; i++) {
        *end++ = (char)('a' + run[i]);
    }
    *end = 0;
}

static void tell_rounded(void)
{
    if (tell_refusal(rounded.refusal, rounded.place)) {
        return;
    }
    strcpy(answer, outcome_text(rounded.outcome));
    if (rounded.outcome == VANECITRON_NEXT) {
        tell_run(next_u, rounded.u_length);
        tell_run(next_v, rounded.v_length);
        tell_run(next_p, rounded.p_length);
    }
}

static void tell_compared(void)
{
    if (!tell_refusal(compared.refusal, compared.place)) {
        tell(outcome_text(compared.outcome), compared.rounds);
    }
}

static void tell_written(const char *word)
{
    if (tell_refusal(written.refusal, written.place)) {
        return;
    }
    strcpy(answer, word);
    tell_run(least + offset, written.length);
}

static void tell_least(void)
{
    tell_written("least");
}

static void tell_front(void)
{
    tell_written("front");
}

/* the last line of the output */
static void tell_printed(void)
{
    if (tell_refusal(printed.refusal, printed.place)) {
        return;
    }
    size_t from = printed.length - 1;
    while (from > 0 && output[from - 1] != '\n') {
        from--;
    }
    snprintf(answer, sizeof answer, "%.*s", (int)(printed.length - 1 - from), (const char *)output + from);
}

/* the bytes of the book and the changes */
static void tell_found(void)
{
    snprintf(answer, sizeof answer, "held %llu %llu", (unsigned long long)found.length, (unsigned long long)found.changes);
}

/* --- the measure --- */

struct function {
    const char *name;
    void (*call)(void);
    void (*tell)(void);
    size_t most;
    unsigned calls;
};

static struct function check = {"check", call_check, tell_checked, 0, 0};
static struct function cut_sheet = {"cut_sheet", call_cut_sheet, tell_checked, 0, 0};
static struct function single_round = {"round", call_round, tell_rounded, 0, 0};
static struct function compare = {"compare", call_compare, tell_compared, 0, 0};
static struct function least_run = {"least", call_least, tell_least, 0, 0};
static struct function front = {"front", call_front, tell_front, 0, 0};
static struct function program = {"program", call_program, tell_printed, 0, 0};
static struct function load = {"load", call_load, tell_checked, 0, 0};
static struct function addition = {"add", call_add, tell_checked, 0, 0};
static struct function withdrawal = {"withdraw", call_withdraw, tell_checked, 0, 0};
static struct function proposed_addition = {"propose_add", call_propose_add, tell_checked, 0, 0};
static struct function proposed_withdrawal = {"propose_withdraw", call_propose_withdraw, tell_checked, 0, 0};
static struct function posting = {"post", call_post, tell_checked, 0, 0};
static struct function held_book = {"held_book", call_held_book, tell_found, 0, 0};
static struct function *const functions[] = {&check,    &cut_sheet,  &single_round,      &compare,             &least_run, &front,    &program, &load,
                                             &addition, &withdrawal, &proposed_addition, &proposed_withdrawal, &posting,   &held_book};
#define OF_BOOK 8u /* so many of them are given a book as it is */
static int failed;

/* the bytes of a painted stack that a call has written to, from its end down to the lowest */
static size_t used(void (*call)(void))
{
    static ucontext_t here, there;
    static _Alignas(64) uint8_t stack[STACK];
    memset(stack, PAINT, sizeof stack);
    getcontext(&there);
    there.uc_stack.ss_sp = stack;
    there.uc_stack.ss_size = sizeof stack;
    there.uc_link = &here;
    makecontext(&there, call, 0);
    swapcontext(&here, &there);
    size_t lowest = 0;
    while (lowest < sizeof stack && stack[lowest] == PAINT) {
        lowest++;
    }
    return sizeof stack - lowest;
}

static void measure(struct function *function, const char *expected)
{
    size_t bytes = used(function->call) - used(nothing);
    function->most = bytes > function->most ? bytes : function->most;
    function->calls++;
    function->tell();
    if (strcmp(answer, expected) != 0) {
        printf("vanecitron_%s, call %u: %s, expected %s\n", function->name, function->calls, answer, expected);
        failed = 1;
    }
}

/* --- books and runs --- */

static vanecitron_book writing;

static void begin_book(uint8_t letters)
{
    writing = vanecitron_book_begin(book, sizeof book, letters);
    book_length = writing.length;
}

static void add_rule(const uint8_t *left, size_t m, const uint8_t *right, size_t n)
{
    vanecitron_book_rule(&writing, left, m, right, n);
    book_length = writing.length;
}

/* the steps of a word in letters; ~ is a stranger */
static size_t steps_of(const char *letters, size_t length, uint8_t *run)
{
    for (size_t i = 0; i < length; i++) {
        run[i] = letters[i] == '~' ? STRANGER : (uint8_t)(letters[i] - 'a');
    }
    return length;
}

/* a book of 26 letters with the rules of a text such as "abdc=cadb,ef=gh" */
static void book_of(const char *rules)
{
    begin_book(26);
    while (*rules != 0) {
        uint8_t left[VANECITRON_SIDE], right[VANECITRON_SIDE];
        size_t m = steps_of(rules, strcspn(rules, "="), left);
        rules += m + 1;
        size_t n = steps_of(rules, strcspn(rules, ","), right);
        rules += n + (rules[n] == ',');
        add_rule(left, m, right, n);
    }
}

/* 32 rules of 64 and 64 pseudo-random steps: they share short factors alone, so it is accepted */
static void full_random_book(void)
{
    uint32_t state = 1;
    begin_book(VANECITRON_LETTERS);
    for (unsigned rule = 0; rule < VANECITRON_RULES; rule++) {
        uint8_t sides[2 * VANECITRON_SIDE];
        for (unsigned i = 0; i < sizeof sides; i++) {
            state = state * 1664525u + 1013904223u;
            sides[i] = (uint8_t)(state >> 26);
        }
        add_rule(sides, VANECITRON_SIDE, sides + VANECITRON_SIDE, VANECITRON_SIDE);
    }
}

/*
 * 32 rules of 64 and 64 steps with the longest pieces: all sides have a front and an end of 30 steps in common, and four steps between, of which no two
 * stand together in another side, so that each needs four pieces. The sides of the second rule have the cuts 30 4 30.
 */
static void full_shared_book(void)
{
    begin_book(VANECITRON_LETTERS);
    for (unsigned rule = 0; rule < VANECITRON_RULES; rule++) {
        uint8_t sides[2][VANECITRON_SIDE];
        for (unsigned i = 0; i < 2; i++) {
            unsigned side = 2 * rule + i, step = 1 + 3 * (side / 62);
            const unsigned own[] = {side, side + step, side + 2 * step + 1, side + 3 * step + 3};
            memset(sides[i], 0, 30);
            memset(sides[i] + 34, 1, 30);
            for (unsigned j = 0; j < 4; j++) {
                sides[i][30 + j] = (uint8_t)(2 + own[j] % 62);
            }
        }
        add_rule(sides[0], VANECITRON_SIDE, sides[1], VANECITRON_SIDE);
    }
}

/* a side of a full book */
static const uint8_t *full_side(unsigned side)
{
    return book + VANECITRON_BOOK_HEAD + side / 2 * RULE + VANECITRON_BOOK_RULE(0, 0) + side % 2 * VANECITRON_SIDE;
}

/* everything lent in full, an allowance that is not spent, and empty runs */
static void begin_call(void)
{
    sheet_room = sizeof sheet;
    next_u_room = sizeof next_u;
    next_v_room = sizeof next_v;
    next_p_room = sizeof next_p;
    least_room = sizeof least;
    output_room = sizeof output;
    held_room = VANECITRON_HELD;
    ticket_room = VANECITRON_TICKET;
    ticket_length = sizeof ticket;
    offset = 0;
    allowance = VANECITRON_ALLOWANCE;
    u_length = v_length = p_length = 0;
}

static void runs_of(const char *first, const char *second, const char *mark)
{
    begin_call();
    u_length = steps_of(first, strlen(first), u);
    v_length = steps_of(second, strlen(second), v);
    p_length = steps_of(mark, strlen(mark), p);
}

/* u goes through the left sides of a full book in turn and v through the right ones, so that exchanges join them where the length is one of whole
   sides */
static void runs_through_sides(size_t length)
{
    begin_call();
    u_length = v_length = length;
    for (size_t i = 0; i < length; i++) {
        unsigned rule = i / VANECITRON_SIDE % VANECITRON_RULES;
        u[i] = full_side(2 * rule)[i % VANECITRON_SIDE];
        v[i] = full_side(2 * rule + 1)[i % VANECITRON_SIDE];
    }
}

/* runs and a mark of one step, of these lengths */
static void runs_of_step(uint8_t step, size_t first, size_t second, size_t mark)
{
    begin_call();
    memset(u, step, u_length = first);
    memset(v, step, v_length = second);
    memset(p, step, p_length = mark);
}

/* --- inputs of the program --- */

static void begin_input(void)
{
    memcpy(input, book, book_length);
    input_length = book_length;
}

/* a comparison of u and v, if the input has room for it */
static int ask(void)
{
    vanecitron_book asking = {input, VANECITRON_INPUT, input_length, 0};
    if (!vanecitron_book_comparison(&asking, allowance, u, u_length, v, v_length)) {
        return 0;
    }
    input_length = asking.length;
    return 1;
}

/* the comparison of u and v, by itself and as the program's last line */
static void measure_comparison(const char *expected)
{
    measure(&compare, expected);
    begin_input();
    ask();
    measure(&program, expected);
}

/* --- held books --- */

/* the book as a held one, whether it would load or not */
static void hold(void)
{
    held[0] = (uint8_t)book_length;
    held[1] = (uint8_t)(book_length >> 8);
    memset(held + 2, 0, 2);
    memcpy(held + 4, book, book_length);
}

/* a full book without its last rule is held, and that rule is the record */
static void hold_all_but_last(void (*make_book)(void))
{
    make_book();
    book_length -= RULE;
    memcpy(record, book + book_length, record_length = RULE);
    begin_call();
    hold();
}

/* --- the calls --- */

/*
 * each row of a round, with what it can come to; the cuts of q are 1 2 1 and 1 2 1, and under ends acfe and bdge are cut into ac fe and bd ge. Rules that share a
 * run: a member alone, a second side with the same run, a tail for which the rest is active behind one for which it is not, and a mark of a third member
 */
static void rows(void)
{
    static const char q[] = "abdc=cadb", ends[] = "acfe=bdge,hfei=jgek", third[] = "ada=ca,ca=e";
    static const struct {
        int row; /* for the reader */
        const char *rules, *u, *v, *p, *expected;
    } cases[] = {
        {1, q, "", "", "", "same"},
        {1, q, "abdc", "", "", "different"},
        {1, q, "", "", "a", "different"},
        {2, "", "ab", "ab", "", "next b b -"},
        {2, q, "b", "b", "", "next - - -"},
        {2, q, "ba", "ba", "ba", "next a a a"},
        {2, q, "b", "c", "", "different"},
        {2, q, "b", "b", "a", "different"},
        {3, q, "abd", "abd", "b", "different"},
        {3, q, "abd", "b", "", "different"},
        {3, third, "e", "e", "d", "different"},
        {3, third, "ade", "b", "", "different"},
        {4, q, "abdc", "abdc", "", "next b b -"},
        {4, q, "abdc", "cadb", "c", "next b b -"},
        {4, q, "abdcad", "cadbad", "", "next cad cad -"},
        {4, "ab=ab", "ab", "ab", "", "next - - -"},
        {4, "d=d,cac=d", "d", "d", "", "next c c -"},
        {4, "ad=c,c=aea", "cea", "cd", "", "next aea ad -"},
        {4, third, "e", "e", "a", "next a a -"},
        {5, q, "abd", "abd", "a", "next - - -"},
        {5, q, "abdb", "abdc", "c", "next b c c"},
        {6, q, "abdb", "cadb", "", "next b c -"},
        {6, q, "cadc", "abdcd", "a", "next c bd -"},
        {7, q, "abdc", "cadc", "", "next b c -"},
        {7, q, "cadba", "abdb", "a", "next ca b -"},
        {8, q, "abd", "cad", "", "different"},
        {8, ends, "ac", "bdg", "", "different"},
        {8, ends, "acfa", "bdgb", "", "next a b e"},
    };
    for (size_t i = 0; i < sizeof cases / sizeof cases[0]; i++) {
        book_of(cases[i].rules);
        runs_of(cases[i].u, cases[i].v, cases[i].p);
        measure(&single_round, cases[i].expected);
    }
}

/* comparisons that between them go through each row */
static void comparisons(void)
{
    static const struct {
        const char *rules, *u, *v, *expected;
    } cases[] = {
        {"", "ab", "ab", "same 2"},
        {"abdc=cadb", "abd", "b", "different 0"},
        {"abdc=cadb", "abd", "abd", "same 1"},
        {"abdc=cadb", "abd", "cad", "different 0"},
        {"abdc=cadb", "abdcad", "cadbad", "same 2"},
        {"abdc=cadb", "cadbadb", "abdabdc", "same 3"},
        {"abdc=cadb", "abdabdc", "cadbadb", "same 3"},
        {"acfe=bdge,hfei=jgek", "acfa", "bdgb", "different 1"},
        {"ad=c,c=aea", "cea", "cd", "same 2"},
        {"ada=ca,ca=e", "ade", "ce", "same 3"},
        {"c=e,d=c", "ecd", "dde", "same 3"},
    };
    for (size_t i = 0; i < sizeof cases / sizeof cases[0]; i++) {
        book_of(cases[i].rules);
        runs_of(cases[i].u, cases[i].v, "");
        measure_comparison(cases[i].expected);
    }
}

/*
 * least runs that between them go each way: steps that no rule begins with; a side that stands in full, with what follows active for the next tail, for the
 * other one, and for none; a side kept because its tail is no possible front of what follows; and one exchanged that does not stand there in full, with
 * the tails' own parts told apart from what follows, and not
 */
static void least_runs(void)
{
    static const char q[] = "abdc=cadb", ends[] = "acfe=bdge,em=no,gep=qr";
    static const struct {
        const char *rules, *u, *expected;
    } cases[] = {
        {"", "", "least -"},
        {"", "ba", "least ba"},
        {q, "cadb", "least abdc"},
        {q, "cadbadb", "least abdabdc"},
        {q, "cad", "least cad"},
        {q, "cadcadb", "least cadabdc"},
        {"ba=bcb", "bacb", "least baa"},
        {ends, "bdge", "least acfe"},
        {ends, "bdgno", "least acfem"},
        {ends, "bdqr", "least acfep"},
        {ends, "bdqs", "least bdqs"},
        {"abdc=cadb,cadb=bcda", "bcdcadb", "least abdcbdc"},
        {"ad=c,c=aea", "cea", "least add"},
        {"ada=ca,ca=e", "ce", "least adada"},
    };
    for (size_t i = 0; i < sizeof cases / sizeof cases[0]; i++) {
        book_of(cases[i].rules);
        runs_of(cases[i].u, "", "");
        measure(&least_run, cases[i].expected);
    }
}

/*
 * fronts that between them go each way: the empty one; steps that no rule begins with, and a front that ends in a side behind them; a side that stands in
 * full or in part, with a front of its own or of another member of its family; one whose tail must then be a front of what follows; several runs behind one
 * front, which no chain joins; none, and no piece
 */
static void fronts(void)
{
    static const char q[] = "abdc=cadb", ends[] = "acfe=bdge,em=no,gep=qr", third[] = "ada=ca,ca=e", family[] = "abdc=cadb,cadb=bcda";
    static const struct {
        const char *rules, *u, *p, *expected;
    } cases[] = {
        {"", "", "", "front -"},
        {"", "ba", "", "front ba"},
        {"", "ba", "b", "refused 18 0"},
        {q, "cadb", "", "front abdc"},
        {q, "", "a", "refused 19 0"},
        {q, "b", "b", "front -"},
        {q, "b", "a", "refused 19 0"},
        {q, "bcadb", "b", "front abdc"},
        {q, "cadb", "a", "front bdc"},
        {q, "abdc", "c", "front adb"},
        {q, "abdc", "d", "refused 19 0"},
        {q, "abdc", "ab", "refused 18 0"},
        {q, "abd", "a", "front bd"},
        {q, "abd", "c", "refused 19 0"},
        {q, "abdabdc", "c", "front adbadb"},
        {q, "cadbadb", "a", "front bdabdc"},
        {"ab=ab", "ab", "a", "refused 18 0"},
        {"ab=ac", "acd", "a", "front bd"},
        {"ba=bcb", "bacb", "b", "front aa"},
        {"c=e,d=c", "ecd", "c", "refused 18 0"},
        {"d=d,cac=d", "d", "c", "front ac"},
        {ends, "no", "e", "front m"},
        {ends, "qr", "ge", "front p"},
        {ends, "qr", "g", "front ep"},
        {ends, "gno", "ge", "front m"},
        {ends, "gno", "g", "front em"},
        {ends, "g", "ge", "refused 19 0"},
        {"abcx=abcy,abdz=w", "w", "ab", "front dz"},
        {"abcx=abcy,abdz=w", "w", "abc", "refused 19 0"},
        {"abcx=abcy,abdz=w", "abcy", "abc", "front x"},
        {third, "e", "a", "front da"},
        {third, "ce", "a", "front dada"},
        {"ad=c,c=aea", "cea", "a", "front dd"},
        {family, "bcdcadb", "a", "front bdcbdc"},
        {family, "abdcbdc", "b", "front cdabdc"},
        {family, "bcdcadb", "d", "refused 19 0"},
    };
    for (size_t i = 0; i < sizeof cases / sizeof cases[0]; i++) {
        book_of(cases[i].rules);
        runs_of(cases[i].u, "", cases[i].p);
        measure(&front, cases[i].expected);
    }
}

/*
 * a book in which 63 times e is a piece, the longest that there can be: two rules, each of a single step and of a side of 64, which has a step of its own, c or
 * d, before the piece or behind it
 */
static void longest_piece_book(uint8_t first, uint8_t second, size_t own_at)
{
    uint8_t sides[2][VANECITRON_SIDE];
    memset(sides, 4, sizeof sides);
    sides[0][own_at] = 2;
    sides[1][own_at] = 3;
    begin_book(7);
    add_rule(&first, 1, sides[0], VANECITRON_SIDE);
    add_rule(&second, 1, sides[1], VANECITRON_SIDE);
}

/* a run of one step, behind so many times e, and the longest front */
static void runs_behind_longest_piece(uint8_t step, size_t before)
{
    runs_of_step(step, VANECITRON_RUN, 0, 0);
    memset(u, 4, before);
    memset(p, 4, p_length = VANECITRON_SIDE - 1);
}

/*
 * the longest front of the longest runs: u begins with it, and each step behind it is exchanged for 64, or stays; or u is joined to a run that begins with it,
 * which leaves the longest run that such a front can leave, or one as long as u
 */
static void longest_fronts(void)
{
    static const size_t most = VANECITRON_SIDE - 1, behind = VANECITRON_SIDE * (VANECITRON_RUN - (VANECITRON_SIDE - 1));
    longest_piece_book(5, 6, 0);
    runs_behind_longest_piece(5, most);
    measure(&front, "front 258112");
    least_room = behind;
    measure(&front, "front 258112");
    least_room--;
    measure(&front, "refused 14 0");
    runs_behind_longest_piece(5, most - 1);
    measure(&front, "refused 19 0");
    runs_behind_longest_piece(5, most);
    p[p_length++] = 4;
    measure(&front, "refused 18 0");
    longest_piece_book(0, 1, 0);
    runs_behind_longest_piece(0, most);
    measure(&front, "front 4033");

    longest_piece_book(5, 6, most);
    runs_behind_longest_piece(5, 0);
    measure(&front, "front 262081");
    offset = most;
    measure(&front, "front 262081");
    offset++;
    measure(&front, "refused 14 0");
    longest_piece_book(0, 1, most);
    runs_behind_longest_piece(0, 0);
    measure(&front, "front 4096");
}

/* rows 4 to 8 between the sides of the second rule of the full book with the longest pieces, by the lengths of the fronts of sides that u and v are */
static void rows_of_full_book(void)
{
    static const struct {
        int row; /* for the reader */
        size_t u_length;
        unsigned v_side;
        size_t v_length, p_length;
        const char *expected;
    } cases[] = {
        {4, 64, 3, 64, 30, "next 30 30 -"}, {4, 64, 2, 64, 1, "next 30 30 -"}, {5, 34, 2, 64, 30, "next - 30 -"},  {6, 35, 3, 64, 30, "next b 30 -"},
        {7, 64, 3, 35, 30, "next 30 b -"},  {8, 34, 3, 34, 0, "next - - 30"},  {8, 35, 3, 36, 30, "next b bb 30"},
    };
    full_shared_book();
    for (size_t i = 0; i < sizeof cases / sizeof cases[0]; i++) {
        begin_call();
        memcpy(u, full_side(2), u_length = cases[i].u_length);
        memcpy(v, full_side(cases[i].v_side), v_length = cases[i].v_length);
        memset(p, 0, p_length = cases[i].p_length);
        measure(&single_round, cases[i].expected);
    }
}

/*
 * a full book with runs at their limits, and the program with a full input: the longest comparisons, then short ones, and the rest of a record. The front that
 * is taken off is that of the second side, of so many steps, while u begins with the first
 */
static void full_calls(void (*make_book)(void), const char *next, const char *same, size_t mark, const char *behind)
{
    make_book();
    begin_call();
    measure(&check, "rules 32");
    measure(&cut_sheet, "rules 32");
    runs_through_sides(VANECITRON_ROUND_RUN);
    measure(&single_round, next);
    runs_through_sides(VANECITRON_RUN);
    measure(&compare, same);
    measure(&least_run, "least 4096");
    memcpy(p, full_side(1), p_length = mark);
    measure(&front, behind);
    p_length = 0;
    measure(&front, "front 4096");
    begin_input();
    while (ask()) {
    }
    measure(&program, same);
    begin_call();
    while (ask()) {
    }
    measure(&program, "same 0");
    char expected[32];
    snprintf(expected, sizeof expected, "refused 1 %zu", input_length);
    memset(input + input_length, 0, VANECITRON_INPUT - input_length);
    input_length = VANECITRON_INPUT;
    measure(&program, expected);
}

/* the most lines of the program, the longest mark, and the longest next runs: one step is answered by 63 more */
static void limits(void)
{
    book_of("");
    begin_call();
    measure(&check, "rules 0");
    measure(&cut_sheet, "rules 0");
    begin_input();
    while (ask()) {
    }
    measure(&program, "same 0");
    runs_of_step(1, VANECITRON_ROUND_RUN, VANECITRON_ROUND_RUN, VANECITRON_ROUND_MARK);
    measure(&single_round, "next 4159 4159 63");

    uint8_t sides[4][VANECITRON_SIDE];
    memset(sides, 4, sizeof sides);
    for (uint8_t i = 0; i < 4; i++) {
        sides[i][0] = i;
    }
    begin_book(5);
    add_rule(sides[0], 1, sides[1], VANECITRON_SIDE);
    add_rule(sides[2], 1, sides[3], VANECITRON_SIDE);
    begin_call();
    measure(&cut_sheet, "rules 2"); /* no side is a product of pieces */
    runs_of_step(0, VANECITRON_ROUND_RUN, VANECITRON_ROUND_RUN, 0);
    measure(&single_round, "next 4222 4222 -");
    runs_of_step(0, VANECITRON_RUN, VANECITRON_RUN, 0);
    measure_comparison("same 262144");

    begin_book(5);
    add_rule(sides[1], 1, sides[0], VANECITRON_SIDE);
    add_rule(sides[3], 1, sides[2], VANECITRON_SIDE);
    runs_of_step(1, VANECITRON_RUN, 0, 0);
    measure(&least_run, "least 262144");
    offset = 1;
    measure(&least_run, "refused 14 0");
    runs_of_step(1, VANECITRON_RUN - 1, 0, 0);
    offset = VANECITRON_SIDE;
    measure(&least_run, "least 262080");
}

/* a change of what is held that gives this answer: proposed, posted, when the ticket is then stale, and made directly instead */
static void measure_change(struct function *proposal, struct function *change, const char *expected)
{
    static uint8_t held_before[sizeof held];
    memcpy(held_before, held, sizeof held);
    measure(proposal, expected);
    measure(&posting, expected);
    measure(&posting, "refused 16 0");
    memcpy(held, held_before, sizeof held);
    measure(change, expected);
}

/* full books that are held: loaded, each with a rule less, the first, one between and the last, and with the last one added again */
static void full_held_books(void (*make_book)(void))
{
    static const size_t rules[] = {0, VANECITRON_RULES / 2, VANECITRON_RULES - 1};
    for (size_t i = 0; i < sizeof rules / sizeof rules[0]; i++) {
        make_book();
        begin_call();
        measure(&load, "rules 32");
        measure(&held_book, "held 4293 0");
        withdrawn = rules[i];
        measure_change(&proposed_withdrawal, &withdrawal, "rules 31");
        measure(&held_book, "held 4159 1");
    }
    hold_all_but_last(make_book);
    measure_change(&proposed_addition, &addition, "rules 32");
    measure(&held_book, "held 4293 1");
}

/* a book from no rules to one and back, and buffers that are too short for any */
static void small_held_books(void)
{
    book_of("");
    begin_call();
    measure(&load, "rules 0");
    record_length = vanecitron_book_rule_record(record, sizeof record, (const uint8_t *)"\0", 1, (const uint8_t *)"\1", 1);
    measure_change(&proposed_addition, &addition, "rules 1");
    withdrawn = 0;
    measure_change(&proposed_withdrawal, &withdrawal, "rules 0");
    measure(&held_book, "held 5 2");
    held_room = 7;
    measure(&held_book, "held 3 2");
    held_room = 3;
    measure(&held_book, "held 0 0");
}

/* a full book whose last rule, or the side that ends it, is at fault; the place of the rule is 4159, and the side is the last of 64 */
static void spoiled_book(uint32_t refusal)
{
    full_random_book();
    uint8_t *rule = book + book_length - RULE, *side = book + book_length - VANECITRON_SIDE;
    switch (refusal) {
    case VANECITRON_SHORT: book_length--; break;
    case VANECITRON_KIND: rule[2] = 1; break;
    case VANECITRON_LENGTH: rule[4]++; break;
    case VANECITRON_RANGE: rule[4]++, rule[5]--; break;
    case VANECITRON_UNKNOWN_STEP: side[VANECITRON_SIDE - 1] = VANECITRON_LETTERS; break;
    case VANECITRON_THICK: add_rule(side, VANECITRON_SIDE, side, VANECITRON_SIDE); break;
    case VANECITRON_LOOSE: memset(side, 0, VANECITRON_SIDE); break;
    default: abort();
    }
}

/* the ticket of the change that a call is given, made up where a proposal gives none; its count is that of the held book */
static void make_up_ticket(int is_addition)
{
    size_t kind = is_addition ? VANECITRON_TICKET_ADDITION : VANECITRON_TICKET_WITHDRAWAL;
    const size_t fields[] = {held[2] + 256u * held[3], kind, is_addition ? record_length : withdrawn};
    for (size_t i = 0; i < 6; i++) {
        ticket[i] = (uint8_t)(fields[i / 2] >> 8 * (i % 2));
    }
    memcpy(ticket + 6, record, sizeof record);
}

/* a change that is refused, its proposal, and its ticket */
static void measure_refused(struct function *proposal, struct function *change, const char *expected)
{
    measure(change, expected);
    measure(proposal, expected);
    make_up_ticket(change == &addition);
    measure(&posting, expected);
}

/* refusals 1 to 6 and 8 in each function that has them; the program prints them */
static void refused_books(void)
{
    static const struct {
        uint32_t refusal;
        const char *expected;
    } books[] = {
        {VANECITRON_SHORT, "refused 1 4159"}, {VANECITRON_KIND, "refused 2 4159"},         {VANECITRON_LENGTH, "refused 3 4159"},
        {VANECITRON_RANGE, "refused 4 4159"}, {VANECITRON_UNKNOWN_STEP, "refused 5 4159"}, {VANECITRON_THICK, "refused 6 4293"},
        {VANECITRON_LOOSE, "refused 8 63"},
    };
    for (size_t spoiled = 0; spoiled < sizeof books / sizeof books[0]; spoiled++) {
        spoiled_book(books[spoiled].refusal);
        runs_of("a", "a", "a");
        begin_input();
        for (size_t i = 0; i < OF_BOOK; i++) {
            measure(functions[i], books[spoiled].expected);
        }
        if (books[spoiled].refusal != VANECITRON_LOOSE) {
            hold();
            held_room = sizeof held;
            measure_refused(&proposed_addition, &addition, books[spoiled].expected);
            measure_refused(&proposed_withdrawal, &withdrawal, books[spoiled].expected);
        }
    }
}

/* each refusal of an addition to a full book less one rule, by what is wrong with its record; 6 is of a full one */
static void refused_additions(void)
{
    static const struct {
        uint32_t refusal;
        const char *expected;
    } records[] = {
        {VANECITRON_SHORT, "refused 1 4159"},  {VANECITRON_KIND, "refused 2 4159"},  {VANECITRON_THICK, "refused 6 4293"},
        {VANECITRON_LENGTH, "refused 3 4159"}, {VANECITRON_RANGE, "refused 4 4159"}, {VANECITRON_UNKNOWN_STEP, "refused 5 4159"},
        {VANECITRON_LOOSE, "refused 8 63"},
    };
    for (size_t i = 0; i < sizeof records / sizeof records[0]; i++) {
        hold_all_but_last(full_random_book);
        switch (records[i].refusal) {
        case VANECITRON_SHORT: record_length--; break;
        case VANECITRON_KIND: record[2] = 1; break;
        case VANECITRON_THICK: measure(&addition, "rules 32"); break;
        case VANECITRON_LENGTH: record[4]++; break;
        case VANECITRON_RANGE: record[4]++, record[5]--; break;
        case VANECITRON_UNKNOWN_STEP: record[RULE - 1] = VANECITRON_LETTERS; break;
        case VANECITRON_LOOSE: memset(record + RULE - VANECITRON_SIDE, 0, VANECITRON_SIDE); break;
        default: abort();
        }
        measure_refused(&proposed_addition, &addition, records[i].expected);
    }
    hold_all_but_last(full_random_book);
    record_length = 0;
    measure_refused(&proposed_addition, &addition, "refused 1 4159");
    record_length = RULE + 1;
    measure_refused(&proposed_addition, &addition, "refused 3 4159");
    record_length = RULE;
    sheet_room = VANECITRON_SHEET_MOST - 1;
    measure_refused(&proposed_addition, &addition, "refused 12 0");
    held_room = VANECITRON_HELD - 1;
    measure_refused(&proposed_addition, &addition, "refused 12 1");
}

/* each refusal of a withdrawal from a full book; 8 is of one that would not load, and whose last side, which is at fault, moves from 63 to 61 */
static void refused_withdrawals(void)
{
    full_random_book();
    begin_call();
    hold();
    withdrawn = VANECITRON_RULES;
    measure_refused(&proposed_withdrawal, &withdrawal, "refused 15 0");
    withdrawn = SIZE_MAX;
    measure_refused(&proposed_withdrawal, &withdrawal, "refused 15 0");
    withdrawn = 0;
    sheet_room = VANECITRON_SHEET(VANECITRON_RULES - 1) - 1;
    measure_refused(&proposed_withdrawal, &withdrawal, "refused 12 0");
    held_room = VANECITRON_HELD - 1;
    measure_refused(&proposed_withdrawal, &withdrawal, "refused 12 1");
    spoiled_book(VANECITRON_LOOSE);
    begin_call();
    hold();
    measure_refused(&proposed_withdrawal, &withdrawal, "refused 8 61");
}

/* of full books: 12 of the ticket's buffer, and 17, with the proposals that are answered all the same */
static void refused_tickets(void)
{
    hold_all_but_last(full_random_book);
    withdrawn = VANECITRON_RULES - 2;
    ticket_room--;
    measure(&proposed_addition, "refused 12 2");
    measure(&proposed_withdrawal, "refused 12 2");
    ticket_room++;
    held[2] = VANECITRON_CHANGES_MOST & 255u;
    held[3] = VANECITRON_CHANGES_MOST >> 8;
    measure(&proposed_addition, "rules 32");
    measure(&posting, "refused 17 0");
    measure(&addition, "refused 17 0");
    measure(&proposed_withdrawal, "rules 30");
    measure(&posting, "refused 17 0");
    measure(&withdrawal, "refused 17 0");
}

/* a full book whose last side is the first one: three of its runs are a family */
static void full_book_with_a_shared_run(void)
{
    full_random_book();
    memcpy(book + book_length - VANECITRON_SIDE, full_side(0), VANECITRON_SIDE);
    begin_call();
    measure(&check, "rules 32");
    measure(&cut_sheet, "rules 32");
    memcpy(u, full_side(1), u_length = VANECITRON_SIDE);
    memcpy(v, full_side(62), v_length = VANECITRON_SIDE);
    allowance = 0;
    measure_comparison("refused 11 0");
}

/* refusals 9 to 11: each given run too long, each with a stranger, and an allowance used up; and 18 and 19 */
static void refused_runs(void)
{
    full_random_book();
    runs_of_step(0, VANECITRON_ROUND_RUN + 1, 0, 0);
    measure(&single_round, "refused 9 0");
    runs_of_step(0, VANECITRON_ROUND_RUN, VANECITRON_ROUND_RUN + 1, 0);
    measure(&single_round, "refused 9 5000");
    runs_of_step(0, VANECITRON_ROUND_RUN, VANECITRON_ROUND_RUN, VANECITRON_ROUND_MARK + 1);
    measure(&single_round, "refused 9 10000");
    runs_of_step(0, VANECITRON_RUN + 1, 0, 0);
    measure_comparison("refused 9 0");
    measure(&least_run, "refused 9 0");
    measure(&front, "refused 9 0");
    runs_of_step(0, VANECITRON_RUN, VANECITRON_RUN + 1, 0);
    measure_comparison("refused 9 5000");
    runs_of("a~", "a", "a");
    measure(&single_round, "refused 10 1");
    measure_comparison("refused 10 1");
    measure(&least_run, "refused 10 1");
    measure(&front, "refused 10 1");
    runs_of("a", "aa~", "a");
    measure(&single_round, "refused 10 5002");
    measure_comparison("refused 10 5002");
    runs_of("a", "a", "~");
    measure(&single_round, "refused 10 10000");
    measure(&front, "refused 10 10000");
    runs_of_step(0, VANECITRON_RUN, 0, VANECITRON_ROUND_MARK + 1);
    measure(&front, "refused 9 10000");
    p_length--;
    measure(&front, "refused 18 0");
    p[0] = 1;
    p_length = 1;
    measure(&front, "refused 19 0");
    runs_through_sides(VANECITRON_RUN);
    allowance = 1;
    measure_comparison("refused 11 1");
}

/* refusal 12: each lent buffer one byte short; and 14 */
static void narrow_buffers(void)
{
    const struct {
        size_t *room;
        struct function *function;
        const char *expected;
    } buffers[] = {
        {&sheet_room, &cut_sheet, "refused 12 0"},     {&next_u_room, &single_round, "refused 12 0"}, {&next_v_room, &single_round, "refused 12 1"},
        {&next_p_room, &single_round, "refused 12 2"}, {&output_room, &program, "refused 12 0"},      {&held_room, &load, "refused 12 1"},
    };
    full_random_book();
    begin_input();
    for (size_t i = 0; i < sizeof buffers / sizeof buffers[0]; i++) {
        begin_call();
        --*buffers[i].room;
        measure(buffers[i].function, buffers[i].expected);
    }
    runs_through_sides(VANECITRON_RUN);
    memcpy(p, u, p_length = 1);
    least_room = VANECITRON_RUN - 1;
    measure(&least_run, "refused 14 0");
    measure(&front, "front 4095");
    least_room--;
    measure(&front, "refused 14 0");
    offset = SIZE_MAX;
    measure(&least_run, "refused 14 0");
    measure(&front, "refused 14 0");
}

/* what the program alone refuses: an input over the limit, and records behind the book that are cut off, of another kind, or of a wrong length */
static void refused_inputs(void)
{
    full_random_book();
    begin_call();
    begin_input();
    input_length = VANECITRON_INPUT + 1;
    measure(&program, "refused 13 60000");
    begin_input();
    ask();
    input_length--;
    measure(&program, "refused 1 4293");
    begin_input();
    ask();
    ask();
    input[input_length - 12 + 2] = 2;
    measure(&program, "refused 2 4305");
    begin_input();
    ask();
    input[input_length - 4] = 1;
    measure(&program, "refused 3 4293");
}

int main(void)
{
    rows();
    rows_of_full_book();
    comparisons();
    least_runs();
    fronts();
    longest_fronts();
    full_calls(full_random_book, "next 4098 4098 -", "same 176", 1, "front 4095");
    full_calls(full_shared_book, "next 4126 4126 -", "same 1988", 30, "front 4066");
    limits();
    full_book_with_a_shared_run();
    full_held_books(full_random_book);
    full_held_books(full_shared_book);
    small_held_books();
    refused_books();
    refused_additions();
    refused_withdrawals();
    refused_tickets();
    refused_runs();
    narrow_buffers();
    refused_inputs();
    for (size_t i = 0; i < sizeof functions / sizeof functions[0]; i++) {
        printf("vanecitron_%-16s %6zu bytes of stack, the most of %u calls\n", functions[i]->name, functions[i]->most, functions[i]->calls);
        if (functions[i]->most > VANECITRON_STACK) {
            printf("vanecitron_%s needs more than VANECITRON_STACK, %u bytes\n", functions[i]->name, VANECITRON_STACK);
            failed = 1;
        }
    }
    return failed;
}
