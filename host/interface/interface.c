/*
 * Tests of what the C headers add to the archive: outcomes that no refusal has, the sides of the cut sheet, least runs and runs behind a front and where they
 * stand, held books and where theirs stand, proposals and tickets, the version, the texts of refusals, and the writer of books with its bounds.
 * Built and run by host/test. Each claim that fails is printed, and the program then ends with 1.
 */
#include <stdio.h>
#include <string.h>

#include "vanecitron_book.h"

static int failed;
static unsigned claims;

#define CLAIM(holds) claim(holds, __LINE__, #holds)

static void claim(int holds, int line, const char *text)
{
    claims++;
    if (!holds) {
        printf("interface.c:%d: not so: %s\n", line, text);
        failed = 1;
    }
}

/* book Q and the comparison abdc, cadb with the allowance 100, as the specification writes their bytes ("The program") */
static const uint8_t left[] = {0, 1, 3, 2}, right[] = {2, 0, 3, 1};
static const uint8_t example[] = {0x01, 0x00, 0x01, 0x00, 0x04, 0x0a, 0x00, 0x02, 0x00, 0x04, 0x04, 0x00, 0x01, 0x03, 0x02, 0x02, 0x00, 0x03, 0x01, 0x10,
                                  0x00, 0x03, 0x00, 0x64, 0x00, 0x00, 0x00, 0x04, 0x00, 0x04, 0x00, 0x00, 0x01, 0x03, 0x02, 0x02, 0x00, 0x03, 0x01};
#define Q 19u /* the bytes of the book alone */

/* where a least run, or the run behind a front, is written */
static uint8_t lent[8];

/* a run that is refused says its number and place, and nothing else; the buffer is as it was */
static void refused_run(vanecitron_least_result l, uint32_t refusal, uint64_t place)
{
    CLAIM(l.refusal == refusal && l.place == place && l.length == 0);
    for (size_t i = 0; i < sizeof lent; i++) {
        CLAIM(lent[i] == 0xa5);
    }
}

/* one that is written stands at its offset, and the other bytes are as they were */
static void written_run(vanecitron_least_result l, const uint8_t *run, size_t length, size_t offset)
{
    uint8_t expected[sizeof lent];
    memset(expected, 0xa5, sizeof expected);
    memcpy(expected + offset, run, length);
    CLAIM(l.refusal == VANECITRON_ACCEPTED && l.place == 0 && l.length == length);
    CLAIM(memcmp(lent, expected, sizeof lent) == 0);
}

/* the least run of a run, and what is left of one less a front, in the buffer, which is filled before */
static vanecitron_least_result least_of(const uint8_t *book, size_t book_length, const uint8_t *run, size_t run_length, size_t offset)
{
    memset(lent, 0xa5, sizeof lent);
    return vanecitron_least(book, book_length, run, run_length, lent, sizeof lent, offset);
}

static vanecitron_least_result front_of(const uint8_t *book, size_t book_length, const uint8_t *u, size_t u_length, const uint8_t *p, size_t p_length,
                                        size_t offset)
{
    memset(lent, 0xa5, sizeof lent);
    return vanecitron_front(book, book_length, u, u_length, p, p_length, lent, sizeof lent, offset);
}

/* what every refused comparison and round says: its number and place, and nothing else */
static void refused(const uint8_t *book, size_t book_length, const uint8_t *u, size_t u_length, const uint8_t *v, size_t v_length, uint32_t allowance,
                    uint32_t refusal, uint64_t place)
{
    static uint8_t next_u[VANECITRON_NEXT_RUN], next_v[VANECITRON_NEXT_RUN], next_p[VANECITRON_NEXT_MARK];
    vanecitron_compare_result c = vanecitron_compare(book, book_length, u, u_length, v, v_length, allowance);
    CLAIM(c.refusal == refusal && c.place == place);
    CLAIM(c.outcome == VANECITRON_NONE && c.rounds == 0);
    if (refusal != VANECITRON_SPENT && place < VANECITRON_PLACE_SPACING) {
        /* not past the first run, and before the lack of space and what is wrong with the front */
        const uint8_t strangers[] = {255, 255};
        refused_run(least_of(book, book_length, u, u_length, 9), refusal, place);
        refused_run(front_of(book, book_length, u, u_length, strangers, sizeof strangers, 9), refusal, place);
    }
    if (refusal == VANECITRON_SPENT || refusal == VANECITRON_LONG) {
        return; /* a round has no allowance, and another limit */
    }
    vanecitron_round_result r = vanecitron_round(book, book_length, u, u_length, v, v_length, NULL, 0, next_u, sizeof next_u, next_v, sizeof next_v,
                                                 next_p, sizeof next_p);
    CLAIM(r.refusal == refusal && r.place == place);
    CLAIM(r.outcome == VANECITRON_NONE && r.u_length == 0 && r.v_length == 0 && r.p_length == 0);
}

static void outcomes(void)
{
    static const uint8_t codes[] = {VANECITRON_NONE, VANECITRON_SAME, VANECITRON_DIFFERENT, VANECITRON_NEXT};
    static uint8_t thick[VANECITRON_BOOK_HEAD + (VANECITRON_RULES + 1) * VANECITRON_BOOK_RULE(1, 1)], run[VANECITRON_RUN + 1];
    static const uint8_t kind[] = {1, 0, 2, 0, 4}, length[] = {2, 0, 1, 0, 4, 4}, range[] = {1, 0, 1, 0, 65};
    static const uint8_t step[] = {1, 0, 1, 0, 4, 4, 0, 2, 0, 1, 1, 4, 0}, shared[] = {1, 0, 1, 0, 4, 4, 0, 2, 0, 1, 1, 0, 0};
    static const uint8_t loose[] = {1, 0, 1, 0, 4, 5, 0, 2, 0, 1, 2, 0, 0, 0}, stranger[] = {0, 4};
    for (unsigned i = 0; i < sizeof codes; i++) {
        CLAIM(codes[i] == i);
    }
    vanecitron_compare_result zeros;
    memset(&zeros, 0, sizeof zeros);
    CLAIM(zeros.outcome == VANECITRON_NONE);

    vanecitron_book book = vanecitron_book_begin(thick, sizeof thick, 64);
    for (uint8_t rule = 0; rule < VANECITRON_RULES; rule++) {
        const uint8_t sides[] = {(uint8_t)(2 * rule), (uint8_t)(2 * rule + 1)};
        vanecitron_book_rule(&book, sides, 1, sides + 1, 1);
    }
    CLAIM(vanecitron_check(book.bytes, book.length).rules == VANECITRON_RULES);
    size_t place = book.length;
    vanecitron_book_rule(&book, left, 1, right, 1);
    CLAIM(book.length == sizeof thick);
    CLAIM(vanecitron_check(shared, sizeof shared).refusal == VANECITRON_ACCEPTED && vanecitron_check(shared, sizeof shared).rules == 1);
    refused(example, Q - 1, left, 4, right, 4, 100, VANECITRON_SHORT, 5);
    refused(kind, sizeof kind, left, 4, right, 4, 100, VANECITRON_KIND, 0);
    refused(length, sizeof length, left, 4, right, 4, 100, VANECITRON_LENGTH, 0);
    refused(range, sizeof range, left, 4, right, 4, 100, VANECITRON_RANGE, 0);
    refused(step, sizeof step, left, 4, right, 4, 100, VANECITRON_UNKNOWN_STEP, 5);
    refused(book.bytes, book.length, left, 4, right, 4, 100, VANECITRON_THICK, place);
    refused(loose, sizeof loose, left, 4, right, 4, 100, VANECITRON_LOOSE, 0);
    refused(example, Q, left, 4, run, sizeof run, 100, VANECITRON_LONG, VANECITRON_PLACE_SPACING);
    refused(example, Q, stranger, 2, right, 4, 100, VANECITRON_STRANGER, 1);
    refused(example, Q, left, 4, stranger, 2, 100, VANECITRON_STRANGER, VANECITRON_PLACE_SPACING + 1);
    refused(example, Q, left, 4, right, 4, 1, VANECITRON_SPENT, 1);

    vanecitron_compare_result c = vanecitron_compare(example, Q, left, 4, right, 4, 2);
    CLAIM(c.refusal == VANECITRON_ACCEPTED && c.outcome == VANECITRON_SAME && c.rounds == 2);
    c = vanecitron_compare(example, Q, left, 4, right, 3, 2);
    CLAIM(c.refusal == VANECITRON_ACCEPTED && c.outcome == VANECITRON_DIFFERENT);
    vanecitron_round_result r = vanecitron_round(example, Q, left, 4, right, 4, NULL, 0, NULL, 0, NULL, 0, NULL, 0);
    CLAIM(r.refusal == VANECITRON_NARROW && r.outcome == VANECITRON_NONE);
    CLAIM(VANECITRON_PLACE_RUN(5003) == 1 && VANECITRON_PLACE_POSITION(5003) == 3);
    CLAIM(VANECITRON_PLACE_RUN(4095) == 0 && VANECITRON_PLACE_POSITION(4095) == 4095);
}

/* the sheet of a book of one rule in a buffer of so many bytes, and the bytes behind it: each side has a cut x y z and so many pieces; or 12 */
static void sheet_in(size_t room, const uint8_t *book, size_t book_length, uint8_t x, uint8_t y, uint8_t z, uint8_t pieces)
{
    uint8_t sheet[VANECITRON_SHEET(1) + 4], expected[VANECITRON_SHEET(1) + 4];
    memset(sheet, 0xa5, sizeof sheet);
    memset(expected, 0xa5, sizeof expected);
    vanecitron_check_result r = vanecitron_cut_sheet(book, book_length, sheet, room);
    if (room < VANECITRON_SHEET(1)) {
        CLAIM(r.refusal == VANECITRON_NARROW && r.place == 0 && r.rules == 0);
    } else {
        CLAIM(r.refusal == VANECITRON_ACCEPTED && r.place == 0 && r.rules == 1);
        for (uint8_t *side = expected; side < expected + VANECITRON_SHEET(1); side += VANECITRON_SHEET_SIDE) {
            side[VANECITRON_SHEET_X] = x;
            side[VANECITRON_SHEET_Y] = y;
            side[VANECITRON_SHEET_Z] = z;
            side[VANECITRON_SHEET_PIECES] = pieces;
        }
    }
    CLAIM(memcmp(sheet, expected, sizeof sheet) == 0);
}

/* of Q each letter is a piece and no longer run is, and so of abcde = edcba; of a = b no letter is */
static void sheets(void)
{
    static const uint8_t letters[] = {1, 0, 1, 0, 2, 4, 0, 2, 0, 1, 1, 0, 1};
    static const uint8_t mirrored[] = {1, 0, 1, 0, 5, 12, 0, 2, 0, 5, 5, 0, 1, 2, 3, 4, 4, 3, 2, 1, 0};
    CLAIM(VANECITRON_SHEET(1) == 8 && VANECITRON_SHEET_MOST == 256);
    for (size_t room = 0; room <= VANECITRON_SHEET(1) + 4; room++) {
        sheet_in(room, example, Q, 1, 2, 1, 4);
        sheet_in(room, letters, sizeof letters, 0, 1, 0, VANECITRON_NO_PRODUCT);
        sheet_in(room, mirrored, sizeof mirrored, 1, 3, 1, 5);
    }
    CLAIM(vanecitron_cut_sheet(example, VANECITRON_BOOK_HEAD, NULL, 0).refusal == VANECITRON_ACCEPTED);
}

/* the least run of each side of book Q is abdc; where it has no space, and where the empty run has */
static void least_runs(void)
{
    static const uint8_t run[VANECITRON_RUN + 1], stranger[] = {0, 4};
    for (size_t offset = 0; offset <= 4; offset++) {
        written_run(least_of(example, Q, offset % 2 ? left : right, 4, offset), left, 4, offset);
    }
    refused_run(least_of(example, Q, right, 4, 5), VANECITRON_NO_SPACE, 0);
    refused_run(least_of(example, Q, right, 4, 8), VANECITRON_NO_SPACE, 0);
    refused_run(least_of(example, Q, right, 4, SIZE_MAX), VANECITRON_NO_SPACE, 0);
    refused_run(least_of(example, Q, right, 0, 9), VANECITRON_NO_SPACE, 0);
    refused_run(least_of(example, Q, run, sizeof run, 9), VANECITRON_LONG, 0);
    refused_run(least_of(example, Q, stranger, 2, 9), VANECITRON_STRANGER, 1);
    vanecitron_least_result l = vanecitron_least(example, Q, NULL, 0, NULL, 0, 0);
    CLAIM(l.refusal == VANECITRON_ACCEPTED && l.place == 0 && l.length == 0);
    CLAIM(VANECITRON_LEAST_MOST == VANECITRON_RUN * VANECITRON_SIDE);
}

/*
 * the sides of book Q are joined to each other alone, so that adb is left of each behind c, and bdc behind a; each letter is a piece, and no longer run is.
 * Where that has no space, and where the empty run has
 */
static void fronts(void)
{
    static const uint8_t c = 2;
    for (size_t offset = 0; offset <= 8; offset++) {
        const uint8_t *u = offset % 2 ? left : right;
        written_run(front_of(example, Q, &c, 1, &c, 1, offset), &c, 0, offset);
        if (offset > 5) {
            refused_run(front_of(example, Q, u, 4, &c, 1, offset), VANECITRON_NO_SPACE, 0);
            refused_run(front_of(example, Q, u, 4, left, 1, offset), VANECITRON_NO_SPACE, 0);
            refused_run(front_of(example, Q, u, 4, NULL, 0, offset), VANECITRON_NO_SPACE, 0);
            continue;
        }
        written_run(front_of(example, Q, u, 4, &c, 1, offset), right + 1, 3, offset);
        written_run(front_of(example, Q, u, 4, left, 1, offset), left + 1, 3, offset);
    }
    written_run(front_of(example, Q, right, 4, NULL, 0, 4), left, 4, 4);
    refused_run(front_of(example, Q, right, 4, NULL, 0, 5), VANECITRON_NO_SPACE, 0);
    refused_run(front_of(example, Q, &c, 1, &c, 1, 9), VANECITRON_NO_SPACE, 0);
    refused_run(front_of(example, Q, &c, 1, &c, 1, SIZE_MAX), VANECITRON_NO_SPACE, 0);
    vanecitron_least_result l = vanecitron_front(example, Q, NULL, 0, NULL, 0, NULL, 0, 0);
    CLAIM(l.refusal == VANECITRON_ACCEPTED && l.place == 0 && l.length == 0);
    l = vanecitron_front(example, Q, &c, 1, &c, 1, NULL, 0, 0);
    CLAIM(l.refusal == VANECITRON_ACCEPTED && l.place == 0 && l.length == 0);

    /* each refusal of the front, in their order: what comes later is wrong as well */
    static uint8_t run[VANECITRON_RUN + 1], mark[VANECITRON_ROUND_MARK + 1];
    static const uint8_t d = 3, stranger[] = {0, 4};
    uint64_t place = 2 * VANECITRON_PLACE_SPACING;
    memset(run, 4, sizeof run);
    memset(mark, 4, sizeof mark);
    refused_run(front_of(example, Q, run, sizeof run, mark, sizeof mark, 9), VANECITRON_LONG, 0);
    refused_run(front_of(example, Q, stranger, 2, mark, sizeof mark, 9), VANECITRON_STRANGER, 1);
    refused_run(front_of(example, Q, left, 4, mark, sizeof mark, 9), VANECITRON_LONG, place);
    refused_run(front_of(example, Q, left, 4, mark, sizeof mark - 1, 9), VANECITRON_STRANGER, place);
    refused_run(front_of(example, Q, left, 4, stranger, 2, 9), VANECITRON_STRANGER, place + 1);
    memset(mark, 0, sizeof mark);
    refused_run(front_of(example, Q, right, 4, mark, sizeof mark - 1, 9), VANECITRON_NOT_PIECE, 0);
    refused_run(front_of(example, Q, right, 4, mark, 2, 9), VANECITRON_NOT_PIECE, 0);
    refused_run(front_of(example, Q, left, 4, left, 2, 9), VANECITRON_NOT_PIECE, 0);
    refused_run(front_of(example, Q, left, 4, left, 4, 9), VANECITRON_NOT_PIECE, 0);
    refused_run(front_of(example, Q, left, 4, &d, 1, 9), VANECITRON_NO_FRONT, 0);
    refused_run(front_of(example, Q, NULL, 0, &d, 1, 9), VANECITRON_NO_FRONT, 0);
    refused_run(front_of(example, VANECITRON_BOOK_HEAD, left, 4, left, 1, 9), VANECITRON_NOT_PIECE, 0); /* no rules, and no piece but the empty run */

    /* a side that stands twice is counted once: ab = ab has no piece but the empty run, and ab = ac has a; behind it b comes before c */
    static const uint8_t twice[] = {1, 0, 1, 0, 4, 6, 0, 2, 0, 2, 2, 0, 1, 0, 1}, forked[] = {1, 0, 1, 0, 4, 6, 0, 2, 0, 2, 2, 0, 1, 0, 2};
    refused_run(front_of(twice, sizeof twice, left, 2, left, 1, 0), VANECITRON_NOT_PIECE, 0);
    written_run(front_of(forked, sizeof forked, forked + sizeof forked - 2, 2, left, 1, 7), left + 1, 1, 7);
}

/* a held book and a ticket, with guards behind them, and the sheet beside them; and what they were before a call */
static uint8_t held[VANECITRON_HELD + 4], held_before[VANECITRON_HELD + 4], sheet_of_held[VANECITRON_SHEET_MOST], sheet_before[VANECITRON_SHEET_MOST];
static uint8_t ticket[VANECITRON_TICKET + 4], ticket_before[VANECITRON_TICKET + 4];

/* before a call: the sheet and the ticket are filled, and all are kept for comparison */
static void keep(void)
{
    memset(sheet_of_held, 0xa5, sizeof sheet_of_held);
    memset(ticket, 0xa5, sizeof ticket);
    memcpy(held_before, held, sizeof held);
    memcpy(sheet_before, sheet_of_held, sizeof sheet_of_held);
    memcpy(ticket_before, ticket, sizeof ticket);
}

/* what is held: so many bytes and changes, and this book */
static void holds(const uint8_t *book, size_t length, uint64_t changes)
{
    vanecitron_held_result h = vanecitron_held_book(held, VANECITRON_HELD);
    CLAIM(h.start == 4 && h.length == length && h.changes == changes);
    CLAIM(memcmp(held + h.start, book, length) == 0);
    CLAIM(vanecitron_check(held + h.start, h.length).refusal == VANECITRON_ACCEPTED);
}

/* a change, a proposal or a posting that is refused says its number and place, and changes no lent byte */
static void refused_change(vanecitron_check_result r, uint32_t refusal, uint64_t place)
{
    CLAIM(r.refusal == refusal && r.place == place && r.rules == 0);
    CLAIM(memcmp(held, held_before, sizeof held) == 0 && memcmp(sheet_of_held, sheet_before, sizeof sheet_of_held) == 0);
    CLAIM(memcmp(ticket, ticket_before, sizeof ticket) == 0);
}

/* one that is not: so many rules, whose sides all have the cut 1 2 1 and 4 pieces; what lies behind the sheet is as it was */
static void accepted_sheet(vanecitron_check_result r, uint64_t rules)
{
    CLAIM(r.refusal == VANECITRON_ACCEPTED && r.place == 0 && r.rules == rules);
    for (const uint8_t *side = sheet_of_held; side < sheet_of_held + VANECITRON_SHEET(rules); side += VANECITRON_SHEET_SIDE) {
        CLAIM(side[VANECITRON_SHEET_X] == 1 && side[VANECITRON_SHEET_Y] == 2 && side[VANECITRON_SHEET_Z] == 1 && side[VANECITRON_SHEET_PIECES] == 4);
    }
    CLAIM(memcmp(sheet_of_held + VANECITRON_SHEET(rules), sheet_before + VANECITRON_SHEET(rules), sizeof sheet_before - VANECITRON_SHEET(rules)) == 0);
}

/* a change, and the book that is held then; what lies behind it is as it was */
static void accepted_change(vanecitron_check_result r, uint64_t rules, const uint8_t *book, size_t length, uint64_t changes)
{
    accepted_sheet(r, rules);
    holds(book, length, changes);
    CLAIM(memcmp(held + 4 + length, held_before + 4 + length, sizeof held - 4 - length) == 0);
    CLAIM(memcmp(ticket, ticket_before, sizeof ticket) == 0);
}

/* the fields of a ticket that is made up */
static size_t ticket_of(uint8_t *bytes, size_t count, size_t kind, size_t number)
{
    const size_t fields[] = {count, kind, number};
    for (size_t i = 0; i < 6; i++) {
        bytes[i] = (uint8_t)(fields[i / 2] >> 8 * (i % 2));
    }
    return 6;
}

/* and the record of an addition behind them */
static size_t addition_of(uint8_t *bytes, size_t count, const uint8_t *record, size_t length)
{
    size_t fields = ticket_of(bytes, count, VANECITRON_TICKET_ADDITION, length);
    memcpy(bytes + fields, length == 0 ? bytes : record, length);
    return fields + length;
}

/* a proposal: the answer and the sheet of its change, and its ticket; what is held is as it was, and so is what lies behind the ticket */
static void accepted_proposal(vanecitron_check_result r, uint64_t rules, const uint8_t *expected, size_t length)
{
    accepted_sheet(r, rules);
    CLAIM(memcmp(held, held_before, sizeof held) == 0);
    CLAIM(memcmp(ticket, expected, length) == 0 && memcmp(ticket + length, ticket_before + length, sizeof ticket - length) == 0);
}

static void post_refused(const uint8_t *bytes, size_t length, size_t sheet_room, uint32_t refusal, uint64_t place)
{
    keep();
    refused_change(vanecitron_post(held, VANECITRON_HELD, bytes, length, sheet_of_held, sheet_room), refusal, place);
}

/* what refuses an addition refuses its proposal, whatever the ticket's room, and its ticket, unless that is stale */
static void add_refused(const uint8_t *record, size_t length, size_t sheet_room, uint32_t refusal, uint64_t place)
{
    uint8_t bytes[VANECITRON_TICKET];
    size_t count = held[2] + 256u * held[3];
    keep();
    refused_change(vanecitron_add(held, VANECITRON_HELD, record, length, sheet_of_held, sheet_room), refusal, place);
    refused_change(vanecitron_propose_add(held, VANECITRON_HELD, record, length, sheet_of_held, sheet_room, NULL, 0), refusal, place);
    post_refused(bytes, addition_of(bytes, count, record, length), sheet_room, refusal, place);
    post_refused(bytes, addition_of(bytes, count + 1, record, length), sheet_room, VANECITRON_STALE_TICKET, 0);
}

/* and so of a withdrawal; a ticket has two bytes for the index */
static void withdraw_refused(size_t rule, size_t sheet_room, uint32_t refusal, uint64_t place)
{
    uint8_t bytes[VANECITRON_TICKET];
    size_t count = held[2] + 256u * held[3];
    keep();
    refused_change(vanecitron_withdraw(held, VANECITRON_HELD, rule, sheet_of_held, sheet_room), refusal, place);
    refused_change(vanecitron_propose_withdraw(held, VANECITRON_HELD, rule, sheet_of_held, sheet_room, NULL, 0), refusal, place);
    post_refused(bytes, ticket_of(bytes, count, VANECITRON_TICKET_WITHDRAWAL, rule), sheet_room, refusal, place);
    post_refused(bytes, ticket_of(bytes, count + 1, VANECITRON_TICKET_WITHDRAWAL, rule), sheet_room, VANECITRON_STALE_TICKET, 0);
}

static void load_example(void)
{
    memset(held, 0xa5, sizeof held);
    keep();
    vanecitron_check_result r = vanecitron_load(example, Q, held, VANECITRON_HELD);
    CLAIM(r.refusal == VANECITRON_ACCEPTED && r.place == 0 && r.rules == 1);
    holds(example, Q, 0);
    CLAIM(memcmp(held + 4 + Q, held_before + 4 + Q, sizeof held - 4 - Q) == 0);
}

/* loading: what is wrong with the book, then the room */
static void loadings(void)
{
    static const uint8_t loose[] = {1, 0, 1, 0, 4, 5, 0, 2, 0, 1, 2, 0, 0, 0};
    static const size_t rooms[] = {0, 1, 4, VANECITRON_BOOK_MOST, VANECITRON_HELD - 1};
    CLAIM(VANECITRON_BOOK_MOST == VANECITRON_BOOK_HEAD + VANECITRON_RULES * VANECITRON_BOOK_RULE_MOST && VANECITRON_HELD == VANECITRON_BOOK_MOST + 4);
    memset(held, 0xa5, sizeof held);
    keep();
    for (size_t i = 0; i < sizeof rooms / sizeof rooms[0]; i++) {
        refused_change(vanecitron_load(example, Q, held, rooms[i]), VANECITRON_NARROW, VANECITRON_HELD_BUFFER);
        refused_change(vanecitron_load(example, Q - 1, held, rooms[i]), VANECITRON_SHORT, VANECITRON_BOOK_HEAD);
        refused_change(vanecitron_load(loose, sizeof loose, held, rooms[i]), VANECITRON_LOOSE, 0);
    }
    refused_change(vanecitron_load(example, Q, NULL, 0), VANECITRON_NARROW, VANECITRON_HELD_BUFFER);
    refused_change(vanecitron_load(NULL, 0, held, sizeof held), VANECITRON_SHORT, 0);
    load_example();
    CLAIM(held[0] == Q && held[1] == 0 && held[2] == 0 && held[3] == 0);
}

/*
 * abdc = cadb, then cadb = bcda and accb = bbaa: no two letters stand together twice in the sides, so that each is a product of its four letters. With
 * the second abdc and bcda are of one family
 */
static void changes(void)
{
    static const uint8_t bcda[] = {1, 2, 3, 0}, accb[] = {0, 2, 2, 1}, bbaa[] = {1, 1, 0, 0};
    uint8_t bytes[VANECITRON_BOOK_HEAD + 3 * VANECITRON_BOOK_RULE(4, 4)], second[VANECITRON_BOOK_RULE_MOST], third[VANECITRON_BOOK_RULE(4, 4)];
    size_t rule = VANECITRON_BOOK_RULE(4, 4);
    CLAIM(vanecitron_book_rule_record(second, sizeof second, right, 4, bcda, 4) == rule);
    CLAIM(vanecitron_book_rule_record(third, sizeof third, accb, 4, bbaa, 4) == rule);
    memcpy(bytes, example, Q);
    memcpy(bytes + Q, second, rule);
    memcpy(bytes + Q + rule, third, rule);
    load_example();
    CLAIM(vanecitron_compare(held + 4, Q, left, 4, bcda, 4, 100).outcome == VANECITRON_DIFFERENT);
    keep();
    accepted_change(vanecitron_add(held, VANECITRON_HELD, second, rule, sheet_of_held, VANECITRON_SHEET(2)), 2, bytes, Q + rule, 1);
    vanecitron_compare_result c = vanecitron_compare(held + 4, Q + rule, left, 4, bcda, 4, 100);
    CLAIM(c.outcome == VANECITRON_SAME && c.rounds == 2);
    keep();
    accepted_change(vanecitron_add(held, sizeof held, third, rule, sheet_of_held, sizeof sheet_of_held), 3, bytes, Q + 2 * rule, 2);

    /* the first, and then the last; the longer book's last bytes stand behind the shorter one */
    memmove(bytes + VANECITRON_BOOK_HEAD, bytes + Q, 2 * rule);
    keep();
    accepted_change(vanecitron_withdraw(held, VANECITRON_HELD, 0, sheet_of_held, VANECITRON_SHEET(2)), 2, bytes, Q + rule, 3);
    CLAIM(memcmp(held + 4 + Q + rule, third, rule) == 0);
    keep();
    accepted_change(vanecitron_withdraw(held, VANECITRON_HELD, 1, sheet_of_held, VANECITRON_SHEET(1)), 1, bytes, Q, 4);
    keep();
    accepted_change(vanecitron_withdraw(held, VANECITRON_HELD, 0, NULL, 0), 0, bytes, VANECITRON_BOOK_HEAD, 5);
    withdraw_refused(0, 0, VANECITRON_NO_SUCH_RULE, 0);
}

/* each refusal of a change of book Q, in their order: what comes later is wrong as well */
static void refused_changes(void)
{
    static const uint8_t kind[] = {0, 0, 3, 0, 9}, cut_off[] = {1, 0, 3, 0}, behind[] = {3, 0, 2, 0, 0, 1, 9, 9}, length[] = {3, 0, 2, 0, 0, 9, 9};
    static const uint8_t range[] = {3, 0, 2, 0, 0, 1, 9}, step[] = {5, 0, 2, 0, 2, 1, 0, 4, 0}, loose[] = {5, 0, 2, 0, 1, 2, 0, 0, 0};
    static const uint8_t looser[] = {5, 0, 2, 0, 2, 1, 0, 1, 3}, good[] = {10, 0, 2, 0, 4, 4, 0, 2, 2, 1, 1, 1, 0, 0};
    load_example();
    add_refused(NULL, 0, 0, VANECITRON_SHORT, Q);
    add_refused(cut_off, 3, 0, VANECITRON_SHORT, Q);
    add_refused(cut_off, sizeof cut_off, 0, VANECITRON_SHORT, Q);
    add_refused(kind, sizeof kind, 0, VANECITRON_KIND, Q);
    add_refused(example, VANECITRON_BOOK_HEAD, 0, VANECITRON_KIND, Q);
    add_refused(behind, sizeof behind, 0, VANECITRON_LENGTH, Q);
    add_refused(length, sizeof length, 0, VANECITRON_LENGTH, Q);
    add_refused(range, sizeof range, 0, VANECITRON_RANGE, Q);
    add_refused(step, sizeof step, 0, VANECITRON_UNKNOWN_STEP, Q);
    add_refused(loose, sizeof loose, 0, VANECITRON_LOOSE, 2);
    add_refused(looser, sizeof looser, 0, VANECITRON_LOOSE, 0); /* with ab a piece, abdc is a product of three */
    add_refused(good, sizeof good, VANECITRON_SHEET(2) - 1, VANECITRON_NARROW, 0);
    withdraw_refused(1, 0, VANECITRON_NO_SUCH_RULE, 0);
    withdraw_refused(SIZE_MAX, sizeof sheet_of_held, VANECITRON_NO_SUCH_RULE, 0);
    CLAIM(vanecitron_add(held, VANECITRON_HELD, good, sizeof good, sheet_of_held, VANECITRON_SHEET(2)).rules == 2);
    withdraw_refused(1, VANECITRON_SHEET(1) - 1, VANECITRON_NARROW, 0);

    /* 32 rules, a = a over and over: a 33rd is told before its length, and not before its kind */
    static const uint8_t rule[] = {4, 0, 2, 0, 1, 1, 0, 0}, thick[] = {0, 0, 2, 0, 9};
    load_example();
    vanecitron_withdraw(held, VANECITRON_HELD, 0, NULL, 0);
    size_t place = VANECITRON_BOOK_HEAD;
    for (; place < VANECITRON_BOOK_HEAD + VANECITRON_RULES * sizeof rule; place += sizeof rule) {
        CLAIM(vanecitron_add(held, VANECITRON_HELD, rule, sizeof rule, sheet_of_held, sizeof sheet_of_held).refusal == VANECITRON_ACCEPTED);
    }
    add_refused(thick, sizeof thick, 0, VANECITRON_THICK, place);
    add_refused(kind, sizeof kind, 0, VANECITRON_KIND, place);
    add_refused(rule, sizeof rule - 1, 0, VANECITRON_SHORT, place);
}

/* a held buffer with a byte altered: refused as any such book, or taken as the book that it says; and any buffer whatever has a book inside it */
static void altered(void)
{
    static const struct {
        size_t at;
        uint8_t byte;
        uint32_t refusal;
        uint64_t place;
    } cases[] = {
        {0, 0, VANECITRON_SHORT, 0}, {0, Q - 1, VANECITRON_SHORT, 5}, {0, Q + 1, VANECITRON_SHORT, Q}, {6, 2, VANECITRON_KIND, 0},
        {11, 3, VANECITRON_KIND, 5}, {13, 3, VANECITRON_LENGTH, 5},   {8, 0, VANECITRON_RANGE, 0},     {8, 3, VANECITRON_UNKNOWN_STEP, 5},
    };
    static const uint8_t rule[] = {4, 0, 2, 0, 1, 1, 0, 1};
    for (size_t i = 0; i < sizeof cases / sizeof cases[0]; i++) {
        load_example();
        held[cases[i].at] = cases[i].byte;
        add_refused(rule, sizeof rule, sizeof sheet_of_held, cases[i].refusal, cases[i].place);
        withdraw_refused(9, 0, cases[i].refusal, cases[i].place);
    }
    keep();
    for (size_t room = 0; room < VANECITRON_HELD; room += room == 8 ? VANECITRON_HELD - 9 : 1) {
        refused_change(vanecitron_add(held, room, NULL, 0, NULL, 0), VANECITRON_NARROW, VANECITRON_HELD_BUFFER);
        refused_change(vanecitron_withdraw(held, room, 9, NULL, 0), VANECITRON_NARROW, VANECITRON_HELD_BUFFER);
        refused_change(vanecitron_propose_add(held, room, NULL, 0, NULL, 0, NULL, 0), VANECITRON_NARROW, VANECITRON_HELD_BUFFER);
        refused_change(vanecitron_propose_withdraw(held, room, 9, NULL, 0, NULL, 0), VANECITRON_NARROW, VANECITRON_HELD_BUFFER);
        refused_change(vanecitron_post(held, room, NULL, 0, NULL, 0), VANECITRON_NARROW, VANECITRON_HELD_BUFFER);
        refused_change(vanecitron_post(held, room, rule, 1, NULL, 0), VANECITRON_STALE_TICKET, 0); /* the count 4 */
    }

    /* abdc = abda is loose, since abd and a are pieces: what is held is not checked for that, and a book without it is accepted */
    load_example();
    memcpy(held + 4 + Q - 4, left, 3);
    held[4 + Q - 1] = 0;
    CLAIM(vanecitron_check(held + 4, Q).refusal == VANECITRON_LOOSE);
    add_refused(rule, sizeof rule, 0, VANECITRON_LOOSE, 1);
    keep();
    accepted_change(vanecitron_withdraw(held, VANECITRON_HELD, 0, NULL, 0), 0, example, VANECITRON_BOOK_HEAD, 1);

    const uint8_t bytes[] = {2, 0, 7, 1, 8, 8, 8};
    for (size_t room = 0; room <= sizeof bytes; room++) {
        vanecitron_held_result h = vanecitron_held_book(bytes, room);
        CLAIM(h.start == (room < 4 ? room : 4) && h.length == (room < 4 ? 0 : room < 6 ? room - 4 : 2) && h.changes == (room < 4 ? 0u : 263u));
    }
    vanecitron_held_result h = vanecitron_held_book(NULL, 0);
    CLAIM(h.start == 0 && h.length == 0 && h.changes == 0);
    memset(held, 255, sizeof held);
    h = vanecitron_held_book(held, VANECITRON_HELD);
    CLAIM(h.start == 4 && h.length == VANECITRON_BOOK_MOST && h.changes == UINT16_MAX);
}

static const uint8_t cadb_bcda[] = {10, 0, 2, 0, 4, 4, 2, 0, 3, 1, 1, 2, 3, 0}, accb_bbaa[] = {10, 0, 2, 0, 4, 4, 0, 2, 2, 1, 1, 1, 0, 0};

/* the rules of `changes`, each proposed and then posted; and the room of a ticket */
static void proposals(void)
{
    static const uint8_t bytes[] = {1, 0, 1, 0, 4, 10, 0, 2, 0, 4, 4, 0, 1, 3, 2, 2, 0, 3, 1, 10, 0, 2, 0, 4, 4, 2, 0, 3, 1, 1, 2, 3, 0};
    static const uint8_t added[] = {0, 0, 0, 0, 14, 0, 10, 0, 2, 0, 4, 4, 2, 0, 3, 1, 1, 2, 3, 0}, withdrawn[] = {1, 0, 1, 0, 1, 0};
    static const size_t rooms[] = {0, 1, 6, VANECITRON_TICKET - 1};
    CLAIM(VANECITRON_TICKET == 6 + VANECITRON_BOOK_RULE_MOST);
    load_example();
    for (size_t i = 0; i < sizeof rooms / sizeof rooms[0]; i++) {
        keep();
        refused_change(vanecitron_propose_add(held, VANECITRON_HELD, cadb_bcda, sizeof cadb_bcda, sheet_of_held, VANECITRON_SHEET(2), ticket, rooms[i]),
                       VANECITRON_NARROW, VANECITRON_TICKET_BUFFER);
        refused_change(vanecitron_propose_withdraw(held, VANECITRON_HELD, 0, NULL, 0, ticket, rooms[i]), VANECITRON_NARROW, VANECITRON_TICKET_BUFFER);
    }
    keep();
    accepted_proposal(vanecitron_propose_add(held, VANECITRON_HELD, cadb_bcda, sizeof cadb_bcda, sheet_of_held, VANECITRON_SHEET(2), ticket,
                                             VANECITRON_TICKET),
                      2, added, sizeof added);
    holds(example, Q, 0);
    post_refused(added, sizeof added, VANECITRON_SHEET(2) - 1, VANECITRON_NARROW, 0);
    keep();
    accepted_change(vanecitron_post(held, VANECITRON_HELD, added, sizeof added, sheet_of_held, VANECITRON_SHEET(2)), 2, bytes, sizeof bytes, 1);
    post_refused(added, sizeof added, 0, VANECITRON_STALE_TICKET, 0);

    keep();
    accepted_proposal(vanecitron_propose_withdraw(held, sizeof held, 1, sheet_of_held, sizeof sheet_of_held, ticket, sizeof ticket), 1, withdrawn,
                      sizeof withdrawn);
    keep();
    accepted_change(vanecitron_post(held, sizeof held, withdrawn, sizeof withdrawn, sheet_of_held, sizeof sheet_of_held), 1, bytes, Q, 2);
    post_refused(withdrawn, sizeof withdrawn, 0, VANECITRON_STALE_TICKET, 0);
}

/* a ticket in the buffer, for the addition of accb = bbaa */
static void propose_third(void)
{
    keep();
    CLAIM(vanecitron_propose_add(held, VANECITRON_HELD, accb_bbaa, sizeof accb_bbaa, sheet_of_held, sizeof sheet_of_held, ticket, sizeof ticket).refusal ==
          VANECITRON_ACCEPTED);
}

/* what makes a ticket stale, and what does not */
static void stale_tickets(void)
{
    uint8_t first[VANECITRON_TICKET], second[VANECITRON_TICKET];
    load_example();
    propose_third();
    memcpy(first, ticket, sizeof first);
    CLAIM(vanecitron_propose_withdraw(held, VANECITRON_HELD, 0, NULL, 0, ticket, sizeof ticket).refusal == VANECITRON_ACCEPTED);
    memcpy(second, ticket, sizeof second);
    withdraw_refused(1, 0, VANECITRON_NO_SUCH_RULE, 0);
    keep();
    CLAIM(vanecitron_post(held, VANECITRON_HELD, first, sizeof first, sheet_of_held, sizeof sheet_of_held).rules == 2);
    post_refused(second, sizeof second, sizeof sheet_of_held, VANECITRON_STALE_TICKET, 0);

    /* a change that is undone counts twice, and a new loading begins the count anew, for old tickets too */
    CLAIM(vanecitron_withdraw(held, VANECITRON_HELD, 1, sheet_of_held, sizeof sheet_of_held).rules == 1);
    holds(example, Q, 2);
    post_refused(first, sizeof first, sizeof sheet_of_held, VANECITRON_STALE_TICKET, 0);
    load_example();
    keep();
    accepted_change(vanecitron_post(held, VANECITRON_HELD, second, sizeof second, NULL, 0), 0, example, VANECITRON_BOOK_HEAD, 1);
}

/* tickets of book Q with no change, of any length and content: bytes that are not there are 0, and every kind but 0 is a withdrawal */
static void made_up_tickets(void)
{
    static const struct {
        uint8_t bytes[8];
        size_t length;
        uint32_t refusal;
        uint64_t place;
    } cases[] = {
        {{0}, 1, VANECITRON_SHORT, Q},
        {{0}, 8, VANECITRON_SHORT, Q},
        {{0, 0, 0, 0, 14}, 5, VANECITRON_SHORT, Q},
        {{0, 0, 0, 0, 1, 0, 9, 9}, 8, VANECITRON_SHORT, Q},
        {{1}, 1, VANECITRON_STALE_TICKET, 0},
        {{0, 1}, 2, VANECITRON_STALE_TICKET, 0},
        {{0, 0, 1, 0, 1}, 5, VANECITRON_NO_SUCH_RULE, 0},
        {{0, 0, 1, 0, 0, 1}, 6, VANECITRON_NO_SUCH_RULE, 0},
        {{0, 0, 1, 0, 255, 255, 9, 9}, 8, VANECITRON_NO_SUCH_RULE, 0},
        {{0, 0, 1}, 3, VANECITRON_ACCEPTED, 0},
        {{0, 0, 0, 1}, 4, VANECITRON_ACCEPTED, 0},
        {{0, 0, 2, 0, 0, 0, 9, 9}, 8, VANECITRON_ACCEPTED, 0},
        {{0, 0, 255, 255, 0, 0}, 6, VANECITRON_ACCEPTED, 0},
    };
    for (size_t i = 0; i < sizeof cases / sizeof cases[0]; i++) {
        load_example();
        if (cases[i].refusal != VANECITRON_ACCEPTED) {
            post_refused(cases[i].bytes, cases[i].length, sizeof sheet_of_held, cases[i].refusal, cases[i].place);
            continue;
        }
        keep();
        accepted_change(vanecitron_post(held, VANECITRON_HELD, cases[i].bytes, cases[i].length, NULL, 0), 0, example, VANECITRON_BOOK_HEAD, 1);
    }

    /* an addition has the bytes that are there; what lies behind them is no part of it */
    uint8_t bytes[VANECITRON_TICKET + 60];
    memset(bytes, 0xaa, sizeof bytes);
    load_example();
    post_refused(NULL, 0, 0, VANECITRON_SHORT, Q);
    post_refused(bytes, VANECITRON_TICKET, sizeof sheet_of_held, VANECITRON_STALE_TICKET, 0);
    size_t length = addition_of(bytes, 0, accb_bbaa, sizeof accb_bbaa);
    post_refused(bytes, length - 1, sizeof sheet_of_held, VANECITRON_SHORT, Q);
    ticket_of(bytes, 0, VANECITRON_TICKET_ADDITION, UINT16_MAX);
    post_refused(bytes, length + 1, sizeof sheet_of_held, VANECITRON_LENGTH, Q);
    keep();
    CLAIM(vanecitron_post(held, VANECITRON_HELD, bytes, length, sheet_of_held, sizeof sheet_of_held).rules == 2);
    load_example();
    addition_of(bytes, 0, accb_bbaa, sizeof accb_bbaa);
    CLAIM(vanecitron_post(held, VANECITRON_HELD, bytes, sizeof bytes, sheet_of_held, sizeof sheet_of_held).rules == 2);
}

/* book Q after all its changes, by its count: no change is made, and a proposal is answered; a = aa would be loose on side 2 */
static void worn(uint64_t count)
{
    static const uint8_t loose[] = {5, 0, 2, 0, 1, 2, 0, 0, 0};
    uint8_t good[6], stale[6], looser[6 + sizeof loose];
    ticket_of(good, count, VANECITRON_TICKET_WITHDRAWAL, 0);
    ticket_of(stale, count - 1, VANECITRON_TICKET_WITHDRAWAL, 0);
    holds(example, Q, count);
    keep();
    refused_change(vanecitron_withdraw(held, VANECITRON_HELD, 0, NULL, 0), VANECITRON_BOOK_WORN, 0);
    refused_change(vanecitron_add(held, VANECITRON_HELD, accb_bbaa, sizeof accb_bbaa, sheet_of_held, VANECITRON_SHEET(2)), VANECITRON_BOOK_WORN, 0);
    accepted_proposal(vanecitron_propose_withdraw(held, VANECITRON_HELD, 0, NULL, 0, ticket, VANECITRON_TICKET), 0, good, sizeof good);
    post_refused(good, sizeof good, 0, VANECITRON_BOOK_WORN, 0);
    post_refused(stale, sizeof stale, 0, VANECITRON_STALE_TICKET, 0);

    /* what else is wrong comes first of a change and of a proposal, and not of a posting */
    keep();
    refused_change(vanecitron_withdraw(held, VANECITRON_HELD, 1, NULL, 0), VANECITRON_NO_SUCH_RULE, 0);
    refused_change(vanecitron_add(held, VANECITRON_HELD, accb_bbaa, sizeof accb_bbaa, NULL, 0), VANECITRON_NARROW, 0);
    refused_change(vanecitron_add(held, VANECITRON_HELD, loose, sizeof loose, NULL, 0), VANECITRON_LOOSE, 2);
    refused_change(vanecitron_propose_add(held, VANECITRON_HELD, loose, sizeof loose, NULL, 0, NULL, 0), VANECITRON_LOOSE, 2);
    post_refused(looser, addition_of(looser, count, loose, sizeof loose), 0, VANECITRON_BOOK_WORN, 0);
}

/* 60000 changes, one by one, half of them posted; then none, whatever more the count says, until a book is loaded anew */
static void wear(void)
{
    load_example();
    for (uint32_t change = 0; change < VANECITRON_CHANGES_MOST; change += 2) {
        uint8_t bytes[VANECITRON_TICKET];
        size_t length = addition_of(bytes, change + 1, example + VANECITRON_BOOK_HEAD, Q - VANECITRON_BOOK_HEAD);
        CLAIM(vanecitron_withdraw(held, VANECITRON_HELD, 0, NULL, 0).refusal == VANECITRON_ACCEPTED);
        CLAIM(vanecitron_post(held, VANECITRON_HELD, bytes, length, sheet_of_held, sizeof sheet_of_held).refusal == VANECITRON_ACCEPTED);
    }
    worn(60000);
    held[2]++;
    worn(60001);
    held[2] = held[3] = 255;
    worn(UINT16_MAX);
    load_example();
    keep();
    accepted_change(vanecitron_withdraw(held, VANECITRON_HELD, 0, NULL, 0), 0, example, VANECITRON_BOOK_HEAD, 1);
}

static void version(void)
{
    char text[32];
    snprintf(text, sizeof text, "%u.%u.%u", VANECITRON_VERSION_MAJOR, VANECITRON_VERSION_MINOR, VANECITRON_VERSION_PATCH);
    CLAIM(strcmp(text, VANECITRON_VERSION_TEXT) == 0);
    CLAIM(vanecitron_version() == VANECITRON_VERSION);
}

/* each number has a text of its own, and a number that is none, 7 among them, has the text for those */
static void texts(void)
{
    const char *unknown = vanecitron_refusal_text(UINT32_MAX);
    for (uint32_t refusal = VANECITRON_ACCEPTED; refusal <= VANECITRON_NO_FRONT; refusal++) {
        CLAIM((strcmp(vanecitron_refusal_text(refusal), unknown) == 0) == (refusal == VANECITRON_THICK + 1));
        for (uint32_t earlier = 0; earlier < refusal; earlier++) {
            CLAIM(strcmp(vanecitron_refusal_text(refusal), vanecitron_refusal_text(earlier)) != 0);
        }
    }
    CLAIM(strcmp(vanecitron_refusal_text(VANECITRON_NO_FRONT + 1), unknown) == 0);
}

/* the example written into a buffer of this size, between guards: byte for byte where it fits, else no book at all */
static void written_in(size_t room)
{
    uint8_t bytes[sizeof example + 8];
    memset(bytes, 0xa5, sizeof bytes);
    vanecitron_book book = vanecitron_book_begin(bytes, room, 4);
    vanecitron_book_rule(&book, left, sizeof left, right, sizeof right);
    int written = vanecitron_book_comparison(&book, 100, left, sizeof left, right, sizeof right);
    if (room >= sizeof example) {
        CLAIM(written == 1 && book.spoiled == 0 && book.length == sizeof example && memcmp(bytes, example, sizeof example) == 0);
    } else {
        CLAIM(written == 0 && book.spoiled == 1 && book.length == 0);
        CLAIM(vanecitron_check(book.bytes, book.length).refusal == VANECITRON_SHORT);
        CLAIM(vanecitron_book_rule(&book, NULL, 0, NULL, 0) == 0 && book.length == 0);
    }
    for (size_t i = room < sizeof example ? room : sizeof example; i < sizeof bytes; i++) {
        CLAIM(bytes[i] == 0xa5);
    }
}

/* a rule, or a comparison, of steps 0 with these lengths into a buffer that has room for all that a record can hold */
static int fits(int comparison, size_t m, size_t n)
{
    static uint8_t bytes[VANECITRON_BOOK_HEAD + 4 + UINT16_MAX], steps[UINT16_MAX];
    vanecitron_book book = vanecitron_book_begin(bytes, sizeof bytes, 1);
    int written = comparison ? vanecitron_book_comparison(&book, UINT32_MAX, steps, m, steps, n) : vanecitron_book_rule(&book, steps, m, steps, n);
    CLAIM(book.spoiled == !written);
    CLAIM(book.length == (written ? VANECITRON_BOOK_HEAD + (comparison ? VANECITRON_BOOK_COMPARISON(m, n) : VANECITRON_BOOK_RULE(m, n)) : 0));
    return written;
}

/* the record of a rule into a buffer of this size, between guards */
static void record_in(size_t room)
{
    uint8_t bytes[VANECITRON_BOOK_RULE(4, 4) + 4], expected[sizeof bytes];
    size_t length = Q - VANECITRON_BOOK_HEAD;
    memset(bytes, 0xa5, sizeof bytes);
    memset(expected, 0xa5, sizeof expected);
    size_t written = vanecitron_book_rule_record(bytes, room, left, sizeof left, right, sizeof right);
    CLAIM(written == (room < length ? 0 : length));
    memcpy(expected, example + VANECITRON_BOOK_HEAD, written);
    CLAIM(memcmp(bytes, expected, sizeof bytes) == 0);
}

static void writer(void)
{
    for (size_t room = 0; room <= sizeof example + 1; room++) {
        written_in(room);
    }
    CLAIM(fits(0, 0, 0) && fits(0, 255, 255) && fits(1, 0, 0) && fits(1, UINT16_MAX - 8, 0) && fits(1, 0, UINT16_MAX - 8));
    CLAIM(!fits(0, 256, 1) && !fits(0, 1, 256) && !fits(0, SIZE_MAX, 1) && !fits(0, SIZE_MAX, SIZE_MAX));
    CLAIM(!fits(1, UINT16_MAX - 8, 1) && !fits(1, UINT16_MAX - 7, 0) && !fits(1, SIZE_MAX, 1) && !fits(1, SIZE_MAX - 8, 1));
    CLAIM(vanecitron_book_begin(NULL, 0, 4).spoiled == 1);
    for (size_t room = 0; room <= VANECITRON_BOOK_RULE(4, 4) + 1; room++) {
        record_in(room);
    }
    uint8_t bytes[VANECITRON_BOOK_RULE_MOST], side[UINT8_MAX + 1] = {0};
    CLAIM(vanecitron_book_rule_record(bytes, sizeof bytes, side, VANECITRON_SIDE, side, VANECITRON_SIDE) == sizeof bytes);
    CLAIM(vanecitron_book_rule_record(bytes, sizeof bytes, side, VANECITRON_SIDE, side, VANECITRON_SIDE + 1) == 0);
    CLAIM(vanecitron_book_rule_record(bytes, SIZE_MAX, side, UINT8_MAX + 1, side, 0) == 0);
    CLAIM(vanecitron_book_rule_record(NULL, 0, NULL, 0, NULL, 0) == 0);
}

static void allowances(void)
{
    const uint8_t sheet[] = {1, 2, 1, 4, 1, 2, 63, VANECITRON_NO_PRODUCT};
    CLAIM(vanecitron_ample_allowance(sheet, 0, 7) == 14 && vanecitron_ample_allowance(sheet, 1, 7) == 455);
    CLAIM(vanecitron_ample_allowance(sheet, 1, VANECITRON_RUN) == 65 * VANECITRON_RUN);
    CLAIM(vanecitron_ample_allowance(sheet, 1, SIZE_MAX) == VANECITRON_ALLOWANCE);
}

int main(void)
{
    outcomes();
    sheets();
    least_runs();
    fronts();
    loadings();
    changes();
    refused_changes();
    altered();
    proposals();
    stale_tickets();
    made_up_tickets();
    wear();
    version();
    texts();
    writer();
    allowances();
    printf("%u claims\n", claims);
    return failed;
}
