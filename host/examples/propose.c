/*
 * A terminal for the rules of a book: a change is proposed, the terminal shows which cuts it would change, and it is posted by its ticket; or another
 * change came first, and the ticket is stale. Built and run by host/run-examples. propose.expected is worked out by hand from docs/SPECIFICATION.md:
 *
 *   Bytes      5 of the head, 16 of the rule of 5 and 5 steps, 10 of each rule of 3 and 1 steps. A ticket of an addition has the count of changes, kind 0,
 *              the 10 bytes of the record and the record; one of a withdrawal the count, kind 1 and the index.
 *   Sheets     abcde and edcba have each letter in both and no pair of letters twice: cuts 1 3 1, 5 pieces. With fab = g the pair ab stands twice, so that
 *              abcde begins with the piece ab and is ab, c, d, e; edcba stays. f stands in fab alone, and g in g, so that these two are no products; the
 *              longest end of fab that is a piece is ab. With cdf = g it is cd that stands twice: abcde is a, b, cd, e, and its cut stays, since its
 *              longest front and end are a and e; the longest front of cdf is cd.
 *   Refusals   With both rules abcde is ab, cd, e: three pieces, at side 0. Each rule by itself is good, and no proposal tells what both would come to: that
 *              is why the second ticket is stale once the first is posted.
 */
#include <stdio.h>
#include <string.h>

#include "vanecitron_book.h"

#define PROPOSALS 4u /* the tickets that are kept */

/* the held book, the sheet of the last call, the tickets so far, and what all of them were before a call */
static struct {
    uint8_t held[VANECITRON_HELD], sheet[VANECITRON_SHEET_MOST], tickets[PROPOSALS][VANECITRON_TICKET];
} now, before;
static unsigned proposals;

/* steps written as letters, at most `room` of them */
static size_t run_of(const char *letters, uint8_t *run, size_t room)
{
    size_t length = strlen(letters);
    for (size_t i = 0; i < length && i < room; i++) {
        run[i] = (uint8_t)(letters[i] - 'a');
    }
    return length < room ? length : room;
}

static void print_held(void)
{
    vanecitron_held_result h = vanecitron_held_book(now.held, sizeof now.held);
    printf("held: %llu bytes, changes %llu\n", (unsigned long long)h.length, (unsigned long long)h.changes);
}

/* 1 where the call was refused, which is printed, and whether a byte changed */
static int print_refusal(vanecitron_check_result r)
{
    if (r.refusal == VANECITRON_ACCEPTED) {
        return 0;
    }
    printf("refused %u %llu (%s); %s changed\n", r.refusal, (unsigned long long)r.place, vanecitron_refusal_text(r.refusal),
           memcmp(&now, &before, sizeof now) == 0 ? "nothing" : "something");
    return 1;
}

static void print_cut(const uint8_t *side)
{
    printf("X %u, Y %u, Z %u, ", side[VANECITRON_SHEET_X], side[VANECITRON_SHEET_Y], side[VANECITRON_SHEET_Z]);
    if (side[VANECITRON_SHEET_PIECES] == VANECITRON_NO_PRODUCT) {
        printf("no product of pieces");
    } else {
        printf("%u pieces", side[VANECITRON_SHEET_PIECES]);
    }
}

/* a side of the sheet that there would be, and its old one, or null where it is new */
static void print_side(size_t number, const uint8_t *side, const uint8_t *old)
{
    printf("  side %zu: ", number);
    if (old == NULL) {
        printf("new, ");
    } else if (memcmp(side, old, VANECITRON_SHEET_SIDE) == 0) {
        printf("stays ");
    } else {
        print_cut(old);
        printf(" becomes ");
    }
    print_cut(side);
    printf("\n");
}

/* the sides that there would be, beside those of the held book; from the withdrawn rule on, a side was two further on. An addition withdraws none */
static void print_sides(uint64_t rules, size_t withdrawn)
{
    uint8_t sheet[VANECITRON_SHEET_MOST];
    vanecitron_held_result h = vanecitron_held_book(now.held, sizeof now.held);
    uint64_t sides = 2 * vanecitron_cut_sheet(now.held + h.start, h.length, sheet, sizeof sheet).rules;
    for (size_t i = 0; i < 2 * rules; i++) {
        size_t was = i / 2 < withdrawn ? i : i + 2;
        print_side(i, now.sheet + VANECITRON_SHEET_SIDE * i, was < sides ? sheet + VANECITRON_SHEET_SIDE * was : NULL);
    }
}

/* the three fields of the ticket, and the record behind them, where it is an addition */
static void print_ticket(unsigned number)
{
    const uint8_t *ticket = now.tickets[number];
    size_t length = 6 + (ticket[2] == VANECITRON_TICKET_ADDITION ? ticket[4] : 0u);
    printf("  ticket %u:", number);
    for (size_t i = 0; i < length; i++) {
        printf(" %02x", ticket[i]);
    }
    printf("\n");
}

/* what a proposal answered, with the held book beside it, which it only reads */
static void print_proposal(vanecitron_check_result r, size_t withdrawn)
{
    if (print_refusal(r)) {
        return;
    }
    printf("rules %llu once it is posted; ", (unsigned long long)r.rules);
    print_held();
    print_sides(r.rules, withdrawn);
    print_ticket(proposals);
    proposals++;
}

static void propose_add(const char *left, const char *right, size_t ticket_room)
{
    uint8_t l[VANECITRON_SIDE], r[VANECITRON_SIDE], record[VANECITRON_BOOK_RULE_MOST];
    size_t left_length = run_of(left, l, sizeof l), right_length = run_of(right, r, sizeof r);
    size_t record_length = vanecitron_book_rule_record(record, sizeof record, l, left_length, r, right_length);
    before = now;
    printf("propose to add '%s' '%s': ", left, right);
    print_proposal(vanecitron_propose_add(now.held, sizeof now.held, record, record_length, now.sheet, sizeof now.sheet, now.tickets[proposals], ticket_room),
                   VANECITRON_RULES);
}

static void propose_withdraw(size_t rule)
{
    before = now;
    printf("propose to withdraw %zu: ", rule);
    print_proposal(vanecitron_propose_withdraw(now.held, sizeof now.held, rule, now.sheet, sizeof now.sheet, now.tickets[proposals], VANECITRON_TICKET),
                   rule);
}

static void post(unsigned ticket)
{
    before = now;
    vanecitron_check_result r = vanecitron_post(now.held, sizeof now.held, now.tickets[ticket], VANECITRON_TICKET, now.sheet, sizeof now.sheet);
    printf("post ticket %u: ", ticket);
    if (!print_refusal(r)) {
        printf("rules %llu; ", (unsigned long long)r.rules);
        print_held();
    }
}

/* whether the sheet of the last call is that of the book that is held */
static void print_whether_sheet_is_held(void)
{
    uint8_t sheet[VANECITRON_SHEET_MOST];
    vanecitron_held_result h = vanecitron_held_book(now.held, sizeof now.held);
    vanecitron_check_result r = vanecitron_cut_sheet(now.held + h.start, h.length, sheet, sizeof sheet);
    printf("the sheet is that of the held book: %s\n", memcmp(now.sheet, sheet, VANECITRON_SHEET(r.rules)) == 0 ? "yes" : "no");
}

int main(void)
{
    if (vanecitron_version() != VANECITRON_VERSION) {
        printf("the archive is not of version %s\n", VANECITRON_VERSION_TEXT);
        return 1;
    }
    static const uint8_t left[] = {0, 1, 2, 3, 4}, right[] = {4, 3, 2, 1, 0};
    uint8_t bytes[VANECITRON_BOOK_MOST];
    vanecitron_book book = vanecitron_book_begin(bytes, sizeof bytes, 7);
    vanecitron_book_rule(&book, left, sizeof left, right, sizeof right);
    vanecitron_check_result loaded = vanecitron_load(book.bytes, book.length, now.held, sizeof now.held);
    printf("load: rules %llu; ", (unsigned long long)loaded.rules);
    print_held();

    /* two proposals with no change between: each by itself is good, and the one that is posted first makes the other stale */
    propose_add("fab", "g", VANECITRON_TICKET);
    propose_add("cdf", "g", VANECITRON_TICKET);
    post(0);
    print_whether_sheet_is_held();
    post(1);
    propose_add("cdf", "g", VANECITRON_TICKET);

    /* the first rule is taken out again: the book is as it was, and its old tickets are stale all the same */
    propose_withdraw(1);
    post(2);
    vanecitron_held_result h = vanecitron_held_book(now.held, sizeof now.held);
    printf("the book is the one that was loaded: %s\n", h.length == book.length && memcmp(now.held + h.start, bytes, book.length) == 0 ? "yes" : "no");
    post(1);
    propose_add("cdf", "g", VANECITRON_TICKET - 1);
    propose_add("cdf", "g", VANECITRON_TICKET);
    post(3);
    post(3);
    return 0;
}
