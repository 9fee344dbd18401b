/*
 * A held book, changed rule by rule: book Q is loaded, a rule is added and withdrawn, and runs are compared under the book that is held then. Built and
 * run by host/run-examples. change.expected is worked out by hand from docs/SPECIFICATION.md:
 *
 *   Bytes      5 of the head, and 14 of each rule of 4 and 4 steps.
 *   Sheets     The sides abdc, cadb and bcda have the pairs ab bd dc, ca ad db and bc cd da, no pair twice, and each letter in all of them. So the
 *              pieces are the empty run and the four letters; each side is cut into 1, 2 and 1 steps, and is a product of 4 pieces. The same holds
 *              of abdc and cadb alone.
 *   Rounds     Of bcdcadb and abdcbdc, with the three sides as one family. Row 6: u is bcd and then cadb, which does not begin with a; v is abdc and
 *              then bdc; next are cadb and abdc. Row 4: both are whole, nothing follows, no tail is active for it, and the first other member is
 *              abdc; next are c and c. Row 2: they are dropped. Row 1: same, after 3 rounds. Without bcda neither abd nor cad begins u, so that row
 *              2 ends at once: b is not a. abdc and cadb under Q are a case of the specification, and without rules row 2 ends at once.
 *   Least run  Exchanges join bcdcadb, bcdabdc, bcdbcda, abdcbdc and cadbbdc, and no other run; abdcbdc is the first of these.
 *   Refusals   a = aa would have the sides 4 and 5, and a is a piece. abde has the code 4, which a book of four letters has not, and its record would
 *              begin at byte 33. accb and bbaa have the pairs ac cc cb and bb ba aa and would be accepted; but three rules have a sheet of 24 bytes.
 */
#include <stdio.h>
#include <string.h>

#include "vanecitron_book.h"

/* the held book, the sheet of the last change, and what both were before a call */
static uint8_t held[VANECITRON_HELD], sheet[VANECITRON_SHEET_MOST];
static uint8_t held_before[VANECITRON_HELD], sheet_before[VANECITRON_SHEET_MOST];

/* steps written as letters, at most `room` of them */
static size_t run_of(const char *letters, uint8_t *run, size_t room)
{
    size_t length = strlen(letters);
    for (size_t i = 0; i < length && i < room; i++) {
        run[i] = (uint8_t)(letters[i] - 'a');
    }
    return length < room ? length : room;
}

static void keep(void)
{
    memcpy(held_before, held, sizeof held);
    memcpy(sheet_before, sheet, sizeof sheet);
}

/* what a call answered, and the held book then; of a refusal, whether a lent byte changed */
static void print_change(vanecitron_check_result r)
{
    if (r.refusal != VANECITRON_ACCEPTED) {
        int same = memcmp(held, held_before, sizeof held) == 0 && memcmp(sheet, sheet_before, sizeof sheet) == 0;
        printf("refused %u %llu (%s); %s changed\n", r.refusal, (unsigned long long)r.place, vanecitron_refusal_text(r.refusal),
               same ? "nothing" : "something");
        return;
    }
    vanecitron_held_result h = vanecitron_held_book(held, sizeof held);
    printf("rules %llu; held: %llu bytes, changes %llu\n", (unsigned long long)r.rules, (unsigned long long)h.length, (unsigned long long)h.changes);
}

/* the sheet that a change wrote */
static void print_sheet(vanecitron_check_result r)
{
    for (uint64_t i = 0; i < 2 * r.rules; i++) {
        const uint8_t *side = sheet + VANECITRON_SHEET_SIDE * i;
        printf("side %llu: X %u, Y %u, Z %u, %u pieces\n", (unsigned long long)i, side[VANECITRON_SHEET_X], side[VANECITRON_SHEET_Y],
               side[VANECITRON_SHEET_Z], side[VANECITRON_SHEET_PIECES]);
    }
}

static void add(const char *left, const char *right, size_t sheet_room)
{
    uint8_t l[VANECITRON_SIDE], r[VANECITRON_SIDE], record[VANECITRON_BOOK_RULE_MOST];
    size_t left_length = run_of(left, l, sizeof l), right_length = run_of(right, r, sizeof r);
    size_t record_length = vanecitron_book_rule_record(record, sizeof record, l, left_length, r, right_length);
    keep();
    vanecitron_check_result result = vanecitron_add(held, sizeof held, record, record_length, sheet, sheet_room);
    printf("add '%s' '%s'", left, right);
    if (sheet_room < sizeof sheet) {
        printf(" with a sheet of %zu bytes", sheet_room);
    }
    printf(": ");
    print_change(result);
    print_sheet(result);
}

static void withdraw(size_t rule)
{
    keep();
    vanecitron_check_result result = vanecitron_withdraw(held, sizeof held, rule, sheet, sizeof sheet);
    printf("withdraw %zu: ", rule);
    print_change(result);
    print_sheet(result);
}

/* two runs under the book that is held; a refusal has no outcome */
static void compare(const char *first, const char *second)
{
    uint8_t u[16], v[16];
    size_t u_length = run_of(first, u, sizeof u), v_length = run_of(second, v, sizeof v);
    vanecitron_held_result h = vanecitron_held_book(held, sizeof held);
    vanecitron_compare_result r = vanecitron_compare(held + h.start, h.length, u, u_length, v, v_length, 100);
    printf("compare '%s' '%s': ", first, second);
    switch (r.outcome) {
    case VANECITRON_SAME: printf("same %llu\n", (unsigned long long)r.rounds); break;
    case VANECITRON_DIFFERENT: printf("different %llu\n", (unsigned long long)r.rounds); break;
    default: printf("refused %u %llu (%s)\n", r.refusal, (unsigned long long)r.place, vanecitron_refusal_text(r.refusal));
    }
}

static void least(const char *letters)
{
    uint8_t run[16], buffer[16];
    size_t length = run_of(letters, run, sizeof run);
    vanecitron_held_result h = vanecitron_held_book(held, sizeof held);
    vanecitron_least_result r = vanecitron_least(held + h.start, h.length, run, length, buffer, sizeof buffer, 0);
    printf("least '%s': ", letters);
    for (uint64_t i = 0; i < r.length; i++) {
        putchar('a' + buffer[i]);
    }
    printf("\n");
}

int main(void)
{
    if (vanecitron_version() != VANECITRON_VERSION) {
        printf("the archive is not of version %s\n", VANECITRON_VERSION_TEXT);
        return 1;
    }
    static const uint8_t left[] = {0, 1, 3, 2}, right[] = {2, 0, 3, 1};
    uint8_t bytes[VANECITRON_BOOK_MOST];
    vanecitron_book book = vanecitron_book_begin(bytes, sizeof bytes, 4);
    vanecitron_book_rule(&book, left, sizeof left, right, sizeof right);
    keep();
    vanecitron_check_result loaded = vanecitron_load(book.bytes, book.length, held, sizeof held);
    printf("load: ");
    print_change(loaded);
    compare("bcdcadb", "abdcbdc");

    add("cadb", "bcda", sizeof sheet);
    compare("bcdcadb", "abdcbdc");
    least("bcdcadb");

    add("a", "aa", sizeof sheet);
    add("abde", "a", sizeof sheet);
    add("accb", "bbaa", VANECITRON_SHEET(3) - 1);
    withdraw(2);
    compare("bcdcadb", "abdcbdc");

    withdraw(1);
    vanecitron_held_result h = vanecitron_held_book(held, sizeof held);
    int same = h.length == book.length && memcmp(held + h.start, book.bytes, book.length) == 0;
    printf("the book is the one that was loaded: %s\n", same ? "yes" : "no");
    compare("bcdcadb", "abdcbdc");
    compare("abdc", "cadb");

    withdraw(0);
    compare("abdc", "cadb");
    return 0;
}
