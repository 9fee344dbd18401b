/*
 * vanecitron: does a chain of exchanges join two runs of steps under a book of exchange rules, which is the least run that one reaches, and what is left of
 * a run once a front is taken off it?
 * A book can be held in a buffer of the caller's and changed there, rule by rule, and a change can be proposed before it is made.
 *
 * The functions of the archive are proved against their contracts (crates/vanecitron, over crates/entries,
 * crates/removing and crates/heldbook; docs/AUDIT.md says what that means). This header is written by hand:
 * host/limits.py compares its numbers, words and structs with those of the proved sources. The functions that are
 * `static inline` here and in vanecitron_book.h are plain C, outside the proof.
 * The words are those of docs/SPECIFICATION.md, which "the specification" means below: a step is a byte below the book's number of letters, a run is
 * an array of steps, a rule has two sides, which are runs, and a book is a list of records in bytes ("Book bytes"); vanecitron_book.h writes them.
 *
 * The archive
 *   `rt lib --cpu x86-64` in crates/vanecitron writes crates/vanecitron/out/libvanecitron.a. It is for x86-64 Linux (System V calling convention) and
 *   holds no code for another processor. It allocates no memory, keeps no state between calls, reads no file, and starts no thread. Its only undefined
 *   symbols are memcpy and memset of the C library (`nm -u`; host/test compares the list, and fails where the archive has a byte of data or bss).
 *   Build:  cc -I host/include program.c crates/vanecitron/out/libvanecitron.a
 *
 * Calls
 *   Calls are reentrant: any number of threads may call any functions at the same time, as long as no buffer that one call writes is used by another.
 *   Every call that takes a book checks it again, since nothing is kept between calls: under a microsecond for a book
 *   of one rule with sides of 4 steps, 3 microseconds for one with sides of 64, and 0.8 milliseconds for a full book,
 *   32 such rules (docs/DECISIONS.md, "Cost grows"). vanecitron_program checks its book once for all comparisons of its
 *   input: give it many pairs of runs at a time where that matters. A change of a held book costs one check, that of
 *   the new book, which gives its sheet too; the old book is read, and not checked again. A proposal costs one check as
 *   well, and so does a posting, which makes it again.
 *   No measured call needs more than VANECITRON_STACK bytes of stack; a call gives them back when it returns. This is measured, not proved:
 *   host/stack calls each function on a painted stack, with the memcpy and memset of the C library there, and host/test fails where a call needs more.
 *   The calls take every row of a round and meet every kind of refusal, with books, runs, marks and inputs at their limits.
 *
 * Buffers
 *   Each buffer is a pointer and the number of its bytes. A `const` buffer is only read; the others are lent, that is, written.
 *   A buffer with length 0 is not touched, and its pointer may be null (or anything). With any other length the pointer must be valid for that many
 *   bytes until the call returns, and nothing else may write to them meanwhile.
 *   A lent buffer must overlap no other buffer of the same call, whether that is read or lent. Buffers that are only read may overlap each other, or
 *   be the same.
 *   A refusal, and a round that ends, leave every lent byte as it was. Otherwise what is written stands at the start of the lent buffer, and the bytes
 *   behind it are as they were. The least run and the run behind a front alone stand at an offset of the caller's choosing; the bytes before them are as
 *   they were too.
 *   A held book lies in a lent buffer of at least VANECITRON_HELD bytes, which the caller keeps between calls; the library has no other copy. Its
 *   content is the caller's to keep, and may be copied and stored. A change reads it as any bytes and trusts none of them: a buffer that was altered is
 *   only ever refused, or taken as the book that it says. The bytes behind the book are as they were, so that after a withdrawal the last bytes of the
 *   longer book still stand there.
 *   A proposal only reads the held book. So proposals may be made of one held book at the same time, each with a sheet and a ticket of its own.
 *   A ticket lies in a lent buffer of at least VANECITRON_TICKET bytes. It may be copied, stored and handed in later. A posting reads it as any bytes, of
 *   any number, and trusts none of them: whatever they are, it is refused, or makes a change that would be accepted directly.
 *
 * Results
 *   Each result has a refusal and a place, but that of vanecitron_held_book, which is never refused. The refusal is 0 where the call was not refused;
 *   else it is one of the numbers below, and everything but refusal and place is 0. Where the call was not refused the place is 0. An outcome of 0 says
 *   nothing: a refused result, and one filled with zeros, reads as no answer, so that a caller who looks at the outcome alone is never told 'same' or
 *   'different' by a refusal.
 *   If several refusals could apply, the one that is given is fixed: records of the book in turn, each in the order 1, 2, 6, 3, 4, 5; then 8;
 *   then 9 and 10 for u, for v, for p; then 12, or 14 of the least run; 11 last. Of the run behind a front 18, 19 and 14, in this order, come after 9 and 10
 *   for u and for p.
 *   Of a change it is: 12 of the held buffer; the records of the book that is held, in turn, as above, and not its 8; then of an addition 1, 2, 6, 3, 4,
 *   5 of its record, of a withdrawal 15; then 8 of the new book; then 12 of the sheet; 17 last. A withdrawal from a book that loads is never refused by 8.
 *   Of a proposal it is that of its change, with 12 of the ticket's buffer in the place of 17: a book that has had all its changes is no reason to refuse
 *   one. Of a posting it is: 16; 17; then that of the ticket's change, up to 12 of the sheet.
 */
#ifndef VANECITRON_H
#define VANECITRON_H

#include <stddef.h>
#include <stdint.h>

#ifdef __cplusplus
extern "C" {
#endif

/* The version of this header; vanecitron_version gives that of the archive. */
#define VANECITRON_VERSION_MAJOR 0u
#define VANECITRON_VERSION_MINOR 8u
#define VANECITRON_VERSION_PATCH 0u
#define VANECITRON_VERSION (10000u * VANECITRON_VERSION_MAJOR + 100u * VANECITRON_VERSION_MINOR + VANECITRON_VERSION_PATCH)
#define VANECITRON_VERSION_TEXT "0.8.0"

/* Limits: more than these is refused. */
#define VANECITRON_LETTERS 64u           /* the most letters of a book; at least 1 */
#define VANECITRON_RULES 32u             /* the most rules of a book; there may be none */
#define VANECITRON_SIDE 64u              /* the most steps of a side; at least 1 */
#define VANECITRON_BOOK_MOST 4293u       /* the most bytes of a book: those of one with so many rules of such sides */
#define VANECITRON_RUN 4096u             /* the most steps of a run that is compared, whose least run is asked for, or off which a front is taken */
#define VANECITRON_ROUND_RUN 4160u       /* the most steps of the u and the v of a single round */
#define VANECITRON_ROUND_MARK 64u        /* the most steps of the p of a single round, and of the front that is taken off */
#define VANECITRON_ALLOWANCE 4294967295u /* the most rounds that an allowance can give */
#define VANECITRON_INPUT 60000u          /* the most bytes of the program's input */

/* The cut sheet. */
#define VANECITRON_SHEET_SIDE 4u         /* the bytes of a side; the places in them: */
#define VANECITRON_SHEET_X 0u            /* the length of X */
#define VANECITRON_SHEET_Y 1u            /* the length of Y */
#define VANECITRON_SHEET_Z 2u            /* the length of Z */
#define VANECITRON_SHEET_PIECES 3u       /* the number of pieces */
#define VANECITRON_NO_PRODUCT 255u       /* the number of a side that is no product of pieces */

/* The least sizes of lent buffers. */
#define VANECITRON_SHEET(rules) (2u * VANECITRON_SHEET_SIDE * (rules)) /* the cut sheet of a book with so many rules */
#define VANECITRON_SHEET_MOST VANECITRON_SHEET(VANECITRON_RULES)       /* of any book */
#define VANECITRON_NEXT_RUN 4224u        /* the next u and the next v of a single round */
#define VANECITRON_NEXT_MARK 64u         /* the next p of a single round */
#define VANECITRON_OUTPUT 110022u        /* the program's output: no input has a longer one */
#define VANECITRON_HELD 4297u            /* a held book, whatever its rules */
#define VANECITRON_TICKET 140u           /* a ticket, whatever its change */

/* The most steps of a least run, and of the run behind a front: 64 for each step of the given run. A buffer with so many bytes behind the offset is enough
   for every one. */
#define VANECITRON_LEAST_MOST 262144u

/* The most changes that a held book takes from loading. Then it is worn: every further change is refused, by 17 if by
   nothing else, until a book is loaded there anew. */
#define VANECITRON_CHANGES_MOST 60000u

/* The kinds of change that a ticket says; see vanecitron_propose_add. */
#define VANECITRON_TICKET_ADDITION 0u
#define VANECITRON_TICKET_WITHDRAWAL 1u

/* Enough stack for a call, in bytes: no measured call needs more (see "Calls" above). */
#define VANECITRON_STACK 32768u

/*
 * Refusals (the specification, "Refusals by number"); vanecitron_refusal_text says them in words.
 *
 * The place of 1 to 6 is the first byte of the record at fault, counted from the start of the book. A record that is to be added would begin where the
 * held book ends, so that its place is the number of the held book's bytes. Sides are numbered 0 and 1 for the first rule, 2 and 3 for the second, and so
 * on; of a change they are those of the new book. Given runs are numbered u 0, v 1, p 2; positions in a run count from 0. VANECITRON_PLACE_RUN and
 * VANECITRON_PLACE_POSITION take the place of 9 and 10 apart.
 */
#define VANECITRON_ACCEPTED 0u      /* not refused */
#define VANECITRON_SHORT 1u         /* the bytes end inside a record, or the book is empty, or there is no record to add */
#define VANECITRON_KIND 2u          /* the first record is no head, or a later one is no rule */
#define VANECITRON_LENGTH 3u        /* a record's length does not fit it, or bytes stand behind the record that is to be added */
#define VANECITRON_RANGE 4u         /* the number of letters, or of the steps of a side, is outside its range */
#define VANECITRON_UNKNOWN_STEP 5u  /* a side has a step that is not below the number of letters */
#define VANECITRON_THICK 6u         /* a 33rd rule */
                                    /* 7 is not used: a side may equal an earlier one */
#define VANECITRON_LOOSE 8u         /* C(4) fails; place: the lowest side that is a product of three or fewer pieces, which are
                                       counted over the distinct sides */
#define VANECITRON_LONG 9u          /* a given run is over its limit; place: 5000 times its number */
#define VANECITRON_STRANGER 10u     /* a given run has a step that is not below the number of letters; place: 5000 times the run's number, plus the
                                       position of the first such step */
#define VANECITRON_SPENT 11u        /* another round was due and the allowance was used up; place: the rounds done, which are the allowance */
#define VANECITRON_NARROW 12u       /* a lent buffer is too small; place: its number: the sheet 0; next u 0, next v 1, next p 2, lowest first;
                                       the program's output 0; a held book VANECITRON_HELD_BUFFER, a ticket VANECITRON_TICKET_BUFFER, and the sheet
                                       beside them 0 */
#define VANECITRON_HEAVY 13u        /* the program's input is over its limit; place: 60000. Only printed by the program, as a line of its output */
#define VANECITRON_NO_SPACE 14u     /* the offset lies past the buffer's end, or the least run, or the run behind the front, is longer than what
                                       follows it; place: 0 */
#define VANECITRON_NO_SUCH_RULE 15u /* the held book has no rule of the index that is to be withdrawn; place: 0 */
#define VANECITRON_STALE_TICKET 16u /* the count of the ticket that is posted is not that of the held book; place: 0 */
#define VANECITRON_BOOK_WORN 17u    /* the held book has had VANECITRON_CHANGES_MOST changes; place: 0 */
#define VANECITRON_NOT_PIECE 18u    /* the front that is to be taken off is no piece of the book; place: 0 */
#define VANECITRON_NO_FRONT 19u     /* no run that a chain joins to the given one begins with that front; place: 0 */

#define VANECITRON_HELD_BUFFER 1u      /* the number of a held book's buffer in 12 */
#define VANECITRON_TICKET_BUFFER 2u    /* the number of a ticket's buffer in 12 */
#define VANECITRON_PLACE_SPACING 5000u /* how far apart the places of the given runs lie in 9 and 10 */
#define VANECITRON_PLACE_RUN(place) ((place) / VANECITRON_PLACE_SPACING)
#define VANECITRON_PLACE_POSITION(place) ((place) % VANECITRON_PLACE_SPACING)

/* Outcomes of a comparison and of a round. */
#define VANECITRON_NONE 0u          /* no answer: the call was refused; look at its refusal */
#define VANECITRON_SAME 1u
#define VANECITRON_DIFFERENT 2u
#define VANECITRON_NEXT 3u          /* of a round alone: it went on, and the next u, v and p are written */

/* Of the check and of the cut sheet, and of loading and changing a held book, with proposals and postings. */
typedef struct {
    uint32_t refusal;
    uint64_t place;
    uint64_t rules; /* the number of the book's rules, of a change the new book's, of a proposal those that there would be; 0 of a refused one too, so
                       look at its refusal first */
} vanecitron_check_result;

/* Of a single round. */
typedef struct {
    uint32_t refusal;
    uint64_t place;
    uint32_t outcome;   /* VANECITRON_SAME, VANECITRON_DIFFERENT or VANECITRON_NEXT; VANECITRON_NONE where it is refused */
    uint64_t u_length;  /* where it is VANECITRON_NEXT, the lengths of the next u, v and p; else 0 */
    uint64_t v_length;
    uint64_t p_length;
} vanecitron_round_result;

/* Of a comparison. */
typedef struct {
    uint32_t refusal;
    uint64_t place;
    uint32_t outcome;   /* VANECITRON_SAME or VANECITRON_DIFFERENT; VANECITRON_NONE where it is refused */
    uint64_t rounds;    /* how many rounds the comparison took */
} vanecitron_compare_result;

/* Of the least run, and of the run behind a front. */
typedef struct {
    uint32_t refusal;
    uint64_t place;
    uint64_t length; /* the steps of the run that is written; 0 of a refused one and of the empty run, so look at its refusal first */
} vanecitron_least_result;

/* Of the program. */
typedef struct {
    uint32_t refusal;
    uint64_t place;
    uint64_t length; /* the bytes of the output */
} vanecitron_program_result;

/* Of a buffer with a held book: what it says, whatever its bytes are. */
typedef struct {
    uint64_t start;   /* where in the buffer the book begins: 4, or the buffer's length where that is less */
    uint64_t length;  /* the bytes of the book, as far as the buffer has them */
    uint64_t changes; /* the count of changes since loading; 0 where the buffer has fewer than 4 bytes */
} vanecitron_held_result;

/* The structs lie in memory as the archive has them; the Rust wrapper asserts the same numbers. */
#if defined(__cplusplus)
#define VANECITRON_ASSERT(name, holds) static_assert(holds, #name)
#elif defined(__STDC_VERSION__) && __STDC_VERSION__ >= 201112L
#define VANECITRON_ASSERT(name, holds) _Static_assert(holds, #name)
#else
#define VANECITRON_ASSERT(name, holds) typedef char vanecitron_assert_##name[(holds) ? 1 : -1]
#endif
#define VANECITRON_AT(type, field, offset) VANECITRON_ASSERT(type##_##field, offsetof(type, field) == (offset))
VANECITRON_ASSERT(sizes, sizeof(size_t) == 8);
VANECITRON_ASSERT(check_result, sizeof(vanecitron_check_result) == 24);
VANECITRON_AT(vanecitron_check_result, refusal, 0);
VANECITRON_AT(vanecitron_check_result, place, 8);
VANECITRON_AT(vanecitron_check_result, rules, 16);
VANECITRON_ASSERT(round_result, sizeof(vanecitron_round_result) == 48);
VANECITRON_AT(vanecitron_round_result, refusal, 0);
VANECITRON_AT(vanecitron_round_result, place, 8);
VANECITRON_AT(vanecitron_round_result, outcome, 16);
VANECITRON_AT(vanecitron_round_result, u_length, 24);
VANECITRON_AT(vanecitron_round_result, v_length, 32);
VANECITRON_AT(vanecitron_round_result, p_length, 40);
VANECITRON_ASSERT(compare_result, sizeof(vanecitron_compare_result) == 32);
VANECITRON_AT(vanecitron_compare_result, refusal, 0);
VANECITRON_AT(vanecitron_compare_result, place, 8);
VANECITRON_AT(vanecitron_compare_result, outcome, 16);
VANECITRON_AT(vanecitron_compare_result, rounds, 24);
VANECITRON_ASSERT(least_result, sizeof(vanecitron_least_result) == 24);
VANECITRON_AT(vanecitron_least_result, refusal, 0);
VANECITRON_AT(vanecitron_least_result, place, 8);
VANECITRON_AT(vanecitron_least_result, length, 16);
VANECITRON_ASSERT(program_result, sizeof(vanecitron_program_result) == 24);
VANECITRON_AT(vanecitron_program_result, refusal, 0);
VANECITRON_AT(vanecitron_program_result, place, 8);
VANECITRON_AT(vanecitron_program_result, length, 16);
VANECITRON_ASSERT(held_result, sizeof(vanecitron_held_result) == 24);
VANECITRON_AT(vanecitron_held_result, start, 0);
VANECITRON_AT(vanecitron_held_result, length, 8);
VANECITRON_AT(vanecitron_held_result, changes, 16);
#undef VANECITRON_AT
#undef VANECITRON_ASSERT

/* The version of the archive, to be held to VANECITRON_VERSION: they differ where a program was built with the header of another archive. */
uint32_t vanecitron_version(void);

/*
 * Checks a book: it is accepted exactly when it is well-formed, within the limits, and its distinct sides meet C(4).
 * Refusals 1 to 6 and 8.
 */
vanecitron_check_result vanecitron_check(const uint8_t *book, size_t book_length);

/*
 * Writes the cut sheet of a book: VANECITRON_SHEET_SIDE bytes for each side in order, and in them, each in its place:
 *   VANECITRON_SHEET_X       the length of X, the side's longest front that is a piece;
 *   VANECITRON_SHEET_Y       the length of Y, the rest between X and Z;
 *   VANECITRON_SHEET_Z       the length of Z, its longest end that is a piece;
 *   VANECITRON_SHEET_PIECES  the smallest number of pieces whose product the side is, or VANECITRON_NO_PRODUCT.
 * The number says how far the side is from trouble: C(4) asks for 4 or more, so that an accepted book has no smaller one. VANECITRON_NO_PRODUCT says
 * that the side is no product of pieces at all: it has a step that stands nowhere else in the distinct sides. Any other number is at most 64.
 *
 * `sheet` is lent and has at least VANECITRON_SHEET(rules) bytes; VANECITRON_SHEET_MOST is enough for every book.
 * Refusals 1 to 6, 8, 12.
 */
vanecitron_check_result vanecitron_cut_sheet(const uint8_t *book, size_t book_length, uint8_t *sheet, size_t sheet_length);

/*
 * Makes one round from u, v and the front mark p (the specification, "Exchanges and rounds"): it ends, or writes the next u, v and p at the start of the
 * three lent buffers, which have at least VANECITRON_NEXT_RUN, VANECITRON_NEXT_RUN and VANECITRON_NEXT_MARK bytes. A comparison begins with p empty.
 * Refusals 1 to 6, 8 to 10, 12.
 */
vanecitron_round_result vanecitron_round(
    const uint8_t *book, size_t book_length,
    const uint8_t *u, size_t u_length,
    const uint8_t *v, size_t v_length,
    const uint8_t *p, size_t p_length,
    uint8_t *next_u, size_t next_u_length,
    uint8_t *next_v, size_t next_v_length,
    uint8_t *next_p, size_t next_p_length);

/*
 * Compares two runs. Under an accepted book and of runs within the limits it is VANECITRON_SPENT exactly when the two
 * runs need more rounds than the allowance; else VANECITRON_SAME exactly when a chain of exchanges joins them, and
 * VANECITRON_DIFFERENT exactly when none does, with the number of rounds that were needed.
 *
 * An allowance that is never spent: the rounds are at most (k + 2) times the number of steps of u, where k is the
 * longest Z of the cut sheet (0 without rules). vanecitron_ample_allowance reckons it. It is at most 65 times 4096,
 * which fits. The rounds are also at most (k + 1) times the number of steps of the shorter run. Both are proved.
 * Refusals 1 to 6, 8 to 11.
 */
vanecitron_compare_result vanecitron_compare(
    const uint8_t *book, size_t book_length,
    const uint8_t *u, size_t u_length,
    const uint8_t *v, size_t v_length,
    uint32_t allowance);

/*
 * Writes the least run of a run (the specification, "The least equal run"): of all runs that a chain of exchanges joins to it, the first in dictionary
 * order. A proper front comes before the longer run; else the first steps that differ decide: 32 to 63 come first in rising order, then 0 to 31.
 * Two runs have the same least run exactly when a chain joins them, so that it names them all: what is filed under it is found from any of them.
 *
 * It is written into `buffer` from `offset` on, and its length is the answer; the bytes before and behind it are as they were. What follows the offset
 * has room for it, or the call is refused; VANECITRON_LEAST_MOST bytes are always enough. An offset equal to the buffer's length is fine for the empty
 * run, which is the least run of itself alone. Time grows with the number of steps, beside the check of the book.
 * Refusals 1 to 6, 8 to 10, 14. Those of the run have the number 0 in their places.
 */
vanecitron_least_result vanecitron_least(
    const uint8_t *book, size_t book_length,
    const uint8_t *run, size_t run_length,
    uint8_t *buffer, size_t buffer_length,
    size_t offset);

/*
 * Takes a front off a run (the specification, "Taking a front off"): writes the run w, the first in dictionary order, such that a chain of exchanges joins
 * p followed by w to u. The order is that of vanecitron_least. p is a piece of the book: the empty run, or a run that stands in two different sides or at
 * two places of one, a side that is there several times being counted once. u itself need not begin with p: it is enough that a run does which a chain
 * joins to it, and 19 says that none does, however long the chain.
 * w is its own least run, and p followed by w has the least run of u. With p empty w is the least run of u, and 18 and 19 are not met. Behind p runs can be
 * possible that no chain joins to each other, as b and c behind a under ab = ac: the first in dictionary order is written, and the others are not told of.
 *
 * It is written into `buffer` from `offset` on, and its length is the answer; room and offset are as of vanecitron_least, by the length of w. An offset equal
 * to the buffer's length is fine where w is empty, which is where a chain joins p to u. Time grows with the number of steps, beside the check of the book.
 * p may have VANECITRON_ROUND_MARK steps, as the front mark of a round. No piece has so many: a longer p is refused by
 * 9, and one of just so many, if by nothing before it, by 18.
 * Refusals 1 to 6, 8 to 10; then 18, 19, 14. In the places of 9 and 10 u has the number 0 and p has 2.
 */
vanecitron_least_result vanecitron_front(
    const uint8_t *book, size_t book_length,
    const uint8_t *u, size_t u_length,
    const uint8_t *p, size_t p_length,
    uint8_t *buffer, size_t buffer_length,
    size_t offset);

/*
 * The whole program (the specification, "The program") from its input to what it prints: `input` holds the records of a book and then those of comparisons;
 * `output` is lent, has at least VANECITRON_OUTPUT bytes, and receives the lines, each ended by a newline. Refusals of the book, of a comparison's
 * record and of an input over VANECITRON_INPUT bytes are lines `refused N P` of the output, and not refusals of the call.
 * Refusals: 12 alone. It is decided first: with a buffer that is too small the input is not looked at, so that nothing is printed, not even the line
 * of 13.
 */
vanecitron_program_result vanecitron_program(const uint8_t *input, size_t input_length, uint8_t *output, size_t output_length);

/*
 * Loads a book into a held one (the specification, "Rules that come and go"): it is checked, as by vanecitron_check, and put into `held`, which is lent and
 * has at least VANECITRON_HELD bytes. There stand the length of the book and the count of changes, none so far, in two bytes each, the lowest first; and
 * then the book's bytes. Bytes behind them are as they were.
 * A held book takes VANECITRON_CHANGES_MOST changes from here on. To go on then, copy its bytes, which vanecitron_held_book tells of, and load the copy: the
 * count begins anew.
 * Refusals 1 to 6, 8; then 12 of the held buffer.
 */
vanecitron_check_result vanecitron_load(const uint8_t *book, size_t book_length, uint8_t *held, size_t held_length);

/*
 * Adds a rule to a held book, behind the rules that it has. `record` holds the record of the rule ("Book bytes") and nothing else;
 * vanecitron_book_rule_record of vanecitron_book.h writes it. The new book is checked as a whole. Where it is accepted it takes the place of the old one,
 * the count of changes is one more, and its cut sheet is written, as by vanecitron_cut_sheet: every side of the book, not those of the new rule alone,
 * since a rule can change the cuts and the numbers of pieces of all others.
 *
 * `held` and `sheet` are lent. The sheet has at least VANECITRON_SHEET(rules) bytes by the new number of rules; VANECITRON_SHEET_MOST is always enough.
 * Refusals 1 to 6, 8, 12, 17, in the order that "Results" gives. A refusal leaves the held book and the sheet as they were.
 */
vanecitron_check_result vanecitron_add(
    uint8_t *held, size_t held_length,
    const uint8_t *record, size_t record_length,
    uint8_t *sheet, size_t sheet_length);

/*
 * Withdraws a rule from a held book: that with so many rules before it, the first being 0. Those behind it move down one. The new book is checked, takes
 * the place of the old one and has its sheet written as by vanecitron_add; a book without rules has an empty sheet.
 * Refusals 1 to 6, 8, 12, 15, 17, in the order that "Results" gives. From a book that loads only 12, 15 and 17 are met: fewer sides have no more pieces.
 */
vanecitron_check_result vanecitron_withdraw(
    uint8_t *held, size_t held_length,
    size_t rule,
    uint8_t *sheet, size_t sheet_length);

/*
 * Proposes an addition (the specification, "Propose, then post"): what vanecitron_add would answer, the sheet that it would write, and a ticket, which
 * vanecitron_post makes the change of. The held book is only read, so that nothing is changed by a proposal, however it is answered. A book that has had
 * all its changes is answered as any other; only changes and postings are refused then.
 *
 * The ticket is the change and the count of changes that the held book has now. Its bytes, numbers with the lowest byte first:
 *   2 bytes  the count of changes;
 *   2 bytes  the kind of change, VANECITRON_TICKET_ADDITION or VANECITRON_TICKET_WITHDRAWAL;
 *   2 bytes  n, of an addition the number of its record's bytes, of a withdrawal the index of its rule;
 *   n bytes  of an addition its record; a withdrawal has nothing here.
 * Bytes behind them are as they were. No record of a rule has more than 134 bytes, so that VANECITRON_TICKET bytes are room for every ticket.
 *
 * `sheet` and `ticket` are lent; they must overlap neither each other nor what is read. The sheet has the room that vanecitron_add asks, and `ticket`
 * has at least VANECITRON_TICKET bytes.
 * Refusals 1 to 6, 8, 12, in the order that "Results" gives. A refusal leaves the sheet and the ticket's buffer as they were.
 */
vanecitron_check_result vanecitron_propose_add(
    const uint8_t *held, size_t held_length,
    const uint8_t *record, size_t record_length,
    uint8_t *sheet, size_t sheet_length,
    uint8_t *ticket, size_t ticket_length);

/*
 * Proposes a withdrawal, as vanecitron_propose_add proposes an addition: what vanecitron_withdraw would answer, its sheet, and a ticket.
 * Refusals 1 to 6, 8, 12, 15, in the order that "Results" gives.
 */
vanecitron_check_result vanecitron_propose_withdraw(
    const uint8_t *held, size_t held_length,
    size_t rule,
    uint8_t *sheet, size_t sheet_length,
    uint8_t *ticket, size_t ticket_length);

/*
 * Posts a ticket: makes its change, where the held book has had none since the ticket was given. It then answers,
 * changes and writes what vanecitron_add or vanecitron_withdraw would, but that 17 comes first; all their checks are
 * made again, that of the sheet's room by the buffer that is lent here.
 *
 * A ticket is stale, and refused by 16, after any change that was accepted since it was given, made directly or posted: its own is one, and a change that
 * was undone again counts as well. Of two tickets that were given with no change between, the first that is posted is good, and the other is then stale;
 * propose its change again. Proposals and refusals make no ticket stale.
 *
 * The count is all that a ticket is told by. It has no mark of its book: one of another held book with the same count, or from before a new loading,
 * cannot be told apart from its own, and its change is made where the checks of that change accept it. Whoever keeps several held books keeps their
 * tickets apart.
 *
 * `ticket` may be of any length and any content, and none is malformed. Bytes that are not there are read as 0; every
 * kind but VANECITRON_TICKET_ADDITION is a withdrawal; an addition has the n bytes behind the fields, as far as they
 * are there. Bytes that are all 0 are the addition of no bytes with the count 0, refused by 16, or by 1 where the held
 * book's count is 0 too. So a ticket that was damaged or made up is refused, or is a change that the library would
 * accept directly, and the book that is then held is an accepted one.
 *
 * `held` and `sheet` are lent, and overlap neither each other nor the ticket.
 * Refusals 16, 17, then those of the change, in the order that "Results" gives. A refusal leaves the held book and the sheet as they were.
 */
vanecitron_check_result vanecitron_post(
    uint8_t *held, size_t held_length,
    const uint8_t *ticket, size_t ticket_length,
    uint8_t *sheet, size_t sheet_length);

/*
 * Tells where in a held buffer its book stands, and the count of its changes. The book can be given to every function that takes one:
 *     vanecitron_held_result r = vanecitron_held_book(held, sizeof held);
 *     vanecitron_compare(held + r.start, r.length, u, u_length, v, v_length, allowance);
 * It looks at no byte of the book, and takes any buffer: what it tells of lies inside the buffer. It cannot be refused; the function that is given the
 * book then checks it, as any other.
 */
vanecitron_held_result vanecitron_held_book(const uint8_t *held, size_t held_length);

/*
 * An allowance that no comparison of a first run with so many steps (VANECITRON_RUN at most) spends, by the cut sheet of the book.
 * Plain C, outside the proof.
 */
static inline uint32_t vanecitron_ample_allowance(const uint8_t *sheet, size_t rules, size_t u_length)
{
    uint32_t k = 0;
    for (size_t side = 0; side < 2 * rules; side++) {
        uint8_t z = sheet[VANECITRON_SHEET_SIDE * side + VANECITRON_SHEET_Z];
        k = z > k ? z : k;
    }
    return u_length > VANECITRON_ALLOWANCE / (k + 2) ? VANECITRON_ALLOWANCE : (k + 2) * (uint32_t)u_length;
}

/*
 * What a refusal means: the specification's word for it and an explanation, in a text that is never freed. Plain C, outside the proof.
 */
static inline const char *vanecitron_refusal_text(uint32_t refusal)
{
    switch (refusal) {
    case VANECITRON_ACCEPTED: return "not refused";
    case VANECITRON_SHORT: return "short: the bytes end inside a record, or there is no book";
    case VANECITRON_KIND: return "kind: the first record is no head, or a later one is no rule";
    case VANECITRON_LENGTH: return "length: a record's length does not fit it";
    case VANECITRON_RANGE: return "range: the number of letters, or of the steps of a side, is outside its range";
    case VANECITRON_UNKNOWN_STEP: return "unknown step: a side has a step that is not below the number of letters";
    case VANECITRON_THICK: return "thick: there is a rule too many";
    case VANECITRON_LOOSE: return "loose: C(4) fails, since a side is a product of three or fewer pieces";
    case VANECITRON_LONG: return "long: a given run is over its limit";
    case VANECITRON_STRANGER: return "stranger: a given run has a step that is not below the number of letters";
    case VANECITRON_SPENT: return "spent: another round was due and the allowance was used up";
    case VANECITRON_NARROW: return "narrow: a lent buffer is too small";
    case VANECITRON_HEAVY: return "heavy: the program's input is over its limit";
    case VANECITRON_NO_SPACE: return "no space: the offset lies past the buffer's end, or the least run, or the run behind the front, does not fit there";
    case VANECITRON_NO_SUCH_RULE: return "no such rule: the held book has no rule of the index that is to be withdrawn";
    case VANECITRON_STALE_TICKET: return "stale ticket: the held book's count of changes is not that of the ticket";
    case VANECITRON_BOOK_WORN: return "book worn: the held book has had all the changes that it takes, and must be loaded anew";
    case VANECITRON_NOT_PIECE: return "not a piece: the front that is to be taken off is no piece of the book";
    case VANECITRON_NO_FRONT: return "no such front: no run that a chain joins to the given one begins with that front";
    default: return "a refusal that this header does not know";
    }
}

#ifdef __cplusplus
}
#endif

#endif
