/*
 * The bytes of a book, and of comparisons behind it, written into a buffer that the caller lends (docs/SPECIFICATION.md, "Book bytes" and "The program").
 * Plain C, outside the proof; nothing is allocated.
 *
 *     static const uint8_t left[] = {0, 1, 3, 2}, right[] = {2, 0, 3, 1};
 *     uint8_t bytes[VANECITRON_BOOK_MOST];
 *     vanecitron_book book = vanecitron_book_begin(bytes, sizeof bytes, 4);
 *     vanecitron_book_rule(&book, left, 4, right, 4);
 *     vanecitron_check_result result = vanecitron_check(book.bytes, book.length);
 *
 * What the format can hold is written, whether a check accepts it or not: the check alone decides. What does not fit, in the buffer or in a field of its
 * record, spoils the book: its length is then 0 and stays so, whatever is added, and a book of no bytes is refused as VANECITRON_SHORT. So a caller may
 * look once, at the end, and cannot take what is there so far for the whole.
 */
#ifndef VANECITRON_BOOK_H
#define VANECITRON_BOOK_H

#include "vanecitron.h"

#ifdef __cplusplus
extern "C" {
#endif

/* The bytes of records; VANECITRON_BOOK_MOST of vanecitron.h is those of the longest book that can be accepted. */
#define VANECITRON_BOOK_HEAD 5u
#define VANECITRON_BOOK_RULE(left, right) (6u + (left) + (right))    /* a rule whose sides have so many steps */
#define VANECITRON_BOOK_COMPARISON(u, v) (12u + (u) + (v))           /* a comparison of runs of so many steps */
#define VANECITRON_BOOK_RULE_MOST VANECITRON_BOOK_RULE(VANECITRON_SIDE, VANECITRON_SIDE) /* a rule that can be accepted */

/* A book that is being written. `length` is how many bytes there are; `spoiled` is 1 where something did not fit. */
typedef struct {
    uint8_t *bytes;
    size_t room;
    size_t length;
    int spoiled;
} vanecitron_book;

/* Puts a field of so many bytes, little-endian, behind what is there, where there is room. */
static inline void vanecitron_book_field(vanecitron_book *book, unsigned bytes, size_t number)
{
    for (unsigned i = 0; i < bytes; i++) {
        book->bytes[book->length++] = (uint8_t)(number >> 8 * i);
    }
}

/* Puts steps behind what is there, where there is room. */
static inline void vanecitron_book_steps(vanecitron_book *book, const uint8_t *steps, size_t length)
{
    for (size_t i = 0; i < length; i++) {
        book->bytes[book->length++] = steps[i];
    }
}

/* Begins a record of so many payload bytes, where it fits; else the book is spoiled. 1 where the record is begun. */
static inline int vanecitron_book_record(vanecitron_book *book, unsigned kind, size_t payload)
{
    if (book->spoiled || payload > UINT16_MAX || book->room - book->length < 4 + payload) {
        book->spoiled = 1;
        book->length = 0;
        return 0;
    }
    vanecitron_book_field(book, 2, payload);
    vanecitron_book_field(book, 2, kind);
    return 1;
}

/* A payload that is longer than a record can have, where the lengths of two runs are over `most` or make it so; else their sum and what stands before. */
static inline size_t vanecitron_book_payload(size_t before, size_t m, size_t n, size_t most)
{
    return m > most || n > most ? (size_t)UINT16_MAX + 1 : before + m + n;
}

/* Begins a book with its head: so many letters. The buffer stays lent as long as the book is in use. */
static inline vanecitron_book vanecitron_book_begin(uint8_t *bytes, size_t room, uint8_t letters)
{
    vanecitron_book book = {bytes, room, 0, 0};
    if (vanecitron_book_record(&book, 1, 1)) {
        vanecitron_book_field(&book, 1, letters);
    }
    return book;
}

/* Adds a rule; a side has at most 255 steps in the format, of which a check accepts 64. 1 where it is written, else 0. */
static inline int vanecitron_book_rule(vanecitron_book *book, const uint8_t *left, size_t left_length, const uint8_t *right, size_t right_length)
{
    if (!vanecitron_book_record(book, 2, vanecitron_book_payload(2, left_length, right_length, UINT8_MAX))) {
        return 0;
    }
    vanecitron_book_field(book, 1, left_length);
    vanecitron_book_field(book, 1, right_length);
    vanecitron_book_steps(book, left, left_length);
    vanecitron_book_steps(book, right, right_length);
    return 1;
}

/*
 * Writes the record of a rule alone, for vanecitron_add and vanecitron_propose_add: VANECITRON_BOOK_RULE_MOST bytes are room for every rule that can be
 * accepted. It gives the number of its bytes, and 0 where it does not fit; both refuse a record of no bytes as VANECITRON_SHORT, so that a caller need not
 * look.
 */
static inline size_t vanecitron_book_rule_record(uint8_t *bytes, size_t room, const uint8_t *left, size_t left_length, const uint8_t *right,
                                                 size_t right_length)
{
    vanecitron_book alone = {bytes, room, 0, 0};
    vanecitron_book_rule(&alone, left, left_length, right, right_length);
    return alone.length;
}

/* Adds a comparison, for the input of vanecitron_program; it stands behind all rules. 1 where it is written, else 0. */
static inline int vanecitron_book_comparison(vanecitron_book *book, uint32_t allowance, const uint8_t *u, size_t u_length, const uint8_t *v, size_t v_length)
{
    if (!vanecitron_book_record(book, 3, vanecitron_book_payload(8, u_length, v_length, UINT16_MAX))) {
        return 0;
    }
    vanecitron_book_field(book, 4, allowance);
    vanecitron_book_field(book, 2, u_length);
    vanecitron_book_field(book, 2, v_length);
    vanecitron_book_steps(book, u, u_length);
    vanecitron_book_steps(book, v, v_length);
    return 1;
}

#ifdef __cplusplus
}
#endif

#endif
