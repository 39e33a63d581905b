/*
 * Join and predicate estimates from the bytes of a join sheet (libestimates.a, x86-64).
 *
 * Each function takes a sheet's bytes and an output that the caller lends. It answers the number
 * of bytes that it wrote to the front of the output, or ESTIMATES_REFUSED plus the number of the
 * rule that is broken first. Bytes of the output behind the answer are left as they were, and so
 * is all of the output where the call is refused.
 *
 * What a caller sees to:
 *  - `sheet` points to `length` bytes that can be read, and nobody changes them during the call;
 *  - `out` points to `out_length` bytes that can be written, and nobody else uses them during the
 *    call;
 *  - the two share no byte;
 *  - floats round as they do when a program starts: to nearest even, subnormals kept.
 * Where a length is 0 its pointer is not followed and may be NULL. Nothing is asked of the bytes
 * themselves: every sheet, number and length has an answer. No pointer is kept, nothing is
 * allocated, and calls from several threads do not disturb each other.
 */
#ifndef ESTIMATES_H
#define ESTIMATES_H

#include <stddef.h>
#include <stdint.h>

#ifdef __cplusplus
extern "C" {
#endif

/* An answer below this is a length; any other is this plus an estimates_refusal. */
#define ESTIMATES_REFUSED ((uint64_t)1 << 32)

/* Outputs of so many bytes are never too short. */
#define ESTIMATES_LONGEST_JOIN 5124
#define ESTIMATES_LONGEST_PREDICATE 26
#define ESTIMATES_LONGEST_SPLIT 1026

/* The numbers of document 01, "Where a sheet is turned back". */
enum estimates_refusal {
    /* length: the sheet has more than 65,535 bytes */
    ESTIMATES_SHEET_TOO_LONG = 1,
    /* count, record: the sheet stops before a count or a record is complete */
    ESTIMATES_SHEET_ENDS_INSIDE = 2,
    /* count, n: a section's count, or the n of a sketch or a class, is not within its limit */
    ESTIMATES_COUNT_OUTSIDE_LIMIT = 3,
    /* figure: a figure is not within its range */
    ESTIMATES_FIGURE_OUTSIDE_RANGE = 4,
    /* scalar: the 19 bytes of a scalar are none that a scalar may have there */
    ESTIMATES_BAD_SCALAR = 5,
    /* code, unused field: a code is unknown, or a field that has to be zero or hex FFFF is
       something else */
    ESTIMATES_BAD_CODE = 6,
    /* column, table, value: a column or table is not above the one before it, a column is not
       below 128, or a sketch holds the same value twice */
    ESTIMATES_BAD_ORDER = 7,
    /* sketch, child, operand, conjunct: a number stands for nothing in the sheet, or an
       expression's child is not smaller than the expression */
    ESTIMATES_NAMES_NO_RECORD = 8,
    /* operand run: a run does not start where the one before it ended, the runs leave part of the
       operands section over or need more, or an And or Or is an operand twice */
    ESTIMATES_BAD_OPERAND_RUN = 9,
    /* sheet's end: bytes stand behind the last section */
    ESTIMATES_BYTES_LEFT_OVER = 10,
    /* expression named by the caller: the sheet has no expression of this number */
    ESTIMATES_NO_SUCH_EXPRESSION = 11,
    /* output: the output that was lent has too few bytes for the answer */
    ESTIMATES_OUTPUT_TOO_SHORT = 12
};

/*
 * The join of the sheet. The answer: a count of 1, the selectivity and the match (26 bytes each)
 * and the residual (8), then the classes, the coverages and the non-null columns, each behind its
 * count. Refusals: 1 to 10, then 12.
 */
uint64_t estimates_join(const uint8_t *sheet, size_t length, uint8_t *out, size_t out_length);

/*
 * An expression of the sheet as a predicate. The answer: one estimate of 26 bytes, which are
 * source, flags (1 lower, 2 upper), value, lower, upper. Refusals: 1 to 10, then 11, then 12.
 */
uint64_t estimates_predicate(const uint8_t *sheet, size_t length, uint16_t expression,
                             uint8_t *out, size_t out_length);

/*
 * The conjuncts of an expression of the sheet. The answer: how many, and their numbers, two bytes
 * each. Refusals: 1 to 10, then 11, then 12.
 */
uint64_t estimates_split(const uint8_t *sheet, size_t length, uint16_t expression, uint8_t *out,
                         size_t out_length);

#ifdef __cplusplus
}
#endif

#endif
