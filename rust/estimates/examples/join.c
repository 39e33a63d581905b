/*
 * Reads a sheet on standard input and prints the join's selectivity and match, or the number of
 * the refusal. Status 0: answered, 1: refused, 2: the sheet could not be read.
 *
 *     cc -std=c99 -I ../include join.c ../../../target/staticlib/libestimates.a -o join
 */
#include "estimates.h"

#include <stdio.h>
#include <string.h>

/* Where the two values stand in the answer: behind the count, and each behind source and flags. */
#define SELECTIVITY 4
#define MATCH 30

/* One byte more than a sheet may have, so that a longer one is refused. */
static uint8_t sheet[65536];
static uint8_t out[ESTIMATES_LONGEST_JOIN];

/* The little-endian binary64 at a place of the answer. */
static double figure(size_t at)
{
    uint64_t bits = 0;
    double value;
    int byte;

    for (byte = 7; byte >= 0; byte--) {
        bits = bits << 8 | out[at + (size_t)byte];
    }
    memcpy(&value, &bits, sizeof value);
    return value;
}

int main(void)
{
    size_t length = fread(sheet, 1, sizeof sheet, stdin);
    uint64_t answer;

    if (ferror(stdin)) {
        perror("join: standard input");
        return 2;
    }
    answer = estimates_join(sheet, length, out, sizeof out);
    if (answer >= ESTIMATES_REFUSED) {
        printf("refusal %d\n", (int)(answer - ESTIMATES_REFUSED));
        return 1;
    }
    printf("selectivity %.17g\nmatch %.17g\n", figure(SELECTIVITY), figure(MATCH));
    return 0;
}
