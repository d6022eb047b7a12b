/* What the C tests share: short names for the sizes, block S of document 01, and the comparison of an answer. */
#ifndef CHECK_H
#define CHECK_H

#include <inttypes.h>
#include <stdio.h>
#include <string.h>

#include "zimgurav.h"

enum {
    NUMBERS = ZIMGURAV_ANSWER_NUMBERS,
    RECORD = ZIMGURAV_RECORD_BYTES,
    BLOCK = ZIMGURAV_BLOCK_BYTES,
    LIST = ZIMGURAV_LIST_BYTES,
    CONTACTS = ZIMGURAV_CONTACTS,
    TICKS = ZIMGURAV_ROW_TICKS,
    WORDS = ZIMGURAV_SHEET_WORDS,
    PATTERN = ZIMGURAV_PATTERN_BYTES,
    ORDER = ZIMGURAV_ORDER_BYTES,
    CASE = ZIMGURAV_CASE_BYTES
};

/* Nets 1 and 2 are BUF and NOT of net 0. Each draws current only where it rises, so only one of them does. */
static const uint8_t block_s[3 * RECORD] = {
    1, 0, 0, 0, 0, 0, 0, 0, 0, 0, 0, 0, 0, 0, 0,  0, 0, 0, 15, 0,
    9, 0, 1, 1, 0, 0, 0, 0, 0, 0, 0, 0, 1, 1, 10, 0, 0, 0, 0,  0,
    8, 0, 1, 1, 0, 0, 0, 0, 0, 0, 0, 0, 1, 1, 10, 0, 0, 0, 0,  0,
};

/* Returns how many of the eight numbers are not as expected. */
static int check_numbers(const char *name, const uint64_t answer[NUMBERS], const uint64_t expected[NUMBERS])
{
    int wrong = 0;

    for (int i = 0; i < NUMBERS; i++) {
        if (answer[i] != expected[i]) {
            fprintf(stderr, "%s: answer[%d] is %" PRIu64 ", not %" PRIu64 "\n", name, i, answer[i], expected[i]);
            wrong++;
        }
    }
    return wrong;
}

#endif
