/* A pool from a line of a table of the oracle, for tests. */
#ifndef SHIGTHAPUL_POOLED_H
#define SHIGTHAPUL_POOLED_H

#include <stdlib.h>
#include <string.h>

#include "shigthapul.h"

/* Room for more rows than any example has. The pool has a few words left over, which are no row. */
enum { POOLED_ROWS = 16, POOLED_LEFT_OVER = 3, POOLED_DIRT = 7 };

static uint32_t pool[POOLED_ROWS * SHIGTHAPUL_ROW_WORDS + POOLED_LEFT_OVER];
static size_t pool_length;

/* Takes a line with the rows of a pool apart. */
static inline void parse_rows(const char *text) {
    size_t row = 0, word = 0;
    memset(pool, 0, sizeof pool);
    while (*text != '\0') {
        char *rest;
        unsigned long number = strtoul(text, &rest, 10);
        if (rest != text)
            pool[SHIGTHAPUL_ROW_WORDS * row + word++] = (uint32_t)number;
        else if (*rest++ == '/')
            row++, word = 0;
        text = rest;
    }
    pool_length = SHIGTHAPUL_ROW_WORDS * (row + 1) + POOLED_LEFT_OVER;
    for (size_t left = pool_length - POOLED_LEFT_OVER; left < pool_length; left++)
        pool[left] = POOLED_DIRT;
}

#endif
