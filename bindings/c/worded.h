/* A row in words, for the examples: kind, operator or flags, place. */
#ifndef SHIGTHAPUL_WORDED_H
#define SHIGTHAPUL_WORDED_H

#include <inttypes.h>
#include <stdio.h>

#include "shigthapul.h"

/* The operator of a row or the word of a bool, empty for other kinds. */
static inline const char *sign_of(const struct shigthapul_row *row) {
    uint32_t mark = row->mark & ~(uint32_t)SHIGTHAPUL_GROUPED;
    switch (row->kind) {
    case SHIGTHAPUL_KIND_INFIX:
        return shigthapul_infix_text(mark);
    case SHIGTHAPUL_KIND_PREFIX:
        return shigthapul_prefix_text(mark);
    case SHIGTHAPUL_KIND_SUFFIX:
        return shigthapul_suffix_text(mark);
    case SHIGTHAPUL_KIND_BOOL:
        return mark == SHIGTHAPUL_TRUE ? "true" : "false";
    default:
        return "";
    }
}

/* Prints a word behind a blank, where there is something to say. */
static inline void print_word(bool said, const char *word) {
    if (said && *word != '\0')
        printf(" %s", word);
}

/* Prints a row in words. */
static inline void print_row(const struct shigthapul_row *row) {
    fputs(shigthapul_kind_text(row->kind), stdout);
    print_word(true, sign_of(row));
    print_word(shigthapul_has(row, SHIGTHAPUL_KIND_CALL, SHIGTHAPUL_THREAD), "thread");
    print_word(shigthapul_has(row, SHIGTHAPUL_KIND_CALL, SHIGTHAPUL_ASYNC), "async");
    print_word(shigthapul_has(row, SHIGTHAPUL_KIND_SHELL, SHIGTHAPUL_RAW), "raw");
    print_word((row->mark & SHIGTHAPUL_GROUPED) != 0, "grouped");
    printf(" at %" PRIu32, row->place);
}

#endif
