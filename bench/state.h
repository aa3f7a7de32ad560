/* The plain C reader's state: the cursor, the rows, and the table of operators. */
#ifndef PLAIN_STATE_H
#define PLAIN_STATE_H

#include "reader.h"
#include "words.h"

#include <stdbool.h>
#include <stddef.h>
#include <stdint.h>

enum { MOST_TOKENS = 32768, MOST_OPEN = 64 };

/* What a reader gives for a refusal, in place of a reference. */
#define FAILED UINT32_MAX

typedef struct {
    const uint16_t *tokens;
    uint32_t last; /* the place of EOF */
    uint32_t at;   /* the place of the current token */
    uint32_t open; /* calls of parse_expression and parse_statement */
    uint32_t *pool;
    uint32_t rows; /* rows of the pool */
    uint32_t used;
    uint32_t number; /* of the refusal */
    bool strict;     /* whether a closer of a call and an opener of a body must be the right one */
} Reader;

/* The first and the last row of a list. */
typedef struct {
    uint32_t first, last;
} List;

/* ---- the cursor */

static inline uint32_t next_place(const Reader *r) {
    return r->at < r->last ? r->at + 1 : r->last;
}

static inline uint16_t current(const Reader *r) {
    return r->tokens[r->at];
}

static inline uint16_t next(const Reader *r) {
    return r->tokens[next_place(r)];
}

static inline void iterate(Reader *r) {
    r->at = next_place(r);
}

/* Every refusal is at the current token. */
static inline uint32_t refuse(Reader *r, uint32_t number) {
    r->number = number;
    return FAILED;
}

/* Takes the next token if it is `word`. */
static inline bool take(Reader *r, uint16_t word) {
    if (next(r) != word)
        return false;
    iterate(r);
    return true;
}

/* Whether the next token is `word`, where the mode asks for it. */
static inline bool fits(const Reader *r, uint16_t word) {
    return !r->strict || next(r) == word;
}

static inline bool is_terminated(Reader *r) {
    return take(r, T_SEMICOLON);
}

/* ---- the rows */

static inline uint32_t *row_of(const Reader *r, uint32_t reference) {
    return r->pool + (size_t)(reference - 1) * ROW;
}

/* The lowest free row, which ends at the current token; its next is zero as the pool was cleared. */
static inline uint32_t build4(Reader *r, uint32_t kind, uint32_t mark, uint32_t place,
                              uint32_t c0, uint32_t c1, uint32_t c2, uint32_t c3) {
    if (r->used == r->rows)
        return refuse(r, NO_ROW);
    r->used++;
    uint32_t *row = row_of(r, r->used);
    row[KIND] = kind;
    row[MARK] = mark;
    row[PLACE] = place;
    row[CHILD] = c0;
    row[CHILD + 1] = c1;
    row[CHILD + 2] = c2;
    row[CHILD + 3] = c3;
    row[ROW_END] = r->at;
    return r->used;
}

static inline uint32_t build(Reader *r, uint32_t kind, uint32_t mark, uint32_t place,
                             uint32_t c0, uint32_t c1) {
    return build4(r, kind, mark, place, c0, c1, 0, 0);
}

static inline void push(Reader *r, List *list, uint32_t reference) {
    if (list->first == 0)
        list->first = reference;
    else
        row_of(r, list->last)[NEXT] = reference;
    list->last = reference;
}

/* ---- the operators */

/* What an operator does behind an expression. One that goes on with nothing has order 0 here, so it needs no test. */
enum { JOINS = 1, FOLLOWS, CALLS, INDEXES };

typedef struct {
    uint8_t order, role, mark;
} Sign;

static const Sign SIGNS[OPERATORS] = {
    [S_PLUS] = {8, JOINS, 0},    [S_MINUS] = {8, JOINS, 1},    [S_MUL] = {9, JOINS, 2},
    [S_DIV] = {9, JOINS, 3},     [S_MOD] = {9, JOINS, 4},      [S_AND] = {5, JOINS, 5},
    [S_OR] = {4, JOINS, 6},      [S_EQ] = {1, JOINS, 7},       [S_EEQ] = {6, JOINS, 8},
    [S_NE] = {6, JOINS, 9},      [S_GTE] = {7, JOINS, 10},     [S_GT] = {7, JOINS, 11},
    [S_LTE] = {7, JOINS, 12},    [S_LT] = {7, JOINS, 13},      [S_LOR] = {2, JOINS, 14},
    [S_LAND] = {3, JOINS, 15},   [S_PLUS_EQ] = {1, JOINS, 16}, [S_MINUS_EQ] = {1, JOINS, 17},
    [S_MUL_EQ] = {1, JOINS, 18}, [S_DIV_EQ] = {1, JOINS, 19},  [S_AND_EQ] = {1, JOINS, 20},
    [S_OR_EQ] = {1, JOINS, 21},  [S_MOD_EQ] = {1, JOINS, 22},  [S_INCR] = {11, FOLLOWS, 0},
    [S_DECR] = {11, FOLLOWS, 1}, [S_LPAREN] = {12, CALLS, 0},  [S_LBOX] = {13, INDEXES, 0},
};

/* The sign of a token; one that is no operator has the sign of SInvalid, which goes on with nothing. */
static inline const Sign *sign_of(uint16_t word) {
    return &SIGNS[word >> 8 == CLASS_OPERATOR ? word & 0xFF : 0];
}

#endif
