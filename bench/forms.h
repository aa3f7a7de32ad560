/* What the plain C writer knows of each kind of row: its marks, what stands in its slots, and how it is written. */
#ifndef PLAIN_FORMS_H
#define PLAIN_FORMS_H

#include "words.h"

#include <stdbool.h>
#include <stdint.h>

/* What a slot takes: which rows, and how many of them, one unless another number is added. 0 is an unused slot. */
enum {
    EXPRESSIONS = 1, STATEMENTS, BLOCKS, PAIRS, NAMES, PLAIN_IDENTIFIER, ROOTS, WHICH = 8,
    OR_NONE = 1 * WHICH, ANY = 2 * WHICH, SOME = 3 * WHICH
};

/* A piece of a written form. `of` is a slot's number or a flag. */
enum what { END, SIGN, PAYLOAD, BY_MARK, FLAGGED, WHERE_SOME, MEMBERS };

typedef struct {
    uint8_t what, of;
    uint16_t word;
} Piece;

#define S(word) {SIGN, 0, T_##word}                /* a token */
#define P(word) {PAYLOAD, 0, T_##word}             /* a token with the row's payload */
#define M {BY_MARK, 0, 0}                          /* the token that the mark says */
#define F(flag, word) {FLAGGED, flag, T_##word}    /* a token if the mark has the flag */
#define W(slot, word) {WHERE_SOME, slot, T_##word} /* a token if something stands in the slot */
#define C(slot) {MEMBERS, slot, 0}                 /* what stands in the slot */
#define L(slot, word) {MEMBERS, slot, T_##word}    /* the same with a token between */

typedef struct {
    uint8_t marks, slots[CHILDREN];
    Piece pieces[9];
} Form;

static const Form FORMS[KINDS] = {
    [NONE] = {1, {0}, {S(NONE)}},
    [IDENTIFIER] = {1, {0}, {P(IDENTIFIER)}},
    [INT] = {1, {0}, {P(INTEGER)}},
    [FLOAT] = {1, {0}, {P(FLOAT)}},
    [CHAR] = {1, {0}, {P(CHAR)}},
    [STRING] = {1, {0}, {P(STR)}},
    [BOOL] = {2, {0}, {M}},
    [ARRAY] = {1, {EXPRESSIONS + ANY}, {S(LBOX), L(0, COMMA), S(RBOX)}},
    [HASH] = {1, {PAIRS + ANY}, {S(LBRACE), L(0, COMMA), S(RBRACE)}},
    [INDEX] = {1, {EXPRESSIONS, EXPRESSIONS}, {S(LPAREN), C(0), S(LBOX), C(1), S(RBOX), S(RPAREN)}},
    [CALL] = {4,
              {EXPRESSIONS, EXPRESSIONS + ANY},
              {S(LPAREN), F(THREAD, THREAD), F(ASYNC, ASYNC), C(0), S(LPAREN), L(1, COMMA), S(RPAREN), S(RPAREN)}},
    [INFIX] = {23, {EXPRESSIONS, EXPRESSIONS}, {S(LPAREN), C(0), M, C(1), S(RPAREN)}},
    [PREFIX] = {4, {EXPRESSIONS}, {S(LPAREN), M, C(0), S(RPAREN)}},
    [SUFFIX] = {2, {EXPRESSIONS}, {S(LPAREN), C(0), M, S(RPAREN)}},
    [LAMBDA] = {1,
                {EXPRESSIONS + SOME, EXPRESSIONS},
                {S(LPAREN), S(LAMBDA), L(0, COMMA), S(IMPL), C(1), S(RPAREN)}},
    [SHELL] = {2, {EXPRESSIONS}, {S(LPAREN), S(DOLLAR), F(RAW, DOT), C(0), S(RPAREN)}},
    [ATTRIBUTE] = {1, {PLAIN_IDENTIFIER, NAMES + SOME}, {C(0), S(DOT), L(1, DOT)}},
    [NAME] = {1, {0}, {P(IDENTIFIER)}},
    [PAIR] = {1, {EXPRESSIONS, EXPRESSIONS}, {C(0), S(COLON), C(1)}},
    [BREAK] = {1, {0}, {S(BREAK), S(SEMICOLON)}},
    [CONTINUE] = {1, {0}, {S(CONTINUE), S(SEMICOLON)}},
    [VAR] = {1, {EXPRESSIONS + OR_NONE}, {S(VAR), P(IDENTIFIER), W(0, EQ), C(0), S(SEMICOLON)}},
    [CONST] = {1, {EXPRESSIONS}, {S(CONST), P(IDENTIFIER), S(EQ), C(0), S(SEMICOLON)}},
    [RETURN] = {1, {EXPRESSIONS + OR_NONE}, {S(RETURN), C(0), S(SEMICOLON)}},
    [THROW] = {1, {EXPRESSIONS}, {S(THROW), C(0), S(SEMICOLON)}},
    [EXPRESSION] = {1, {EXPRESSIONS}, {C(0), S(SEMICOLON)}},
    [TRY] = {1,
             {BLOCKS, EXPRESSIONS, BLOCKS, BLOCKS + OR_NONE},
             {S(TRY), C(0), S(CATCH), C(1), C(2), W(3, FINALLY), C(3)}},
    [FUNCTION] = {1,
                  {EXPRESSIONS + ANY, BLOCKS},
                  {S(FUNC), P(IDENTIFIER), S(LPAREN), L(0, COMMA), S(RPAREN), C(1)}},
    [FOR] = {1, {EXPRESSIONS, EXPRESSIONS, BLOCKS}, {S(FOR), C(0), S(IN), C(1), S(IMPL), C(2)}},
    [WHILE] = {1, {EXPRESSIONS, BLOCKS}, {S(WHILE), S(LPAREN), C(0), S(RPAREN), C(1)}},
    [ASSERT] = {1, {EXPRESSIONS, EXPRESSIONS}, {S(ASSERT), C(0), S(COMMA), C(1), S(SEMICOLON)}},
    [IF] = {1,
            {EXPRESSIONS, BLOCKS, BLOCKS + OR_NONE},
            {S(IF), S(LPAREN), C(0), S(RPAREN), C(1), W(2, ELSE), C(2)}},
    [FOREACH] = {1,
                 {EXPRESSIONS, EXPRESSIONS, EXPRESSIONS, BLOCKS},
                 {S(FOREACH), C(0), S(COMMA), C(1), S(COMMA), C(2), S(IMPL), C(3)}},
    [BLOCK] = {1, {STATEMENTS + ANY}, {S(LBRACE), C(0), S(RBRACE)}},
};

#undef S
#undef P
#undef M
#undef F
#undef W
#undef C
#undef L

/* The tokens of the kinds that are written by their marks. */
static const uint16_t BOOLS[] = {T_FALSE, T_TRUE};
static const uint16_t PREFIXES[] = {T_INCR, T_DECR, T_EXCL, T_NEG};
static const uint16_t SUFFIXES[] = {T_INCR, T_DECR};
static const uint16_t INFIXES[] = {
    OPERATOR(S_PLUS),     OPERATOR(S_MINUS),  OPERATOR(S_MUL),    OPERATOR(S_DIV),     OPERATOR(S_MOD),
    OPERATOR(S_AND),      OPERATOR(S_OR),     OPERATOR(S_EQ),     OPERATOR(S_EEQ),     OPERATOR(S_NE),
    OPERATOR(S_GTE),      OPERATOR(S_GT),     OPERATOR(S_LTE),    OPERATOR(S_LT),      OPERATOR(S_LOR),
    OPERATOR(S_LAND),     OPERATOR(S_PLUS_EQ), OPERATOR(S_MINUS_EQ), OPERATOR(S_MUL_EQ), OPERATOR(S_DIV_EQ),
    OPERATOR(S_AND_EQ),   OPERATOR(S_OR_EQ),  OPERATOR(S_MOD_EQ),
};

static inline uint16_t word_by_mark(uint32_t kind, uint32_t mark) {
    switch (kind) {
    case BOOL:
        return BOOLS[mark];
    case PREFIX:
        return PREFIXES[mark];
    case SUFFIX:
        return SUFFIXES[mark];
    default:
        return INFIXES[mark];
    }
}

static inline bool is_expression(uint32_t kind) {
    return NONE <= kind && kind <= ATTRIBUTE;
}

/* Whether a slot takes a row of a kind and a mark. */
static inline bool takes(uint8_t slot, uint32_t kind, uint32_t mark) {
    switch (slot % WHICH) {
    case EXPRESSIONS:
        return is_expression(kind);
    case STATEMENTS:
        return BREAK <= kind && kind < BLOCK;
    case BLOCKS:
        return kind == BLOCK;
    case PAIRS:
        return kind == PAIR;
    case NAMES:
        return kind == NAME;
    case PLAIN_IDENTIFIER:
        return kind == IDENTIFIER && mark == 0;
    default:
        return is_expression(kind) || (BREAK <= kind && kind <= BLOCK);
    }
}

#endif
