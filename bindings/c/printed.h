/* A written script as text: its tokens with blanks between, a line for each statement, indented by the blocks around it.
   The text is in the form of tools/tokens, which makes a token file of it. */
#ifndef SHIGTHAPUL_PRINTED_H
#define SHIGTHAPUL_PRINTED_H

#include <inttypes.h>
#include <stdio.h>
#include <stdlib.h>

#include "shigthapul.h"

#define PRINTED_SIGN(name) (SHIGTHAPUL_CLASS_OPERATOR << 8 | SHIGTHAPUL_S##name)
#define PRINTED_KEYWORD(name) (SHIGTHAPUL_CLASS_KEYWORD << 8 | SHIGTHAPUL_K##name)

/* What stands before the next token: nothing, a block's opening or closing brace, a semicolon, or a part of a statement. */
enum printed_edge { PRINTED_START, PRINTED_OPENED, PRINTED_CLOSED, PRINTED_ENDED, PRINTED_INSIDE };

/* How far the printing has come. Brackets are all but the braces of blocks; a block never stands in one. */
struct printed {
    enum printed_edge edge;
    uint16_t before;
    int blocks, brackets;
};

/* Whether a value comes behind a token of a statement, outside of brackets. */
static inline bool printed_takes_value(uint16_t word) {
    switch (word) {
    case PRINTED_SIGN(Comma):
    case PRINTED_SIGN(Eq):
    case PRINTED_KEYWORD(Return):
    case PRINTED_KEYWORD(Throw):
    case PRINTED_KEYWORD(Assert):
    case PRINTED_KEYWORD(For):
    case PRINTED_KEYWORD(In):
    case PRINTED_KEYWORD(ForEach):
    case PRINTED_KEYWORD(Catch):
        return true;
    default:
        return false;
    }
}

/* Whether the next token is the brace of a block, and not of a hash: a hash stands where a value or a statement starts. */
static inline bool printed_is_block(const struct printed *so_far, uint16_t word) {
    if (so_far->brackets > 0)
        return false;
    if (word == PRINTED_SIGN(LBrace))
        return so_far->edge == PRINTED_INSIDE && !printed_takes_value(so_far->before);
    return word == PRINTED_SIGN(RBrace);
}

/* Whether a token goes on with a statement behind the closing brace of a block. */
static inline bool printed_goes_on(uint16_t word) {
    return word == PRINTED_KEYWORD(Else) || word == PRINTED_KEYWORD(Catch) || word == PRINTED_KEYWORD(Finally);
}

/* Goes on to the next token: prints what comes before it, a blank or a new line, and takes it into account. */
static inline void printed_step(struct printed *so_far, uint16_t word) {
    bool block = printed_is_block(so_far, word), closes = block && word == PRINTED_SIGN(RBrace);
    bool same_line = so_far->edge == PRINTED_INSIDE || (so_far->edge == PRINTED_CLOSED && printed_goes_on(word));
    so_far->blocks -= closes;
    if (so_far->edge != PRINTED_START && same_line && !closes)
        putchar(' ');
    else if (so_far->edge != PRINTED_START)
        printf("\n%*s", 4 * so_far->blocks, "");
    so_far->edge = closes ? PRINTED_CLOSED : block ? PRINTED_OPENED : PRINTED_INSIDE;
    so_far->blocks += block && !closes;
    so_far->before = word;
    if (word == PRINTED_SIGN(SemiColon))
        so_far->edge = PRINTED_ENDED;
    if (word == PRINTED_SIGN(LParen) || word == PRINTED_SIGN(LBox) || (word == PRINTED_SIGN(LBrace) && !block))
        so_far->brackets++;
    if (word == PRINTED_SIGN(Rparen) || word == PRINTED_SIGN(RBox) || (word == PRINTED_SIGN(RBrace) && !block))
        so_far->brackets--;
}

/* Prints bytes, those that are no plain letters or signs escaped, and the quote if there is one. */
static inline void print_bytes(struct shigthapul_bytes bytes, char quote) {
    for (size_t at = 0; at < bytes.length; at++) {
        unsigned char byte = bytes.start[at];
        if (byte == '\\' || (quote != '\0' && byte == (unsigned char)quote))
            printf("\\%c", byte);
        else
            printf(byte >= ' ' && byte <= '~' ? "%c" : "\\x%02X", byte);
    }
}

/* The number that some bytes are, the high one first. */
static inline uint64_t number_of(struct shigthapul_bytes bytes) {
    uint64_t number = 0;
    for (size_t at = 0; at < bytes.length; at++)
        number = number << 8 | bytes.start[at];
    return number;
}

/* Prints a float by the fewest digits that are read as the same again. */
static inline void print_float(uint64_t bits) {
    double value;
    char text[40];
    int digits = 0;
    memcpy(&value, &bits, sizeof value);
    do
        snprintf(text, sizeof text, "%.*g", ++digits, value);
    while (digits < 17 && strtod(text, NULL) != value);
    int whole = (int)strcspn(text, ".en");
    bool has_point = text[whole] == '.' || text[whole] == 'n';
    printf("%.*s%s%s", whole, text, has_point ? "" : ".0", text + whole);
}

/* Prints the payload of a token of a class. */
static inline void print_payload(unsigned token_class, struct shigthapul_bytes payload) {
    switch (token_class) {
    case SHIGTHAPUL_CLASS_INTEGER:
        printf("%" PRId64, (int64_t)number_of(payload));
        break;
    case SHIGTHAPUL_CLASS_FLOAT:
        print_float(number_of(payload));
        break;
    case SHIGTHAPUL_CLASS_CHAR:
        printf("'\\u{%" PRIX32 "}'", shigthapul_char_of(payload));
        break;
    case SHIGTHAPUL_CLASS_STR:
        putchar('"');
        print_bytes(payload, '"');
        putchar('"');
        break;
    default:
        print_bytes(payload, '\0');
    }
}

/* Prints a script that was written, without its EOF; `payload_at` gives the payload of a place. */
static inline void print_script(const uint16_t *words, const uint32_t *places, size_t count,
                                struct shigthapul_bytes (*payload_at)(size_t place)) {
    struct printed so_far = {PRINTED_START, 0, 0, 0};
    for (size_t at = 0; at + 1 < count; at++) {
        unsigned token_class = words[at] >> 8, code = words[at] & 0xFF;
        printed_step(&so_far, words[at]);
        if (shigthapul_has_payload(words[at]))
            print_payload(token_class, payload_at(places[at]));
        else
            fputs(token_class == SHIGTHAPUL_CLASS_KEYWORD ? shigthapul_keyword_text(code) : shigthapul_symbol_text(code),
                  stdout);
    }
    putchar('\n');
}

#endif
