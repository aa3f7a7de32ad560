/* Reads a token file on standard input, and prints for each token of its script the smallest formula around it: a line with
   the token's place, and the formula's row in words with its first and its last token.

   hover            reads in the old mode
   hover --strict   reads in strict mode

   A formula is a row of an expression. Its last token is the row's end. Its first token is the row's own, or that of the
   part to its left, with the brackets around that part. The brackets around the formula itself are not part of it, as its
   row knows only that it is grouped; nor are the words thread and async before a call.

   The status is 0 where the script is accepted, 1 where it is refused, 2 where the command is wrong. */
#include <inttypes.h>
#include <stdio.h>
#include <string.h>

#include "shigthapul.h"
#include "worded.h"

/* The longest file and a byte more, its tokens, and the rows that are enough for any script of so many. */
enum { BYTES = 60001, TOKENS = 20000, POOL = SHIGTHAPUL_TOKEN_WORDS * TOKENS, ROWS = POOL / SHIGTHAPUL_ROW_WORDS };

static uint8_t file[BYTES];
static uint16_t tokens[TOKENS];
static uint32_t pool[POOL];

/* By reference, the first token of a row; by place, the reference of the smallest formula around a token, 0 for none. */
static uint32_t first[ROWS + 1], around[TOKENS];

/* Reads the file's fields, and the script that they are; `count` becomes the number of its tokens. */
static struct shigthapul_answer read_script(bool strict, size_t *count) {
    struct shigthapul_answer answer;
    size_t length = fread(file, 1, BYTES, stdin);
    shigthapul_read_file(file, length, tokens, TOKENS, answer.words, SHIGTHAPUL_ANSWER_WORDS);
    *count = shigthapul_count(&answer);
    if (shigthapul_is_accepted(&answer))
        shigthapul_whole_script(tokens, *count, pool, POOL, strict, answer.words, SHIGTHAPUL_ANSWER_WORDS);
    return answer;
}

static bool is_formula(uint32_t kind) {
    return kind >= SHIGTHAPUL_KIND_NONE && kind <= SHIGTHAPUL_KIND_ATTRIBUTE;
}

/* Whether a row has a part to the left of its own token: an index, a call, an infix or a suffix form. */
static bool has_left(uint32_t kind) {
    return kind == SHIGTHAPUL_KIND_INDEX || kind == SHIGTHAPUL_KIND_CALL || kind == SHIGTHAPUL_KIND_INFIX
           || kind == SHIGTHAPUL_KIND_SUFFIX;
}

static bool is_sign(uint32_t place, unsigned symbol) {
    return tokens[place] == shigthapul_word(SHIGTHAPUL_CLASS_OPERATOR, symbol);
}

/* The first token of a part with the brackets around it, from its own first token: as many open before it as close behind
   its end, up to the token of the row that it is a part of. */
static uint32_t opening(uint32_t at, uint32_t end, uint32_t sign) {
    uint32_t open = 0;
    for (uint32_t place = end + 1; place < sign; place++)
        open += is_sign(place, SHIGTHAPUL_SRparen);
    while (open > 0 && at > 0)
        open -= is_sign(--at, SHIGTHAPUL_SLParen);
    return at;
}

/* Finds the first token of each row. Children stand before their parents, so theirs are known. No token is looked at twice as
   a bracket that closes, or twice as one that opens. */
static void find_firsts(uint32_t rows) {
    for (uint32_t reference = 1; reference <= rows; reference++) {
        struct shigthapul_row row = shigthapul_row_at(pool, reference);
        first[reference] = row.place;
        if (!has_left(row.kind))
            continue;
        uint32_t left = row.children[0];
        first[reference] = opening(first[left], shigthapul_row_at(pool, left).end, row.place);
    }
}

/* Finds the smallest formula around each token: the lowest row that is a formula and has the token between its first and
   its last one. Ends never fall from row to row. So the tokens up to a row's end that no formula has yet can wait on a
   stack, the last one on top; the row takes off those from its first token on. Each is put there once. */
static void find_formulas(uint32_t rows) {
    static uint32_t waiting[TOKENS];
    size_t count = 0;
    uint32_t next = 0;
    for (uint32_t reference = 1; reference <= rows; reference++) {
        struct shigthapul_row row = shigthapul_row_at(pool, reference);
        if (!is_formula(row.kind))
            continue;
        for (; next <= row.end; next++)
            waiting[count++] = next;
        while (count > 0 && waiting[count - 1] >= first[reference])
            around[waiting[--count]] = reference;
    }
}

/* Prints the line of a token. */
static void print_line(size_t place) {
    printf("%zu: ", place);
    if (around[place] == 0) {
        puts("no formula");
        return;
    }
    struct shigthapul_row row = shigthapul_row_at(pool, around[place]);
    print_row(&row);
    printf(", from %" PRIu32 " to %" PRIu32 "\n", first[around[place]], row.end);
}

int main(int words, char **arguments) {
    bool strict = words == 2 && strcmp(arguments[1], "--strict") == 0;
    if (words > 1 && !strict) {
        fputs("usage: hover [--strict] < FILE.tok\n", stderr);
        return 2;
    }
    size_t count;
    struct shigthapul_answer answer = read_script(strict, &count);
    if (!shigthapul_is_accepted(&answer)) {
        uint32_t refusal = shigthapul_refusal(&answer);
        printf("refused %" PRIu32 " at %zu: %s\n", refusal, shigthapul_place(&answer), shigthapul_refusal_text(refusal));
        return 1;
    }
    uint32_t rows = (uint32_t)shigthapul_rows(&answer);
    find_firsts(rows);
    find_formulas(rows);
    for (size_t place = 0; place < count; place++)
        print_line(place);
    return 0;
}
