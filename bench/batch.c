/* Reads the oracle's batch of cases on standard input and writes the plain C reader's answers to standard output. */
#include "reader.h"

#include <stdbool.h>
#include <stdio.h>
#include <stdlib.h>
#include <string.h>

/* Words behind the last possible row are only zeroed, so a few of them are enough. A case's head gives its tokens in a
   16-bit word. */
enum { MOST_WORDS = (MOST_ROWS + 1) * ROW, MOST_TOKENS = UINT16_MAX };

/* The entries in the old mode, 0 to 2; behind them are the same in strict mode. */
enum { ENTRIES = 3 };

static uint16_t tokens[MOST_TOKENS];
static uint32_t pool[MOST_WORDS];

static void fail(const char *what) {
    fprintf(stderr, "batch: %s\n", what);
    exit(2);
}

/* Reads 16-bit words, low byte first; false if the stream ends before the first. */
static bool get_words(uint16_t *words, size_t count) {
    static unsigned char bytes[2 * MOST_TOKENS];
    size_t got = fread(bytes, 1, 2 * count, stdin);
    if (got == 0 && count > 0)
        return false;
    if (got < 2 * count)
        fail("the stream ends in the middle of a case");
    for (size_t i = 0; i < count; i++)
        words[i] = (uint16_t)(bytes[2 * i] | bytes[2 * i + 1] << 8);
    return true;
}

static void put_word(uint32_t word) {
    unsigned char bytes[4] = {(unsigned char)word, (unsigned char)(word >> 8),
                              (unsigned char)(word >> 16), (unsigned char)(word >> 24)};
    if (fwrite(bytes, 1, 4, stdout) != 4)
        fail("can't write");
}

static bool is_clean(size_t from, size_t to) {
    for (size_t i = from; i < to; i++)
        if (pool[i] != 0)
            return false;
    return true;
}

static void put_answer(const uint64_t answer[4], size_t length) {
    size_t used = answer[0] == 0 ? answer[2] * ROW : 0;
    for (size_t i = 0; i < 4; i++)
        put_word((uint32_t)answer[i]);
    put_word(is_clean(used, length));
    for (size_t i = 0; i < used; i++)
        put_word(pool[i]);
}

static void read_case(const uint16_t head[5]) {
    size_t asked = head[2] | (size_t)head[3] << 16;
    size_t length = asked < MOST_WORDS ? asked : MOST_WORDS;
    uint64_t answer[4];
    bool strict = head[0] >= ENTRIES;
    memset(pool, 0xFF, length * sizeof *pool);
    switch (strict ? head[0] - ENTRIES : head[0]) {
    case 0: plain_one_expression(tokens, head[4], pool, length, head[1], strict, answer); break;
    case 1: plain_one_statement(tokens, head[4], pool, length, head[1], strict, answer); break;
    case 2: plain_whole_script(tokens, head[4], pool, length, strict, answer); break;
    default: fail("a case has an entry above 5");
    }
    put_answer(answer, length);
}

int main(void) {
    uint16_t head[5];
    while (get_words(head, 5)) {
        if (head[4] > 0 && !get_words(tokens, head[4]))
            fail("the stream ends in the middle of a case");
        read_case(head);
    }
    return fflush(stdout) == 0 ? 0 : 2;
}
