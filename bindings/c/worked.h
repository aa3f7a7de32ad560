/* A worked example of the oracle's tables for tests: an entry and tokens in the text form, read by the C functions. */
#ifndef SHIGTHAPUL_WORKED_H
#define SHIGTHAPUL_WORKED_H

#include <stdio.h>

#include "counted.h"
#include "spelled.h"

enum { WORKED_TOKENS = 32, WORKED_POOL = SHIGTHAPUL_TOKEN_WORDS * WORKED_TOKENS, WORKED_DIRT = 7 };

/* The example: its line, the entry, the words of the pool, and the tokens. */
static struct {
    char text[200], entry;
    size_t pool, count;
    uint16_t tokens[WORKED_TOKENS];
} worked;

/* Counts a check of the example, and says what fails. */
static inline void check(bool holds, const char *what) {
    if (!counted(holds))
        printf("%s: %s", what, worked.text);
}

/* Takes an example's line apart: the entry, behind a stroke its rows where they are few, and the tokens, EOF last. */
static inline void worked_parse(const char *text) {
    char words[sizeof worked.text];
    strcpy(words, text);
    strcpy(worked.text, text);
    char *head = strtok(words, " \n"), *rows = strchr(head, '/'), *token;
    worked.entry = *head;
    worked.count = 0;
    while ((token = strtok(NULL, " \n")) != NULL && worked.count < WORKED_TOKENS - 1)
        worked.tokens[worked.count++] = spelled_token(token);
    worked.tokens[worked.count++] = shigthapul_word(SHIGTHAPUL_CLASS_EOF, 0);
    worked.pool = rows == NULL ? WORKED_POOL : SHIGTHAPUL_ROW_WORDS * strtoul(rows + 1, NULL, 10);
}

/* Reads the example in a mode, into the front of a pool that is full of other words at first. */
static inline struct shigthapul_answer worked_read(uint32_t pool[WORKED_POOL], size_t length, bool strict) {
    struct shigthapul_answer answer;
    const uint16_t *tokens = worked.tokens;
    uint64_t *words = answer.words;
    memset(pool, WORKED_DIRT, WORKED_POOL * sizeof *pool);
    if (worked.entry == 'X')
        shigthapul_one_expression(tokens, worked.count, pool, length, 0, strict, words, SHIGTHAPUL_ANSWER_WORDS);
    else if (worked.entry == 'S')
        shigthapul_one_statement(tokens, worked.count, pool, length, 0, strict, words, SHIGTHAPUL_ANSWER_WORDS);
    else
        shigthapul_whole_script(tokens, worked.count, pool, length, strict, words, SHIGTHAPUL_ANSWER_WORDS);
    return answer;
}

/* The next line of a table that is no comment; the buffer is as long as that of an example's text. */
static inline bool worked_line(char line[sizeof worked.text]) {
    while (fgets(line, sizeof worked.text, stdin) != NULL)
        if (*line != '#' && *line != '\n')
            return true;
    return false;
}

#endif
