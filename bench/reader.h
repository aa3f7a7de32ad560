/* The plain C reader's entries. */
#ifndef PLAIN_READER_H
#define PLAIN_READER_H

#include "../bindings/c/shigthapul.h"

#include <stdbool.h>
#include <stddef.h>
#include <stdint.h>

/* The words of a row, and the most rows of a pool. */
enum { ROW = SHIGTHAPUL_ROW_WORDS, MOST_ROWS = SHIGTHAPUL_MOST_ROWS };

/* Each reads token words into a pool of 32-bit words, ROW to a row, in strict mode or in the old one. The answer is 0,
   the root's reference, the rows used and the place of the current token; or a refusal's number, its place, 0 and 0, and
   the pool is then zero. */
void plain_one_expression(const uint16_t *tokens, size_t count, uint32_t *pool, size_t words,
                          size_t start, bool strict, uint64_t answer[4]);
void plain_one_statement(const uint16_t *tokens, size_t count, uint32_t *pool, size_t words,
                         size_t start, bool strict, uint64_t answer[4]);
void plain_whole_script(const uint16_t *tokens, size_t count, uint32_t *pool, size_t words,
                        bool strict, uint64_t answer[4]);

#endif
