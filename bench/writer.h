/* The plain C writer's entries: the check of a tree in a pool, and the tokens that it is written as. */
#ifndef PLAIN_WRITER_H
#define PLAIN_WRITER_H

#include "reader.h"

/* Checks that the rows which a root reaches in a pool are a tree: 0, or 38 and the place; then zeros. */
void plain_check(const uint32_t *pool, size_t pool_words, size_t root, uint64_t answer[4]);

/* The same, and writes the tree as token words, EOF last, with the place of each token's payload: 0 and the count of
   tokens, or 38 and the place, or 32 where either slice is too short; then zeros. Behind the tokens both slices are zero,
   and after a refusal they are zero whole. */
void plain_write(const uint32_t *pool, size_t pool_words, size_t root, uint16_t *words, size_t words_room,
                 uint32_t *places, size_t places_room, uint64_t answer[4]);

#endif
