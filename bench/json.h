/* The plain C writer of trees as JSON: its entry. */
#ifndef PLAIN_JSON_H
#define PLAIN_JSON_H

#include <stddef.h>
#include <stdint.h>

/* Writes the tree at a root of a pool, with the payloads in a token file, as one JSON text: 0 and its length; or 6, 5 or 33
   of the file, 38, 34 or 32, and the place; then zeros. Bytes behind the text are zero, and all after a refusal. */
void plain_json(const uint32_t *pool, size_t pool_words, size_t root, const uint8_t *file, size_t file_length,
                uint8_t *text, size_t room, uint64_t answer[4]);

#endif
