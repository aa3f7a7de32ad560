/* Reading the oracle's records on standard input, for the programs that compare the plain C functions with them. */
#ifndef PLAIN_RECORDED_H
#define PLAIN_RECORDED_H

#include <stdbool.h>
#include <stddef.h>
#include <stdint.h>

/* All of these stop the program where there is no memory, or where the stream ends in the middle of a record. */

/* Memory for so many bytes, to be freed. */
void *room_for(size_t bytes);

/* Reads words of so many bytes each, low byte first; false if the stream ends before the first. */
bool get_words(uint32_t *words, size_t count, size_t size);

/* The next words, to be freed. */
uint32_t *read_words(size_t count, size_t size);

/* The next bytes, to be freed. */
uint8_t *read_bytes(size_t count);

/* Whether an answer is a number, a value and zeros. */
bool is_answer(const uint64_t answer[4], uint64_t number, uint64_t value);

#endif
