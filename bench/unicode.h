/* The plain C check of text and of characters, and their bytes. */
#ifndef PLAIN_UNICODE_H
#define PLAIN_UNICODE_H

#include <stdbool.h>
#include <stddef.h>
#include <stdint.h>

/* Whether bytes are well-formed UTF-8. */
bool plain_is_text(const uint8_t *bytes, size_t length);

/* Whether a number is that of a character: a scalar value. */
bool plain_is_scalar(uint32_t number);

/* Writes a character in UTF-8, and gives the count of its bytes. */
size_t plain_encode(uint32_t character, uint8_t bytes[4]);

#endif
