/* The plain C index of a token file's fields. */
#ifndef PLAIN_FIELDS_H
#define PLAIN_FIELDS_H

#include "words.h"

#include <stddef.h>
#include <stdint.h>

/* A field has at least a tag and a length of two bytes. */
enum { MOST_BYTES = 60000, FIELD_HEAD = 3, MOST_FIELDS = MOST_BYTES / FIELD_HEAD };

/* Where the fields of a file begin. */
typedef struct {
    const uint8_t *file;
    uint32_t count;
    uint16_t starts[MOST_FIELDS];
} Fields;

/* A field's payload; that of a class with a number as its payload has the high byte first. */
typedef struct {
    const uint8_t *bytes;
    size_t length;
} Payload;

/* Checks a file and indexes its fields: 0, or the number of its refusal, and then the place too. */
uint32_t plain_index(const uint8_t *file, size_t length, Fields *fields, size_t *place);

/* The number that bytes are, the high one first. */
static inline uint64_t number_of(Payload payload) {
    uint64_t number = 0;
    for (size_t at = 0; at < payload.length; at++)
        number = number << 8 | payload.bytes[at];
    return number;
}

static inline size_t length_at(const uint8_t *field) {
    return (size_t)field[1] << 8 | field[2];
}

/* The class of a field by its number; CLASSES if there is no such field. */
static inline uint32_t class_at(const Fields *fields, uint32_t place) {
    return place < fields->count ? fields->file[fields->starts[place]] : CLASSES;
}

/* The payload of a field that is there. */
static inline Payload payload_at(const Fields *fields, uint32_t place) {
    const uint8_t *field = fields->file + fields->starts[place];
    return (Payload){field + FIELD_HEAD, length_at(field)};
}

#endif
