/* A plain index of a token file's fields in C, the measure of the bench. */
#include "fields.h"
#include "unicode.h"

/* How long the payload of a class is. */
enum { ANY_LENGTH = 255 };

static const uint8_t LENGTHS[CLASSES] = {
    [CLASS_INTEGER] = 8,  [CLASS_STR] = ANY_LENGTH, [CLASS_FLOAT] = 8,   [CLASS_CHAR] = 4, [CLASS_IDENTIFIER] = ANY_LENGTH,
    [CLASS_OPERATOR] = 1, [CLASS_KEYWORD] = 1,      [CLASS_UNKNOWN] = ANY_LENGTH,
};

/* What is wrong with the first field of some bytes: the number of the refusal, or 0. */
static uint32_t wrong_with(const uint8_t *field, size_t left) {
    if (left < FIELD_HEAD || field[0] >= CLASSES)
        return BAD_FIELD;
    uint8_t right = LENGTHS[field[0]];
    Payload payload = {field + FIELD_HEAD, length_at(field)};
    if ((right != ANY_LENGTH && payload.length != right) || payload.length > left - FIELD_HEAD)
        return BAD_FIELD;
    if (right == ANY_LENGTH && !plain_is_text(payload.bytes, payload.length))
        return NOT_UNICODE;
    if (field[0] == CLASS_CHAR && !plain_is_scalar((uint32_t)number_of(payload)))
        return NOT_UNICODE;
    return 0;
}

uint32_t plain_index(const uint8_t *file, size_t length, Fields *fields, size_t *place) {
    fields->file = file;
    fields->count = 0;
    *place = 0;
    if (length > MOST_BYTES)
        return TOO_LONG;
    for (size_t at = 0; at < length; at += FIELD_HEAD + length_at(file + at)) {
        uint32_t wrong = wrong_with(file + at, length - at);
        if (wrong != 0) {
            *place = fields->count;
            return wrong;
        }
        fields->starts[fields->count++] = (uint16_t)at;
    }
    return 0;
}
