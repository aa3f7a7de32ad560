/* Inputs that do not nest: arrays of the greatest length, bad arrays, files and payloads. */
#ifndef STACK_INPUTS_H
#define STACK_INPUTS_H

#include "measure.h"

/* Lends a flat form with so many parts. */
static void lend_flat(const struct flat *flat, size_t parts) {
    lent.tokens = lent.start = 0;
    put_words(flat->head);
    while (parts-- > 0)
        put_words(flat->part);
    put_words(flat->tail);
    put_end();
    lend_pool(true);
}

/* How many parts of a flat form fill the longest array. */
static size_t most_parts(const struct flat *flat) {
    size_t other = words_of(flat->head)->count + words_of(flat->tail)->count + 1;
    return (MOST_TOKENS - other) / words_of(flat->part)->count;
}

/* A flat form of three parts and one of the greatest length take the same. */
static size_t flat_input(enum function function, const struct flat *flat) {
    char name[80];
    snprintf(name, sizeof name, "%s %s .. %s", flat->head, flat->part, flat->tail);
    lend_flat(flat, 3);
    size_t few = expect(function, 0, name, ", three times");
    lend_flat(flat, most_parts(flat));
    size_t many = expect(function, 0, name, ", to the greatest length");
    if (few != many)
        fault(function, "takes more stack if it is longer", name);
    return larger(few, many);
}

static size_t flat_inputs(enum function function) {
    size_t most = 0;
    for (size_t flat = 0; flat < COUNT(FLATS); flat++)
        if ((int)FLATS[flat].reach <= (int)function)
            most = larger(most, flat_input(function, &FLATS[flat]));
    return most;
}

/* Arrays that are refused at once: too long, not ended, and a start outside. */
static void bad_arrays(enum function function) {
    lend_flat(&FLATS[0], most_parts(&FLATS[0]) + 1);
    expect(function, SHIGTHAPUL_REFUSED_BAD_ARRAY, "an array too long", "");
    lend_flat(&FLATS[0], most_parts(&FLATS[0]));
    lent.tokens--;
    expect(function, SHIGTHAPUL_REFUSED_BAD_ARRAY, "an array without EOF", "");
    lent.tokens++;
    lent.start = lent.tokens;
    if (function != WHOLE_SCRIPT)
        expect(function, SHIGTHAPUL_REFUSED_BAD_START, "a start outside", "");
}

/* Some bytes that are repeated. */
struct bytes {
    const char *name;
    uint8_t bytes[16];
    size_t count;
};

static const struct bytes FIELDS[] = {
    {"Empty", {1, 0, 0}, 3},
    {"a Keyword", {9, 0, 1, 5}, 4},
    {"an Operator", {8, 0, 1, 1}, 4},
    {"an Identifier", {7, 0, 2, 'a', 'b'}, 5},
    {"a Char", {6, 0, 4, 0, 0, 0, 'a'}, 7},
    {"an Integer", {3, 0, 8, 0, 0, 0, 0, 0, 0, 0, 1}, 11},
};

static const struct bytes CHARACTERS[] = {
    {"characters of one byte", {'a'}, 1},
    {"characters of two bytes", {0xC3, 0xA9}, 2},
    {"characters of three bytes", {0xE2, 0x82, 0xAC}, 3},
    {"characters of four bytes", {0xF0, 0x9F, 0x98, 0x80}, 4},
};

static const struct bytes PAYLOADS[] = {
    {"backslashes", {'\\'}, 1},
    {"letters", {'a'}, 1},
    {"pairs of backslashes and letters", {'\\', '\\', 'a'}, 3},
    {"single backslashes and letters", {'\\', 'a'}, 2},
};

/* Lends bytes over and over, as many whole times as a length has room for. */
static void lend_bytes(const struct bytes *bytes, size_t length) {
    lent.bytes = length - length % bytes->count;
    for (size_t at = 0; at < lent.bytes; at++)
        lent_bytes[at] = bytes->bytes[at % bytes->count];
}

/* Files of the greatest length, cut short, too long, and with no room for their words. */
static void files(void) {
    for (size_t field = 0; field < COUNT(FIELDS); field++) {
        const struct bytes *bytes = &FIELDS[field];
        lend_bytes(bytes, MOST_BYTES);
        lent.tokens = MOST_BYTES / 3;
        expect(READ_FILE, 0, bytes->name, ", over and over");
        lent.tokens = lent.bytes / bytes->count - 1;
        expect(READ_FILE, SHIGTHAPUL_REFUSED_NO_ROOM, bytes->name, ", with no room for the last");
        lent.tokens = MOST_BYTES / 3;
        lent.bytes--;
        expect(READ_FILE, SHIGTHAPUL_REFUSED_BAD_FIELD, bytes->name, ", the last cut short");
        lent.bytes = MOST_BYTES + 1;
        expect(READ_FILE, SHIGTHAPUL_REFUSED_TOO_LONG, bytes->name, ", too long a file");
    }
}

/* Lends a file of one string that has so many bytes of a character over and over. */
static void lend_text(const struct bytes *character, size_t length) {
    lent_bytes[0] = SHIGTHAPUL_CLASS_STR;
    lent_bytes[1] = (uint8_t)(length / 256);
    lent_bytes[2] = (uint8_t)(length % 256);
    for (size_t at = 0; at < length; at++)
        lent_bytes[SHIGTHAPUL_FIELD_HEAD + at] = character->bytes[at % character->count];
    lent.bytes = SHIGTHAPUL_FIELD_HEAD + length;
}

/* Files of one text of the greatest length, whole and with its last character cut short. */
static void texts(void) {
    for (size_t at = 0; at < COUNT(CHARACTERS); at++) {
        const struct bytes *character = &CHARACTERS[at];
        size_t most = MOST_BYTES - SHIGTHAPUL_FIELD_HEAD, whole = most - most % character->count;
        lent.tokens = 1;
        lend_text(character, whole);
        expect(READ_FILE, 0, character->name, ", one long text");
        lend_text(character, whole - 1);
        expect(READ_FILE, character->count > 1 ? SHIGTHAPUL_REFUSED_NOT_UNICODE : 0, character->name,
               ", the last cut short");
    }
}

/* Payloads with a buffer as long as they are, and with a short one. */
static void payloads(void) {
    for (size_t payload = 0; payload < COUNT(PAYLOADS); payload++) {
        const struct bytes *bytes = &PAYLOADS[payload];
        bool has_pair = bytes->bytes[0] == '\\' && bytes->bytes[1 % bytes->count] == '\\';
        for (size_t length = 6; length <= MOST_PAYLOAD; length += MOST_PAYLOAD - 6) {
            lend_bytes(bytes, length);
            lent.work = lent.bytes;
            expect(FOLD, 0, bytes->name, "");
            expect(TEXT, 0, bytes->name, "");
            lent.work = 1;
            expect(FOLD, has_pair ? SHIGTHAPUL_REFUSED_NO_ROOM : 0, bytes->name, ", a short buffer");
            expect(TEXT, 0, bytes->name, ", a short buffer");
        }
    }
}

#endif
