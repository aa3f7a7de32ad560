/* JSON's numbers and strings, put into a lent slice in plain C. */
#ifndef PLAIN_JSON_TEXT_H
#define PLAIN_JSON_TEXT_H

#include <stdbool.h>
#include <stddef.h>
#include <stdint.h>
#include <string.h>

/* A text under way, and the end of its slice. */
typedef struct {
    uint8_t *at, *end;
    bool stopped;
} Text;

/* Nothing fits any more. */
static inline void stop(Text *text) {
    text->end = text->at;
    text->stopped = true;
}

/* Puts bytes that fit; others stop the text. */
static inline void put(Text *text, const void *bytes, size_t count) {
    if ((size_t)(text->end - text->at) < count) {
        stop(text);
        return;
    }
    memcpy(text->at, bytes, count);
    text->at += count;
}

#define PUT(text, literal) put(text, literal, sizeof literal - 1)

/* ---- numbers */

static inline void put_number(Text *text, uint64_t number) {
    uint8_t digits[20];
    size_t first = sizeof digits;
    do {
        digits[--first] = (uint8_t)('0' + number % 10);
        number /= 10;
    } while (number != 0);
    put(text, digits + first, sizeof digits - first);
}

/* Puts 64 bits as a signed number. */
static inline void put_signed(Text *text, uint64_t bits) {
    bool negative = bits >> 63 != 0;
    if (negative)
        PUT(text, "-");
    put_number(text, negative ? -bits : bits);
}

/* ---- strings */

static const char DIGITS[] = "0123456789ABCDEF";

/* Puts the digits of eight bytes or fewer as a string. */
static inline void put_digits(Text *text, const uint8_t *bytes, size_t count) {
    uint8_t string[18];
    size_t at = 0;
    string[at++] = '"';
    for (size_t i = 0; i < count; i++) {
        string[at++] = (uint8_t)DIGITS[bytes[i] >> 4];
        string[at++] = (uint8_t)DIGITS[bytes[i] & 15];
    }
    string[at++] = '"';
    put(text, string, at);
}

/* Whether a byte stands in a string as it is. */
static inline bool is_bare(uint8_t byte) {
    return byte >= 0x20 && byte != '"' && byte != '\\';
}

static inline void put_escape(Text *text, uint8_t byte) {
    static const uint8_t SHORT[] = {['\b'] = 'b', ['\t'] = 't', ['\n'] = 'n',  ['\f'] = 'f',
                                    ['\r'] = 'r', ['"'] = '"',  ['\\'] = '\\'};
    uint8_t escape[] = {'\\', 'u', '0', '0', (uint8_t)DIGITS[byte >> 4], (uint8_t)DIGITS[byte & 15]};
    if (SHORT[byte] == 0) {
        put(text, escape, 6);
    } else {
        escape[1] = SHORT[byte];
        put(text, escape, 2);
    }
}

/* Puts bytes as a string; where it is folded, each pair of backslashes counts as one. */
static inline void put_string(Text *text, const uint8_t *bytes, size_t count, bool folded) {
    const uint8_t *at = bytes, *end = bytes + count;
    PUT(text, "\"");
    for (;;) {
        const uint8_t *from = at;
        while (at < end && is_bare(*at))
            at++;
        put(text, from, (size_t)(at - from));
        if (at == end)
            break;
        put_escape(text, *at);
        bool pair = at[0] == '\\' && end - at > 1 && at[1] == '\\';
        at += folded && pair ? 2 : 1;
    }
    PUT(text, "\"");
}

#endif
