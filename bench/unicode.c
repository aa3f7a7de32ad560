/* UTF-8 in plain C, the measure of the bench: the check straight by Table 3-7 of the Unicode Standard, and characters. */
#include "unicode.h"

/* Whether a byte is one behind the first of a sequence. */
static inline bool is_tail(uint8_t byte) {
    return (byte & 0xC0) == 0x80;
}

bool plain_is_text(const uint8_t *bytes, size_t length) {
    const uint8_t *at = bytes, *end = bytes + length;
    while (at < end) {
        uint8_t lead = *at;
        if (lead < 0x80) {
            at++;
        } else if (lead < 0xC2) {
            return false;
        } else if (lead < 0xE0) {
            if (end - at < 2 || !is_tail(at[1]))
                return false;
            at += 2;
        } else if (lead < 0xF0) {
            if (end - at < 3 || !is_tail(at[1]) || !is_tail(at[2]))
                return false;
            if ((lead == 0xE0 && at[1] < 0xA0) || (lead == 0xED && at[1] > 0x9F))
                return false;
            at += 3;
        } else if (lead < 0xF5) {
            if (end - at < 4 || !is_tail(at[1]) || !is_tail(at[2]) || !is_tail(at[3]))
                return false;
            if ((lead == 0xF0 && at[1] < 0x90) || (lead == 0xF4 && at[1] > 0x8F))
                return false;
            at += 4;
        } else {
            return false;
        }
    }
    return true;
}

bool plain_is_scalar(uint32_t number) {
    return number < 0xD800 || (number >= 0xE000 && number < 0x110000);
}

size_t plain_encode(uint32_t character, uint8_t bytes[4]) {
    static const uint8_t LEADS[] = {0, 0, 0xC0, 0xE0, 0xF0};
    size_t count = character < 0x80 ? 1 : character < 0x800 ? 2 : character < 0x10000 ? 3 : 4;
    for (size_t at = count - 1; at > 0; at--) {
        bytes[at] = (uint8_t)(0x80 | (character & 0x3F));
        character >>= 6;
    }
    bytes[0] = (uint8_t)(LEADS[count] | character);
    return count;
}
