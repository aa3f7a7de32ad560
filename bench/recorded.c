/* Reading the oracle's records on standard input. */
#include "recorded.h"

#include <stdio.h>
#include <stdlib.h>

static void fail(const char *what) {
    fprintf(stderr, "records: %s\n", what);
    exit(2);
}

void *room_for(size_t bytes) {
    void *room = malloc(bytes + 1);
    if (room == NULL)
        fail("no memory");
    return room;
}

/* Reads bytes; false if the stream ends before the first. */
static bool get_bytes(uint8_t *bytes, size_t count) {
    size_t got = fread(bytes, 1, count, stdin);
    if (got > 0 && got < count)
        fail("the stream ends in the middle of a record");
    return got == count;
}

bool get_words(uint32_t *words, size_t count, size_t size) {
    uint8_t *bytes = room_for(size * count);
    bool got = get_bytes(bytes, size * count);
    for (size_t i = 0; got && i < count; i++) {
        words[i] = 0;
        for (size_t byte = size; byte-- > 0;)
            words[i] = words[i] << 8 | bytes[size * i + byte];
    }
    free(bytes);
    return got;
}

uint32_t *read_words(size_t count, size_t size) {
    uint32_t *words = room_for(count * sizeof *words);
    if (!get_words(words, count, size))
        fail("the stream ends in the middle of a record");
    return words;
}

uint8_t *read_bytes(size_t count) {
    uint8_t *bytes = room_for(count);
    if (!get_bytes(bytes, count))
        fail("the stream ends in the middle of a record");
    return bytes;
}

bool is_answer(const uint64_t answer[4], uint64_t number, uint64_t value) {
    return answer[0] == number && answer[1] == value && answer[2] == 0 && answer[3] == 0;
}
