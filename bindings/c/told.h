/* A JSON text for tests: what is lent to the C functions, what they must answer, and every byte that they must leave. */
#ifndef SHIGTHAPUL_TOLD_H
#define SHIGTHAPUL_TOLD_H

#include "shigthapul.h"

/* What is in a buffer before it is lent. */
enum { TOLD_DIRT = 0xA5 };

/* A case: the tree, the file, and the answer, 0 with the text or a refusal with its place. */
struct told {
    const uint32_t *pool;
    size_t pool_length, root;
    struct shigthapul_bytes file, text;
    uint32_t refusal;
    size_t place;
};

/* Whether bytes are all the same. */
static inline bool are_all(const uint8_t *bytes, size_t count, uint8_t byte) {
    for (size_t at = 0; at < count; at++)
        if (bytes[at] != byte)
            return false;
    return true;
}

/* Has the text written, by the small function or the other, into the front of a buffer with so many bytes of room and some
   more behind. Whether the answer is the expected one, the text and zeros are in the room, or zeros alone after a refusal,
   and what is behind the room is as it was. */
static inline bool is_told(const struct told *told, bool small, uint8_t *buffer, size_t room, size_t behind) {
    struct shigthapul_answer answer;
    const uint64_t expected[] = {told->refusal, told->refusal == 0 ? told->text.length : told->place, 0, 0};
    size_t written = told->refusal == 0 ? told->text.length : 0;
    memset(buffer, TOLD_DIRT, room + behind);
    (small ? shigthapul_json_small : shigthapul_json)(told->pool, told->pool_length, told->root, told->file.start,
                                                       told->file.length, buffer, room, answer.words,
                                                       SHIGTHAPUL_ANSWER_WORDS);
    return memcmp(answer.words, expected, sizeof expected) == 0 && written <= room
           && memcmp(buffer, told->text.start, written) == 0 && are_all(buffer + written, room - written, 0)
           && are_all(buffer + room, behind, TOLD_DIRT);
}

#endif
