/* Reads the oracle's records of trees as JSON on standard input, and compares the plain C writer with each: the answer,
   and every byte of the slice. Built with OURS it compares this writer too, and up to 4,096 rows the one for threads with
   little stack. Prints the counts; the status is 1 if any differ. */
#include "json.h"
#include "reader.h"
#include "recorded.h"

#include <stdio.h>
#include <stdlib.h>
#include <string.h>

/* The head of a record, words of four bytes: what is lent, the answer, and a word that isn't looked at. */
enum { ROOT, POOL, FILE_LENGTH, ROOM, NUMBER, VALUE, SPARE, HEAD };

typedef struct {
    uint32_t head[HEAD];
    uint32_t *pool;
    uint8_t *file, *text;
} Record;

typedef void Write(const Record *record, uint8_t *text, uint64_t answer[4]);

static void by_plain(const Record *r, uint8_t *text, uint64_t answer[4]) {
    plain_json(r->pool, r->head[POOL], r->head[ROOT], r->file, r->head[FILE_LENGTH], text, r->head[ROOM], answer);
}

#ifdef OURS
static void by_ours(const Record *r, uint8_t *text, uint64_t answer[4]) {
    shigthapul_json(r->pool, r->head[POOL], r->head[ROOT], r->file, r->head[FILE_LENGTH], text, r->head[ROOM], answer, 4);
}

static void by_small(const Record *r, uint8_t *text, uint64_t answer[4]) {
    if (r->head[POOL] / ROW > SHIGTHAPUL_SMALL_ROWS) {
        by_ours(r, text, answer);
        return;
    }
    shigthapul_json_small(r->pool, r->head[POOL], r->head[ROOT], r->file, r->head[FILE_LENGTH], text, r->head[ROOM],
                          answer, 4);
}

static Write *const WRITERS[] = {by_plain, by_ours, by_small};
#else
static Write *const WRITERS[] = {by_plain};
#endif

enum { WRITERS_COUNT = sizeof WRITERS / sizeof WRITERS[0] };

/* Whether a writer writes what a record says: the text, and zeros behind it. */
static bool is_written(Write *write, const Record *r) {
    uint64_t answer[4];
    size_t length = r->head[NUMBER] == 0 ? r->head[VALUE] : 0;
    uint8_t *text = room_for(r->head[ROOM]);
    memset(text, 0xA5, r->head[ROOM]);
    write(r, text, answer);
    bool same = is_answer(answer, r->head[NUMBER], r->head[VALUE]) && memcmp(text, r->text, length) == 0;
    for (size_t at = length; at < r->head[ROOM]; at++)
        same = same && text[at] == 0;
    free(text);
    return same;
}

/* Reads what follows a record's head, and asks all writers. */
static bool is_same(Record *r) {
    bool same = true;
    r->pool = read_words(r->head[POOL], 4);
    r->file = read_bytes(r->head[FILE_LENGTH]);
    r->text = read_bytes(r->head[NUMBER] == 0 ? r->head[VALUE] : 0);
    for (size_t i = 0; i < WRITERS_COUNT; i++)
        same = is_written(WRITERS[i], r) && same;
    free(r->pool);
    free(r->file);
    free(r->text);
    return same;
}

int main(void) {
    Record record;
    size_t records = 0, texts = 0, differing = 0;
    while (get_words(record.head, HEAD, 4)) {
        records++;
        texts += record.head[NUMBER] == 0;
        differing += !is_same(&record);
    }
    printf("%zu trees and files, %zu texts, writers: %d, %zu differing\n", records, texts, WRITERS_COUNT, differing);
    return differing > 0 || records == 0;
}
