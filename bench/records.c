/* Reads the oracle's records of trees on standard input, and compares the plain C check and writer with each: the answers,
   and every word of both slices. Prints the counts; the status is 1 if any differ. */
#include "recorded.h"
#include "words.h"
#include "writer.h"

#include <stdio.h>
#include <stdlib.h>
#include <string.h>

/* The head of a record, words of four bytes: what is lent, the answer, and the entry that reads what is written, which is
   not looked at here. */
enum { ROOT, POOL, WORDS_ROOM, PLACES_ROOM, NUMBER, VALUE, ENTRY, HEAD };

/* Whether the plain C writer writes what a record says: so many tokens, and zeros behind them. */
static bool is_written(const uint32_t head[HEAD], const uint32_t *pool, const uint32_t *words, const uint32_t *places,
                       size_t count) {
    uint64_t answer[4];
    uint16_t *written = room_for(head[WORDS_ROOM] * sizeof *written);
    uint32_t *named = room_for(head[PLACES_ROOM] * sizeof *named);
    memset(written, 0xA5, head[WORDS_ROOM] * sizeof *written);
    memset(named, 0xA5, head[PLACES_ROOM] * sizeof *named);
    plain_write(pool, head[POOL], head[ROOT], written, head[WORDS_ROOM], named, head[PLACES_ROOM], answer);
    bool same = is_answer(answer, head[NUMBER], head[VALUE]);
    for (size_t i = 0; i < head[WORDS_ROOM]; i++)
        same = same && written[i] == (i < count ? words[i] : 0);
    for (size_t i = 0; i < head[PLACES_ROOM]; i++)
        same = same && named[i] == (i < count ? places[i] : 0);
    free(written);
    free(named);
    return same;
}

/* Whether the plain C check and writer answer as a record says. */
static bool is_same(const uint32_t head[HEAD]) {
    size_t count = head[NUMBER] == 0 ? head[VALUE] : 0;
    uint32_t *pool = read_words(head[POOL], 4);
    uint32_t *words = read_words(count, 2), *places = read_words(count, 4);
    uint64_t answer[4];
    bool no_tree = head[NUMBER] == NO_TREE;
    plain_check(pool, head[POOL], head[ROOT], answer);
    bool same = is_answer(answer, no_tree ? NO_TREE : 0, no_tree ? head[VALUE] : 0) &&
                is_written(head, pool, words, places, count);
    free(pool);
    free(words);
    free(places);
    return same;
}

int main(void) {
    uint32_t head[HEAD];
    size_t records = 0, trees = 0, differing = 0;
    while (get_words(head, HEAD, 4)) {
        records++;
        trees += head[NUMBER] == 0;
        differing += !is_same(head);
    }
    printf("%zu trees and pools, %zu written, %zu differing\n", records, trees, differing);
    return differing > 0 || records == 0;
}
