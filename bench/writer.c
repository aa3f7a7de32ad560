/* A plain writer of trees in C, the measure of the bench. */
#include "writer.h"
#include "answer.h"
#include "tree.h"

#include <string.h>

/* A row under way, and the piece of its form that is being written. */
typedef struct {
    uint16_t row, piece;
} Open;

typedef struct {
    uint16_t *words;
    uint32_t *places;
    size_t room, count;
} Output;

/* ---- the writer */

static inline void put(Output *out, uint16_t word, uint32_t place) {
    if (out->count < out->room) {
        out->words[out->count] = word;
        out->places[out->count] = place;
    }
    out->count++;
}

/* Writes a piece that is a token, or none. */
static inline void put_piece(Output *out, const Piece *piece, const uint32_t *row) {
    switch (piece->what) {
    case SIGN:
        put(out, piece->word, 0);
        break;
    case PAYLOAD:
        put(out, piece->word, row[PLACE]);
        break;
    case BY_MARK:
        put(out, word_by_mark(row[KIND], row[MARK] % GROUPED), 0);
        break;
    case FLAGGED:
        if ((row[MARK] & piece->of) != 0)
            put(out, piece->word, 0);
        break;
    default:
        if (row[CHILD + piece->of] != 0)
            put(out, piece->word, 0);
    }
}

/* Writes a tree that was checked. A tree may be as deep as it has rows, so this takes no recursion. */
static void walk(const Survey *s, uint32_t root, Output *out) {
    Open open[MOST_ROWS];
    size_t depth = 0;
    Open now = {(uint16_t)root, 0};
    bool bare = row_of(s, root)[KIND] == BLOCK;
    for (;;) {
        const uint32_t *row = row_of(s, now.row);
        const Piece *piece = &form_of(row[KIND])->pieces[now.piece];
        if (piece->what == MEMBERS && row[CHILD + piece->of] != 0) {
            open[depth++] = now;
            now = (Open){(uint16_t)row[CHILD + piece->of], 0};
        } else if (piece->what == END && depth == 0) {
            return;
        } else if (piece->what == END && row[NEXT] != 0) {
            const Open *owner = &open[depth - 1];
            uint16_t between = form_of(row_of(s, owner->row)[KIND])->pieces[owner->piece].word;
            if (between != 0)
                put(out, between, 0);
            now = (Open){(uint16_t)row[NEXT], 0};
        } else if (piece->what == END) {
            now = open[--depth];
            now.piece++;
        } else {
            if (piece->what != MEMBERS && !(bare && depth == 0))
                put_piece(out, piece, row);
            now.piece++;
        }
    }
}

/* ---- the entries */

void plain_check(const uint32_t *pool, size_t pool_words, size_t root, uint64_t answer[4]) {
    Survey s;
    size_t place;
    bool good = plain_is_tree(&s, pool, pool_words, root, &place);
    answer_with(answer, good ? 0 : NO_TREE, place);
}

void plain_write(const uint32_t *pool, size_t pool_words, size_t root, uint16_t *words, size_t words_room,
                 uint32_t *places, size_t places_room, uint64_t answer[4]) {
    Survey s;
    size_t place;
    Output out = {words, places, words_room < places_room ? words_room : places_room, 0};
    if (!plain_is_tree(&s, pool, pool_words, root, &place)) {
        answer_with(answer, NO_TREE, place);
    } else {
        walk(&s, (uint32_t)root, &out);
        put(&out, T_EOF, 0);
        if (out.count <= out.room)
            answer_with(answer, 0, out.count);
        else
            answer_with(answer, TOO_SHORT, 0);
    }
    size_t kept = answer[0] == 0 ? out.count : 0;
    memset(words + kept, 0, (words_room - kept) * sizeof *words);
    memset(places + kept, 0, (places_room - kept) * sizeof *places);
}
