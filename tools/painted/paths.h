/* Trees for the JSON writer, built row by row: paths of so many rows from a root down, through every slot of every
   kind; and the token file with their payloads. */
#ifndef STACK_PATHS_H
#define STACK_PATHS_H

#include "inputs.h"
#include "mixes.h"

/* The most rows on a path that a JSON text may have, and those of the longest path that is measured. */
enum { MOST_DEEP = 128, LONGEST_PATH = 60000 };

/* What a slot takes. */
enum sort { AN_EXP, A_PAIR, A_NAME, A_STM, A_BLOCK };

/* A step of a path: a row with a slot for the next row of the path, and the kinds of what stands in its other slots. */
struct step {
    const char *name;
    uint32_t kind;
    enum sort is, holds;
    size_t slot;
    bool list;
    uint32_t others[SHIGTHAPUL_CHILDREN];
};

#define KIND(kind) SHIGTHAPUL_KIND_##kind
#define ONE(kind, is, holds, slot, ...) {#kind " c" #slot, KIND(kind), is, holds, slot, false, {__VA_ARGS__}}
#define LIST(kind, is, holds, slot, ...) {#kind " c" #slot ", a list", KIND(kind), is, holds, slot, true, {__VA_ARGS__}}
#define A KIND(IDENTIFIER)
#define B KIND(BLOCK)

static const struct step STEPS[] = {
    LIST(ARRAY, AN_EXP, AN_EXP, 0, 0),
    LIST(HASH, AN_EXP, A_PAIR, 0, 0),
    ONE(PAIR, A_PAIR, AN_EXP, 0, 0, A), ONE(PAIR, A_PAIR, AN_EXP, 1, A),
    ONE(INDEX, AN_EXP, AN_EXP, 0, 0, A), ONE(INDEX, AN_EXP, AN_EXP, 1, A),
    ONE(CALL, AN_EXP, AN_EXP, 0, 0), LIST(CALL, AN_EXP, AN_EXP, 1, A),
    ONE(INFIX, AN_EXP, AN_EXP, 0, 0, A), ONE(INFIX, AN_EXP, AN_EXP, 1, A),
    ONE(PREFIX, AN_EXP, AN_EXP, 0, 0),
    ONE(SUFFIX, AN_EXP, AN_EXP, 0, 0),
    LIST(LAMBDA, AN_EXP, AN_EXP, 0, 0, A), ONE(LAMBDA, AN_EXP, AN_EXP, 1, A),
    ONE(SHELL, AN_EXP, AN_EXP, 0, 0),
    LIST(ATTRIBUTE, AN_EXP, A_NAME, 1, A),
    LIST(BLOCK, A_BLOCK, A_STM, 0, 0),
    ONE(TRY, A_STM, A_BLOCK, 0, 0, A, B), ONE(TRY, A_STM, AN_EXP, 1, B, 0, B),
    ONE(TRY, A_STM, A_BLOCK, 2, B, A), ONE(TRY, A_STM, A_BLOCK, 3, B, A, B),
    LIST(FUNCTION, A_STM, AN_EXP, 0, 0, B), ONE(FUNCTION, A_STM, A_BLOCK, 1, A),
    ONE(FOR, A_STM, AN_EXP, 0, 0, A, B), ONE(FOR, A_STM, AN_EXP, 1, A, 0, B), ONE(FOR, A_STM, A_BLOCK, 2, A, A),
    ONE(WHILE, A_STM, AN_EXP, 0, 0, B), ONE(WHILE, A_STM, A_BLOCK, 1, A),
    ONE(IF, A_STM, AN_EXP, 0, 0, B), ONE(IF, A_STM, A_BLOCK, 1, A), ONE(IF, A_STM, A_BLOCK, 2, A, B),
    ONE(FOREACH, A_STM, AN_EXP, 0, 0, A, A, B), ONE(FOREACH, A_STM, AN_EXP, 1, A, 0, A, B),
    ONE(FOREACH, A_STM, AN_EXP, 2, A, A, 0, B), ONE(FOREACH, A_STM, A_BLOCK, 3, A, A, A),
    ONE(VAR, A_STM, AN_EXP, 0, 0), ONE(CONST, A_STM, AN_EXP, 0, 0), ONE(RETURN, A_STM, AN_EXP, 0, 0),
    ONE(THROW, A_STM, AN_EXP, 0, 0), ONE(EXPRESSION, A_STM, AN_EXP, 0, 0),
    ONE(ASSERT, A_STM, AN_EXP, 0, 0, A), ONE(ASSERT, A_STM, AN_EXP, 1, A),
};

/* What stands innermost: a row with no children. */
static const struct {
    uint32_t kind;
    enum sort is;
} ENDS[] = {
    {KIND(IDENTIFIER), AN_EXP}, {KIND(STRING), AN_EXP}, {KIND(INT), AN_EXP}, {KIND(FLOAT), AN_EXP},
    {KIND(CHAR), AN_EXP}, {KIND(BOOL), AN_EXP}, {KIND(NONE), AN_EXP}, {KIND(ARRAY), AN_EXP}, {KIND(HASH), AN_EXP},
    {KIND(NAME), A_NAME},
    {KIND(BREAK), A_STM}, {KIND(CONTINUE), A_STM}, {KIND(VAR), A_STM}, {KIND(RETURN), A_STM},
    {KIND(BLOCK), A_BLOCK},
};

/* The fields of a file, which rows name by their place: one for each class that a payload can have; and the long ones,
   which only an innermost row names. */
enum place { SHORT_NAME, AN_INTEGER, A_FLOAT, A_CHAR, SHORT_STRING, LONG_NAME, LONG_STRING };

static uint32_t place_of(uint32_t kind, bool innermost) {
    switch (kind) {
    case KIND(INT):
        return AN_INTEGER;
    case KIND(FLOAT):
        return A_FLOAT;
    case KIND(CHAR):
        return A_CHAR;
    case KIND(STRING):
        return innermost ? LONG_STRING : SHORT_STRING;
    default:
        return innermost ? LONG_NAME : SHORT_NAME;
    }
}

/* Puts a field behind those that are lent: so many bytes, over and over. */
static void put_field(enum shigthapul_class token_class, const struct bytes *bytes, size_t length) {
    lent_bytes[lent.bytes++] = (uint8_t)token_class;
    lent_bytes[lent.bytes++] = (uint8_t)(length / 256);
    lent_bytes[lent.bytes++] = (uint8_t)(length % 256);
    for (size_t at = 0; at < length; at++)
        lent_bytes[lent.bytes++] = bytes->bytes[at % bytes->count];
}

/* Lends a file of these fields, the long ones with so many bytes. */
static void lend_fields(const struct bytes *bytes, size_t length) {
    static const struct bytes LEAST = {"the least number", {0x80}, 1}, SMILE = {"a smile", {0, 1, 0xF6, 0}, 4};
    lent.bytes = 0;
    put_field(SHIGTHAPUL_CLASS_IDENTIFIER, bytes, bytes->count);
    put_field(SHIGTHAPUL_CLASS_INTEGER, &LEAST, 8);
    put_field(SHIGTHAPUL_CLASS_FLOAT, &LEAST, 8);
    put_field(SHIGTHAPUL_CLASS_CHAR, &SMILE, 4);
    put_field(SHIGTHAPUL_CLASS_STR, bytes, bytes->count);
    put_field(SHIGTHAPUL_CLASS_IDENTIFIER, bytes, length - length % bytes->count);
    put_field(SHIGTHAPUL_CLASS_STR, bytes, length - length % bytes->count);
}

/* Lends room enough for the text of the tree that is lent. */
static void lend_room(void) {
    lent.json = MOST_ROW_TEXT * (lent.pool / SHIGTHAPUL_ROW_WORDS) + SHIGTHAPUL_PAYLOAD_BYTES * lent.bytes;
}

/* Puts a row behind those that are lent; its reference. */
static uint32_t put_row(uint32_t kind, bool innermost, const uint32_t *children) {
    struct shigthapul_row row = {.kind = kind, .place = place_of(kind, innermost)};
    if (lent.pool + SHIGTHAPUL_ROW_WORDS > POOL_WORDS)
        stop("too many rows");
    memcpy(row.children, children, sizeof row.children);
    lent.pool += SHIGTHAPUL_ROW_WORDS;
    lent.root = lent.pool / SHIGTHAPUL_ROW_WORDS;
    shigthapul_put_row(lent_pool, (uint32_t)lent.root, &row);
    return (uint32_t)lent.root;
}

static uint32_t put_end_row(uint32_t kind, bool innermost) {
    return put_row(kind, innermost, (const uint32_t[SHIGTHAPUL_CHILDREN]){0});
}

/* Puts a row that can stand before another in a list. */
static uint32_t put_before(enum sort sort) {
    static const uint32_t KINDS[] = {[AN_EXP] = A, [A_NAME] = KIND(NAME), [A_STM] = KIND(BREAK)};
    if (sort != A_PAIR)
        return put_end_row(KINDS[sort], false);
    uint32_t key = put_end_row(A, false), value = put_end_row(A, false);
    return put_row(KIND(PAIR), false, (const uint32_t[SHIGTHAPUL_CHILDREN]){key, value});
}

/* Has a row that is lent go before another. */
static void put_next(uint32_t reference, uint32_t next) {
    struct shigthapul_row row = shigthapul_row_at(lent_pool, reference);
    row.next = next;
    shigthapul_put_row(lent_pool, reference, &row);
}

/* Puts the row of a step around what is in its slot. */
static uint32_t put_step(const struct step *step, uint32_t inner) {
    uint32_t children[SHIGTHAPUL_CHILDREN];
    for (size_t slot = 0; slot < SHIGTHAPUL_CHILDREN; slot++)
        children[slot] = step->others[slot] == 0 ? 0 : put_end_row(step->others[slot], false);
    children[step->slot] = inner;
    return put_row(step->kind, false, children);
}

/* A path: its steps from the root on, what stands innermost, and whether the rows in its lists stand behind others. */
static struct {
    const struct step *steps[LONGEST_PATH];
    size_t count;
    uint32_t end;
    bool behind;
} path;

/* Whether a step may be the next of the path, the last one or not: a path doesn't end at a pair, and only its end may
   be a name. */
static bool may_follow(const struct step *step, enum sort hole, bool last) {
    return step->is == hole && step->holds != (last ? A_PAIR : A_NAME);
}

/* The step that is wished for if it may be the next; else one that leads back to it, else any. */
static const struct step *next_step(const struct step *wished, enum sort hole, bool last) {
    const struct step *found = NULL;
    if (may_follow(wished, hole, last))
        return wished;
    for (const struct step *step = STEPS; step < STEPS + COUNT(STEPS); step++) {
        bool better = found == NULL || (step->holds == wished->is && found->holds != wished->is);
        if (better && may_follow(step, hole, last))
            found = step;
    }
    if (found == NULL)
        stop("no step");
    return found;
}

static const struct step *random_step(enum sort hole, bool last) {
    const struct step *step;
    do
        step = &STEPS[random_below(COUNT(STEPS))];
    while (!may_follow(step, hole, last));
    return step;
}

/* Makes the steps of a path with so many rows: one step as often as may be, or, if there is none, steps at random. What
   has to stand innermost. */
static enum sort make_path(const struct step *wished, enum sort hole, size_t rows) {
    for (path.count = 0; path.count < rows - 1; path.count++) {
        bool last = path.count == rows - 2;
        const struct step *step = wished == NULL ? random_step(hole, last) : next_step(wished, hole, last);
        path.steps[path.count] = step;
        hole = step->holds;
    }
    return hole;
}

/* Puts the rows of the path behind those that are lent, the innermost first; the root's reference. */
static uint32_t put_path(void) {
    uint32_t head = 0;
    for (size_t left = path.count + 1; left > 0; left--) {
        const struct step *around = left > 1 ? path.steps[left - 2] : NULL;
        uint32_t before = path.behind && around != NULL && around->list ? put_before(around->holds) : 0;
        uint32_t row = left > path.count ? put_end_row(path.end, true) : put_step(path.steps[left - 1], head);
        if (before != 0)
            put_next(before, row);
        head = before != 0 ? before : row;
    }
    return head;
}

#undef A
#undef B

#endif
