/* Trees, for the check and the writer: those of flat forms, as they are read, and the same with words changed. */
#ifndef STACK_TREES_H
#define STACK_TREES_H

#include "inputs.h"
#include "mixes.h"

/* Reads a flat form with so many parts as a script, and lends its tree: just its rows, and room enough. */
static void lend_tree(const struct flat *flat, size_t parts) {
    lend_flat(flat, parts);
    shigthapul_whole_script(lent_tokens, lent.tokens, lent_pool, lent.pool, true, answer.words, SHIGTHAPUL_ANSWER_WORDS);
    if (!shigthapul_is_accepted(&answer))
        fault(WHOLE_SCRIPT, "no tree", flat->part);
    lent.root = shigthapul_root(&answer);
    lent.pool = SHIGTHAPUL_ROW_WORDS * shigthapul_rows(&answer);
    lent.words = lent.places = WRITTEN_TOKENS;
}

/* What a function may take. */
static size_t most_of(enum function function) {
    if (function == JSON)
        return MANY_JSON_BYTES;
    if (function == JSON_SMALL || function == JSON_FEW)
        return FEW_JSON_BYTES;
    return function < CHECK ? FEW_BYTES : MANY_BYTES;
}

/* Notices if the last call of a function took more than it may. */
static void limit(enum function function, size_t bytes, const char *name) {
    if (bytes > most_of(function))
        fault(function, "takes too much stack", name);
}

/* The check and the writer, in full and small, on the tree that is lent. The full ones must answer so. */
static void measure_full(uint32_t checked, uint32_t written, const char *name, const char *how) {
    bool few = lent.pool / SHIGTHAPUL_ROW_WORDS <= SHIGTHAPUL_SMALL_ROWS;
    enum function check = few ? CHECK_FEW : CHECK, write = few ? WRITE_FEW : WRITE;
    limit(check, expect(check, checked, name, how), name);
    limit(write, expect(write, written, name, how), name);
}

static void measure_small(const char *name, const char *how) {
    limit(CHECK_SMALL, measure(CHECK_SMALL, name, how), name);
    limit(WRITE_SMALL, measure(WRITE_SMALL, name, how), name);
}

/* Gives the root that is lent a next. */
static void break_root(void) {
    struct shigthapul_row row = shigthapul_row_at(lent_pool, (uint32_t)lent.root);
    row.next = 1;
    shigthapul_put_row(lent_pool, (uint32_t)lent.root, &row);
}

/* A tree that is lent: as it is, with room for one token too few, with a next at its root, and with no root. */
static void measure_tree(const char *name, const char *how) {
    const uint32_t no_tree = SHIGTHAPUL_REFUSED_NO_TREE;
    measure_full(0, 0, name, how);
    size_t tokens = shigthapul_count(&answer);
    measure_small(name, how);
    lent.places = tokens - 1;
    measure_full(0, SHIGTHAPUL_REFUSED_TOO_SHORT, name, ", with too few places");
    measure_small(name, ", with too few places");
    lent.places = WRITTEN_TOKENS;
    break_root();
    measure_full(no_tree, no_tree, name, ", its root with a next");
    measure_small(name, ", its root with a next");
    lent.root = 0;
    measure_full(no_tree, no_tree, name, ", without a root");
    measure_small(name, ", without a root");
}

/* A tree of a flat form: of three parts, of about as many as a small pool has rows for, and of the greatest length, each in
   a pool of just its rows and in the largest one. */
static void flat_trees(const struct flat *flat) {
    char name[80];
    size_t most = most_parts(flat), sizes[] = {3, most / 16, most};
    snprintf(name, sizeof name, "%s %s .. %s", flat->head, flat->part, flat->tail);
    for (size_t size = 0; size < COUNT(sizes); size++) {
        lend_tree(flat, sizes[size]);
        measure_tree(name, "");
        lend_tree(flat, sizes[size]);
        lent.pool = POOL_WORDS;
        measure_tree(name, ", in the largest pool");
    }
}

/* Trees of flat forms with one to four words changed at random; whatever comes of it is an answer. */
static void broken_trees(void) {
    enum { TURNS = 5000, PARTS = 40 };
    for (size_t turn = 0; turn < TURNS; turn++) {
        const struct flat *flat = &FLATS[random_below(COUNT(FLATS))];
        lend_tree(flat, 1 + random_below(PARTS));
        size_t rows = lent.pool / SHIGTHAPUL_ROW_WORDS;
        for (size_t changes = 1 + random_below(4); changes > 0; changes--)
            lent_pool[random_below(lent.pool)] = (uint32_t)random_below(random_below(2) == 0 ? rows + 2 : 60);
        limit(CHECK_FEW, measure(CHECK_FEW, flat->part, ", with words changed"), flat->part);
        limit(WRITE_FEW, measure(WRITE_FEW, flat->part, ", with words changed"), flat->part);
        measure_small(flat->part, ", with words changed");
    }
}

static void all_trees(void) {
    for (size_t flat = 0; flat < COUNT(FLATS); flat++)
        flat_trees(&FLATS[flat]);
    broken_trees();
}

#endif
