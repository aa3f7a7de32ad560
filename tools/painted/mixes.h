/* Nests of forms at random, from a fixed seed. */
#ifndef STACK_MIXES_H
#define STACK_MIXES_H

#include "measure.h"

/* A number below a limit: xorshift, from a fixed seed. */
static size_t random_below(size_t limit) {
    static uint64_t state = 0x5348494754484150;
    state ^= state << 13;
    state ^= state >> 7;
    state ^= state << 17;
    return (size_t)(state >> 11) % limit;
}

/* Adds a form of expressions at random that may stand in the innermost. */
static void add_expression(struct nest *nest) {
    const struct form *form;
    do
        form = &EXPRESSIONS[random_below(COUNT(EXPRESSIONS))];
    while (nest->count > 0 && !fits(nest->forms[nest->count - 1], form));
    add(nest, form);
}

static const struct leaf *random_leaf(enum kind kind) {
    const struct leaf *leaf;
    do
        leaf = &LEAVES[random_below(COUNT(LEAVES))];
    while (leaf->is != kind);
    return leaf;
}

/* A nest of so many forms at random: bodies, a statement that takes an expression, and forms of expressions. */
static void mix(struct nest *nest, bool statements, size_t count) {
    size_t bodies = statements ? random_below(count + 1) : 0;
    while (nest->count < bodies)
        add(nest, &BODIES[random_below(COUNT(BODIES))]);
    if (statements && nest->count < count)
        add(nest, &TAKERS[random_below(COUNT(TAKERS))]);
    while (nest->count < count)
        add_expression(nest);
    nest->leaf = random_leaf(statements && bodies == count ? A_STATEMENT : AN_EXPRESSION);
}

/* Mixes at the limit and past it. */
static size_t mix_nests(enum function function) {
    enum { MIXES = 20000 };
    size_t most = 0;
    for (size_t turn = 0; turn < MIXES; turn++) {
        struct nest nest = {.count = 0};
        mix(&nest, function != ONE_EXPRESSION, MOST_OPEN - turn % 2);
        most = larger(most, measure_nest(function, &nest));
    }
    return most;
}

#endif
