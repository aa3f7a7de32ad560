/* Forms repeated in one another: patterns, alone, in statements, and around one another. */
#ifndef STACK_PATTERNS_H
#define STACK_PATTERNS_H

#include "lines.h"
#include "measure.h"

/* A pattern is a nest with no leaf, whose forms fill other nests by turns. */
static struct nest patterns[COUNT(EXPRESSIONS) + 1];
static size_t pattern_count;

static const struct form *form_named(const char *name) {
    for (size_t form = 0; form < COUNT(EXPRESSIONS); form++)
        if (strcmp(EXPRESSIONS[form].name, name) == 0)
            return &EXPRESSIONS[form];
    stop("no form of that name");
    return NULL;
}

/* Each form of expressions by itself, but an infix operator with a prefix behind it, and one operator of each order. */
static void make_patterns(void) {
    static const char *const LADDER[] = {"a = ..",  "a || ..", "a && ..", "a | ..", "a & ..",
                                         "a == ..", "a < ..",  "a + ..",  "a * ..", "! .."};
    for (size_t form = 0; form < COUNT(EXPRESSIONS); form++) {
        struct nest *pattern = &patterns[pattern_count++];
        add(pattern, &EXPRESSIONS[form]);
        if (EXPRESSIONS[form].order != 0)
            add(pattern, form_named("! .."));
    }
    struct nest *ladder = &patterns[pattern_count++];
    while (ladder->count < COUNT(LADDER))
        add(ladder, form_named(LADDER[ladder->count]));
}

/* Whether a pattern is one infix operator with a prefix behind it. */
static bool is_infix(const struct nest *pattern) {
    return pattern->count == 2;
}

static const char *pattern_name(const struct nest *pattern) {
    if (is_infix(pattern))
        return "a OPERATOR ! .., the worst of all infix operators";
    return pattern->count == 1 ? pattern->forms[0]->name : "a = a || a && a | a & a == a < a + a * ! ..";
}

/* Adds a pattern's forms in turn until a nest has so many. */
static void fill(struct nest *nest, const struct nest *pattern, size_t count) {
    for (size_t turn = 0; nest->count < count; turn++)
        add(nest, pattern->forms[turn % pattern->count]);
}

/* A nest of one form, or a pattern, so many deep, by a function: what it takes. */
static size_t measure_pattern(enum function function, const struct nest *pattern, size_t count,
                              const struct leaf *leaf) {
    struct nest nest = {.leaf = leaf};
    fill(&nest, pattern, count);
    return measure_nest(function, &nest);
}

/* The bytes for a level, by nests of 60 and of 20 levels: both numbers are whole turns of every pattern. */
static double level_of(enum function function, const struct nest *pattern, const struct leaf *leaf) {
    enum { MANY = 60, FEW = 20 };
    struct nest many = {.leaf = leaf}, few = {.leaf = leaf};
    fill(&many, pattern, MANY);
    fill(&few, pattern, FEW);
    lend_nest(&many, true);
    size_t most = expect(function, 0, name_of(&many), "");
    lend_nest(&few, true);
    return (double)(most - expect(function, 0, name_of(&few), "")) / (MANY - FEW);
}

/* A pattern by a function around every leaf of a kind: all open that may be, and one more. Puts a line. */
static void pattern_nests(enum function function, const struct nest *pattern, enum kind kind, const char *name) {
    const struct leaf *first = NULL;
    size_t most = 0;
    for (size_t leaf = 0; leaf < COUNT(LEAVES); leaf++) {
        if (LEAVES[leaf].is != kind)
            continue;
        first = first == NULL ? &LEAVES[leaf] : first;
        for (size_t count = MOST_OPEN - 1; count <= MOST_OPEN; count++)
            most = larger(most, measure_pattern(function, pattern, count, &LEAVES[leaf]));
    }
    put_line(name, level_of(function, pattern, first), most);
}

static void body_nests(enum function function, const struct form *body) {
    struct nest pattern = {{body}, 1, NULL};
    pattern_nests(function, &pattern, A_STATEMENT, body->name);
}

/* So many bodies in one another, then a statement that takes an expression, then a pattern; at the limit, if there is
   room for that, and past it. */
static size_t measure_split(enum function function, const struct form *body, size_t bodies, const struct form *taker,
                            const struct nest *pattern) {
    size_t most = 0;
    for (size_t count = larger(MOST_OPEN - 1, bodies + 1); count <= MOST_OPEN; count++) {
        struct nest nest = {.leaf = &LEAVES[0]};
        while (nest.count < bodies)
            add(&nest, body);
        add(&nest, taker);
        fill(&nest, pattern, count);
        most = larger(most, measure_nest(function, &nest));
    }
    return most;
}

/* A statement that takes an expression around every pattern, and the same innermost in every body. */
static void taker_nests(enum function function, const struct form *taker) {
    size_t most = 0;
    for (size_t pattern = 0; pattern < pattern_count; pattern++)
        most = larger(most, measure_split(function, &BODIES[0], 0, taker, &patterns[pattern]));
    put_line(taker->name, 0, most);
    for (size_t body = 0; body < COUNT(BODIES); body++)
        for (size_t bodies = MOST_OPEN - 2; bodies < MOST_OPEN; bodies++)
            measure_split(function, &BODIES[body], bodies, taker, &patterns[0]);
}

/* A body around a pattern, at every split; the statement between them is each in turn. */
static void split_nests(enum function function, const struct form *body, const struct nest *pattern) {
    for (size_t bodies = 0; bodies < MOST_OPEN; bodies++)
        measure_split(function, body, bodies, &TAKERS[bodies % COUNT(TAKERS)], pattern);
}

/* Every body around every pattern; of the infix operators, those of the one pattern that has many. */
static void all_splits(enum function function) {
    for (size_t body = 0; body < COUNT(BODIES); body++)
        for (size_t pattern = 0; pattern < pattern_count; pattern++)
            if (!is_infix(&patterns[pattern]))
                split_nests(function, &BODIES[body], &patterns[pattern]);
}

#endif
