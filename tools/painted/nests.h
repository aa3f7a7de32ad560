/* Nests of forms: how they are laid out as tokens, which forms may follow each other, and what a nest is called. */
#ifndef STACK_NESTS_H
#define STACK_NESTS_H

#include "calls.h"
#include "forms.h"

/* The most expressions and statements that may be open at once. A nest may have one more. */
enum { MOST_OPEN = 64 };

/* Forms in one another, and what stands innermost. Each form is open while its hole is read, the leaf makes one more. */
struct nest {
    const struct form *forms[MOST_OPEN];
    size_t count;
    const struct leaf *leaf;
};

static void add(struct nest *nest, const struct form *form) {
    nest->forms[nest->count++] = form;
}

static void put_words(const char *text) {
    const struct words *words = words_of(text);
    memcpy(lent_tokens + lent.tokens, words->words, words->count * sizeof *words->words);
    lent.tokens += words->count;
}

static void put_end(void) {
    lent_tokens[lent.tokens++] = shigthapul_word(SHIGTHAPUL_CLASS_EOF, 0);
}

/* Lends all the rows that the tokens can need, or none. */
static void lend_pool(bool rows) {
    size_t enough = SHIGTHAPUL_TOKEN_WORDS * lent.tokens;
    lent.pool = !rows ? 0 : enough < POOL_WORDS ? enough : POOL_WORDS;
}

/* Lends the tokens of a nest. A lone token in brackets needs a semicolon behind it. */
static void lend_nest(const struct nest *nest, bool rows) {
    lent.tokens = lent.start = 0;
    for (size_t form = 0; form < nest->count; form++)
        put_words(nest->forms[form]->before);
    put_words(nest->leaf->text);
    if (nest->count > 0 && nest->forms[nest->count - 1]->before[0] == '(' && words_of(nest->leaf->text)->count == 1)
        put_words(";");
    for (size_t form = nest->count; form > 0; form--)
        put_words(nest->forms[form - 1]->after);
    put_end();
    lend_pool(rows);
}

/* Whether a form may stand right in another, so that the two are one in the other, and accepted. */
static bool fits(const struct form *outer, const struct form *inner) {
    bool starts_call = strcmp(outer->after, "( )") == 0;
    bool binds = outer->order == 0 || inner->order == 0 || inner->order > outer->order;
    return outer->holds == inner->is && binds && !(starts_call && inner->swallows);
}

/* The name of a nest: its forms from the outermost on, equal ones counted, as far as there is room. */
static const char *name_of(const struct nest *nest) {
    static char name[240];
    size_t length = 0, same;
    for (size_t form = 0; form < nest->count; form += same) {
        for (same = 1; form + same < nest->count && nest->forms[form + same] == nest->forms[form]; same++)
            ;
        if (length > sizeof name - 80) {
            snprintf(name + length, sizeof name - length, "and so on");
            return name;
        }
        length += (size_t)snprintf(name + length, sizeof name - length, "%zu of %s; ", same, nest->forms[form]->name);
    }
    snprintf(name + length, sizeof name - length, "%s", nest->leaf->text);
    return name;
}

#endif
