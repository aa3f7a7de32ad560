/* A plain check of trees in C, the measure of the bench. */
#include "tree.h"

#include <string.h>

/* What is known of a row that the root reaches: the slot it stands in, NOWHERE if in none, and TWICE if reached again. */
enum { NOWHERE = 64, TWICE = 128 };

static inline void arrive(Survey *s, uint32_t reference, uint8_t slot) {
    if (s->slots[reference] != 0) {
        s->slots[reference] |= TWICE;
    } else {
        s->slots[reference] = slot;
        s->queue[s->found++] = (uint16_t)reference;
    }
}

static inline bool is_row(const Survey *s, uint32_t reference) {
    return 0 < reference && reference <= s->rows;
}

/* The slot that the next of a row stands in: that of a list goes on to a later row. */
static inline uint8_t slot_behind(uint8_t slot, uint32_t reference, uint32_t next) {
    slot %= TWICE;
    return ANY <= slot && slot < NOWHERE && reference < next ? slot : NOWHERE;
}

/* Finds all rows that the root reaches. */
static void survey(Survey *s, uint32_t root) {
    s->found = 0;
    memset(s->slots, 0, s->rows + 1);
    arrive(s, root, ROOTS);
    for (uint32_t at = 0; at < s->found; at++) {
        uint32_t reference = s->queue[at];
        const uint32_t *row = row_of(s, reference);
        const Form *form = form_of(row[KIND]);
        for (int slot = 0; slot < CHILDREN; slot++)
            if (is_row(s, row[CHILD + slot]))
                arrive(s, row[CHILD + slot], form->slots[slot] != 0 ? form->slots[slot] : NOWHERE);
        if (is_row(s, row[NEXT]))
            arrive(s, row[NEXT], slot_behind(s->slots[reference], reference, row[NEXT]));
    }
}

static inline bool is_good_child(uint8_t slot, uint32_t reference, uint32_t child) {
    if (child == 0)
        return slot == 0 || (OR_NONE <= slot && slot < SOME);
    return slot != 0 && child < reference;
}

static inline bool is_good_mark(uint32_t kind, uint32_t mark) {
    uint32_t marks = form_of(kind)->marks;
    return mark < marks || (is_expression(kind) && GROUPED <= mark && mark < GROUPED + marks);
}

static bool is_good(const Survey *s, uint32_t reference) {
    const uint32_t *row = row_of(s, reference);
    const Form *form = form_of(row[KIND]);
    uint8_t slot = s->slots[reference];
    if (slot >= TWICE || !is_good_mark(row[KIND], row[MARK]))
        return false;
    for (int child = 0; child < CHILDREN; child++)
        if (!is_good_child(form->slots[child], reference, row[CHILD + child]))
            return false;
    if (row[NEXT] != 0 && (row[NEXT] <= reference || row[NEXT] > s->rows))
        return false;
    return slot == NOWHERE || (takes(slot, row[KIND], row[MARK]) && (slot >= ANY || row[NEXT] == 0));
}

bool plain_is_tree(Survey *s, const uint32_t *pool, size_t words, size_t root, size_t *place) {
    size_t rows = words / ROW;
    s->pool = pool;
    s->rows = (uint32_t)(rows < MOST_ROWS ? rows : MOST_ROWS);
    *place = 0;
    if (root == 0 || root > s->rows)
        return false;
    survey(s, (uint32_t)root);
    for (uint32_t reference = 1; reference <= s->rows; reference++)
        if (s->slots[reference] != 0 && !is_good(s, reference)) {
            *place = reference;
            return false;
        }
    return true;
}
