/* The plain C check of a tree in a pool, and what it leaves for those that write the tree. */
#ifndef PLAIN_TREE_H
#define PLAIN_TREE_H

#include "forms.h"
#include "reader.h"

/* The rows that a root reaches. In the queue a row stands before its children and its next. */
typedef struct {
    const uint32_t *pool;
    uint32_t rows;
    uint32_t found;               /* rows in the queue */
    uint16_t queue[MOST_ROWS];    /* the rows that the root reaches */
    uint8_t slots[MOST_ROWS + 1]; /* by reference; 0 for a row that isn't reached */
} Survey;

static inline const uint32_t *row_of(const Survey *s, uint32_t reference) {
    return s->pool + (size_t)(reference - 1) * ROW;
}

/* The form of a kind; that of an unknown one has no marks. */
static inline const Form *form_of(uint32_t kind) {
    return &FORMS[kind < KINDS ? kind : 0];
}

/* Whether the rows that a root reaches are a tree; if not, the place is that of the refusal: the lowest bad row, or 0
   where there is no row at the root. */
bool plain_is_tree(Survey *s, const uint32_t *pool, size_t words, size_t root, size_t *place);

#endif
