/* The four words of an answer that gives a number and a value. */
#ifndef PLAIN_ANSWER_H
#define PLAIN_ANSWER_H

#include <stdint.h>

/* A refusal's number and its place, or 0 and what was counted; then zeros. */
static inline void answer_with(uint64_t answer[4], uint64_t number, uint64_t value) {
    answer[0] = number;
    answer[1] = value;
    answer[2] = answer[3] = 0;
}

#endif
