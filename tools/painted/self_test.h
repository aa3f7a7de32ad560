/* The tool's own test: jobs whose depth is known, and nests that are not what they should be, have to be noticed. */
#ifndef STACK_SELF_TEST_H
#define STACK_SELF_TEST_H

#include "patterns.h"

enum { DEEP = 100, FRAME_BYTES = 1000 };

/* Has an array of FRAME_BYTES in each of its frames, and writes to its ends only. */
static __attribute__((noinline)) int recurse(int more) {
    volatile char frame[FRAME_BYTES];
    frame[0] = (char)more;
    frame[FRAME_BYTES - 1] = 0;
    return (more > 1 ? recurse(more - 1) : 0) + frame[0] + frame[FRAME_BYTES - 1];
}

static volatile int recursions, result;

static void job_recurse(void) {
    result = recurse(recursions);
}

/* Writes one of the patterns, as low as the recursion above would. */
static volatile int written;

static __attribute__((noinline)) void write_pattern(void) {
    volatile uint64_t frame[DEEP * FRAME_BYTES / 8];
    frame[0] = painted_stacks[USUAL][written].pattern;
    result = (int)frame[0];
}

/* Whether a job's depth beyond the empty function's lies from a number of bytes up to a tenth above it, on all stacks. */
static bool is_about(void (*job)(void), size_t bytes) {
    bool good = true;
    for (int size = USUAL; size < SIZES; size++) {
        size_t depth = depth_of(job, (enum size)size) - depth_of(nothing, (enum size)size);
        good = good && depth >= bytes && depth <= bytes + bytes / 10;
    }
    return good;
}

static bool is_deep(int frames) {
    recursions = frames;
    return is_about(job_recurse, (size_t)frames * FRAME_BYTES);
}

/* A depth is that of the last job and not of one before it; and a job can't hide behind a pattern. */
static bool depths_are_noticed(void) {
    bool good = is_deep(DEEP) && is_deep(DEEP / 10) && is_deep(DEEP);
    for (written = 0; written < STACKS; written++)
        good = good && is_about(write_pattern, (size_t)DEEP * FRAME_BYTES);
    return good;
}

/* How many faults are noticed in a nest that has so many forms, and is taken for one of `count`. */
static unsigned long faults_of(size_t forms, size_t count) {
    unsigned long before = faults;
    struct nest nest = {.leaf = &LEAVES[0]};
    fill(&nest, &patterns[0], forms);
    lend_nest(&nest, true);
    bytes_of(ONE_EXPRESSION);
    if (!is_expected(ONE_EXPRESSION, count == MOST_OPEN ? SHIGTHAPUL_REFUSED_TOO_DEEP : 0))
        faults++;
    unsigned long found = faults - before;
    faults = before;
    return found;
}

/* A nest that is too shallow to be refused, or too deep to be accepted, is a fault. */
static bool nests_are_noticed(void) {
    return faults_of(MOST_OPEN, MOST_OPEN) == 0 && faults_of(MOST_OPEN - 1, MOST_OPEN - 1) == 0 &&
           faults_of(MOST_OPEN - 1, MOST_OPEN) == 1 && faults_of(MOST_OPEN, MOST_OPEN - 1) == 1;
}

static bool self_test(void) {
    bool depths = depths_are_noticed(), nests = nests_are_noticed();
    printf("self-test: depths %s, nests %s\n", depths ? "noticed" : "MISSED", nests ? "noticed" : "MISSED");
    return depths && nests;
}

#endif
