/* How deep a call writes: it runs on painted stacks of its own, and the lowest word that has changed tells. */
#ifndef STACK_PAINT_H
#define STACK_PAINT_H

#include <stdint.h>
#include <stdio.h>
#include <stdlib.h>
#include <sys/mman.h>
#include <ucontext.h>

/* A painted stack, and below it pages that may not be touched: a call that needs more ends the program. */
enum { GUARD_BYTES = 65536 };

struct painted {
    uint64_t pattern;
    size_t count;    /* of words */
    uint64_t *words; /* the lowest first */
    size_t clean;    /* so many of the lowest are painted */
};

/* Stacks of two sizes, as all words of one are looked at. Of each there are two, so that a call that happens to write the
   pattern of one is seen in the other. */
enum { STACKS = 2 };
enum size { USUAL, LARGE, SIZES };

static struct painted painted_stacks[SIZES][STACKS] = {
    [USUAL] = {{0xA5C35A3C96E10FD2, 1 << 15, 0, 0}, {0x1B7E482DF3906C55, 1 << 15, 0, 0}},
    [LARGE] = {{0xA5C35A3C96E10FD2, 1 << 17, 0, 0}, {0x1B7E482DF3906C55, 1 << 17, 0, 0}},
};

static void stop(const char *what) {
    fprintf(stderr, "tools/stack: %s\n", what);
    exit(2);
}

/* Makes a stack if there is none yet, and paints the words that are not painted. */
static void paint(struct painted *stack) {
    if (stack->words == NULL) {
        size_t bytes = GUARD_BYTES + stack->count * sizeof *stack->words;
        char *start = mmap(NULL, bytes, PROT_READ | PROT_WRITE, MAP_PRIVATE | MAP_ANONYMOUS, -1, 0);
        if (start == MAP_FAILED || mprotect(start, GUARD_BYTES, PROT_NONE) != 0)
            stop("no memory for a stack");
        stack->words = (uint64_t *)(void *)(start + GUARD_BYTES);
    }
    for (; stack->clean < stack->count; stack->clean++)
        stack->words[stack->clean] = stack->pattern;
}

static void (*painted_job)(void);

/* The lowest frame above the job's. What the switch of stacks writes stays in the room above it. */
static void painted_top(void) {
    volatile char room[1024];
    room[0] = 0;
    painted_job();
    room[1] = room[0];
}

/* Runs a job on a painted stack. */
static void run_on(struct painted *stack, void (*job)(void)) {
    static ucontext_t here, there;
    if (getcontext(&there) != 0)
        stop("no context");
    there.uc_stack.ss_sp = stack->words;
    there.uc_stack.ss_size = stack->count * sizeof *stack->words;
    there.uc_link = &here;
    painted_job = job;
    makecontext(&there, painted_top, 0);
    if (swapcontext(&here, &there) != 0)
        stop("no switch of stacks");
}

/* The bytes from the top of a painted stack down to the lowest word that a job changes. */
static size_t depth_on(struct painted *stack, void (*job)(void)) {
    size_t low = 0;
    paint(stack);
    run_on(stack, job);
    while (low < stack->count && stack->words[low] == stack->pattern)
        low++;
    if (low == 0)
        stop("the painted stack is too small");
    stack->clean = low;
    return (stack->count - low) * sizeof *stack->words;
}

/* The same on both stacks of a size: the deeper one. */
static size_t depth_of(void (*job)(void), enum size size) {
    size_t most = 0;
    for (int stack = 0; stack < STACKS; stack++) {
        size_t depth = depth_on(&painted_stacks[size][stack], job);
        most = depth > most ? depth : most;
    }
    return most;
}

#endif
