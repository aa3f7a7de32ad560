/* The lines of a table of forms. */
#ifndef STACK_LINES_H
#define STACK_LINES_H

#include "paint.h"

#include <string.h>

/* A line: the form, its bytes for a level, or 0 for one that can't be in itself, and the bytes of the deepest nest. */
struct line {
    const char *name;
    double level;
    size_t bytes;
};

enum { MOST_LINES = 100 };

static struct line lines[MOST_LINES];
static size_t line_count;

/* Puts a line; of two with one name, and so of all infix operators, the worse stays. */
static void put_line(const char *name, double level, size_t bytes) {
    size_t at = 0;
    while (at < line_count && strcmp(lines[at].name, name) != 0)
        at++;
    if (at == MOST_LINES)
        stop("too many lines");
    if (at < line_count && lines[at].bytes >= bytes)
        return;
    line_count = at == line_count ? line_count + 1 : line_count;
    lines[at] = (struct line){name, level, bytes};
}

static int by_bytes(const void *a, const void *b) {
    const struct line *left = a, *right = b;
    return (left->bytes < right->bytes) - (left->bytes > right->bytes);
}

/* Prints the lines under a title, the worst first, and drops them. */
static void print_lines(const char *title) {
    qsort(lines, line_count, sizeof *lines, by_bytes);
    printf("\n%-60s %8s %8s\n", title, "a level", "deepest");
    for (size_t line = 0; line < line_count; line++) {
        printf("%-60s ", lines[line].name);
        if (lines[line].level > 0)
            printf("%8.1f", lines[line].level);
        else
            printf("%8s", "");
        printf(" %8zu\n", lines[line].bytes);
    }
    line_count = 0;
}

#endif
