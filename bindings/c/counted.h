/* Counts the checks of a test program. */
#ifndef SHIGTHAPUL_COUNTED_H
#define SHIGTHAPUL_COUNTED_H

#include <stdbool.h>
#include <stdio.h>

static int passed, failed;

/* Counts a check, and answers whether it holds. */
static inline bool counted(bool holds) {
    if (holds)
        passed++;
    else
        failed++;
    return holds;
}

/* Prints the counts, and answers the status of the program: 1 if a check failed or none was made. */
static inline int print_counts(void) {
    printf("%d passed; %d failed\n", passed, failed);
    return failed > 0 || passed == 0;
}

#endif
