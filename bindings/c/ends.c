/* Reads the worked examples of rows' ends, oracle/ends.txt, on standard input, and checks them by the C functions in both
   modes: each end, that the row's place isn't past it, and that without that row the example is refused there for want of
   it. Prints a line for each check that fails, then the counts; the status is 1 if any failed. */
#include "worked.h"

static uint32_t pool[WORKED_POOL], less[WORKED_POOL];

/* Checks the row of a reference, which is to end at a place. */
static void check_row(uint32_t reference, uint32_t end, bool strict) {
    struct shigthapul_row row = shigthapul_row_at(pool, reference);
    struct shigthapul_answer refused = worked_read(less, SHIGTHAPUL_ROW_WORDS * ((size_t)reference - 1), strict);
    check(row.end == end && row.place <= end, "an end");
    check(shigthapul_refusal(&refused) == SHIGTHAPUL_REFUSED_NO_ROOM && shigthapul_place(&refused) == end,
          "the refusal without the row");
}

/* Checks the rows by a line: the word `ends`, and the end of each row. */
static void check_rows(const char *line, size_t rows, bool strict) {
    char ends[sizeof worked.text];
    uint32_t reference = 0;
    strcpy(ends, line);
    const char *word = strtok(ends, " \n");
    check(strcmp(word, "ends") == 0, "no ends");
    while ((word = strtok(NULL, " \n")) != NULL)
        if (++reference <= rows)
            check_row(reference, (uint32_t)strtoul(word, NULL, 10), strict);
    check(reference == rows, "the number of rows");
}

/* Checks an example in a mode. The old mode accepts all of them, strict mode all that lack no sign. */
static void check_example(const char *line, bool strict) {
    struct shigthapul_answer answer = worked_read(pool, worked.pool, strict);
    if (strict && shigthapul_refusal(&answer) == SHIGTHAPUL_REFUSED_WRONG_SIGN)
        return;
    check(shigthapul_is_accepted(&answer), "an example is refused");
    if (shigthapul_is_accepted(&answer))
        check_rows(line, shigthapul_rows(&answer), strict);
}

int main(void) {
    char line[sizeof worked.text];
    while (worked_line(line)) {
        if (*line != ' ') {
            worked_parse(line);
            continue;
        }
        check_example(line, false);
        check_example(line, true);
    }
    return print_counts();
}
