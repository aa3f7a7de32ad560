/* Reads the worked examples of strict mode, oracle/modes.txt, on standard input, and checks their answers in both modes by
   the C functions; the trees only by their last place, and by the two modes having the same. Prints a line for each check
   that fails, then the counts; the status is 1 if any failed. */
#include "worked.h"

enum { MODES = 2 };

/* What was read, by mode: the answer, also as a line of the table, and the pool. */
static struct {
    struct shigthapul_answer answer;
    char line[40];
    uint32_t pool[WORKED_POOL];
} found[MODES];

/* Writes the answer of a mode as the table has it, but for the tree. */
static void write_line(bool strict) {
    const struct shigthapul_answer *answer = &found[strict].answer;
    size_t place = shigthapul_place(answer);
    if (shigthapul_is_accepted(answer))
        snprintf(found[strict].line, sizeof found[strict].line, "ok %zu", place);
    else
        snprintf(found[strict].line, sizeof found[strict].line, "no %u %zu", (unsigned)shigthapul_refusal(answer), place);
}

/* Whether every word of a mode's pool is 0 behind the rows of its answer. */
static bool is_clean(bool strict) {
    for (size_t word = SHIGTHAPUL_ROW_WORDS * shigthapul_rows(&found[strict].answer); word < worked.pool; word++)
        if (found[strict].pool[word] != 0)
            return false;
    return true;
}

/* Reads the example in both modes. What strict mode accepts has the same answer and the same rows in the old one. */
static void read_example(const char *text) {
    worked_parse(text);
    for (int strict = 0; strict < MODES; strict++) {
        found[strict].answer = worked_read(found[strict].pool, worked.pool, strict);
        write_line(strict);
        check(is_clean(strict), "a word is left in the pool");
    }
    if (shigthapul_is_accepted(&found[true].answer)) {
        check(memcmp(&found[false].answer, &found[true].answer, sizeof found[true].answer) == 0, "the answers differ");
        check(memcmp(found[false].pool, found[true].pool, sizeof found[true].pool) == 0, "the rows differ");
    }
}

/* Whether a mode's answer is that of a line, which may go on with a tree; `same` is the old mode's. */
static bool is_line(bool strict, const char *line) {
    line += strspn(line, " ");
    if (strcmp(line, "same\n") == 0)
        return strcmp(found[strict].line, found[false].line) == 0;
    size_t length = strlen(found[strict].line);
    return strncmp(line, found[strict].line, length) == 0 && (line[length] == ' ' || line[length] == '\n');
}

int main(void) {
    char line[sizeof worked.text];
    int answers = MODES;
    while (worked_line(line)) {
        if (*line == ' ') {
            check(answers < MODES && is_line(answers, line), answers == 0 ? "old mode" : "strict mode");
            answers++;
        } else {
            check(answers == MODES, "an example has too few answers");
            read_example(line);
            answers = 0;
        }
    }
    return print_counts();
}
