/* Measures how much stack the twelve functions take, and prints tables: the deepest nests of every form, mixes of them, and
   the largest inputs, in both modes; and trees. The status is 1 if a nest is not as deep as it should be, or if a function
   on trees takes more than it may. */
#define _XOPEN_SOURCE 700
#define _DEFAULT_SOURCE

#include "inputs.h"
#include "json.h"
#include "mixes.h"
#include "patterns.h"
#include "self_test.h"
#include "trees.h"

/* Prints the lines of what a function has read, in the mode that is lent. */
static void print_read(const char *what, enum function function) {
    char title[80];
    snprintf(title, sizeof title, "%s, by %s%s", what, NAMES[function], mode_of(function));
    print_lines(title);
}

static void all_expressions(void) {
    for (size_t pattern = 0; pattern < pattern_count; pattern++)
        pattern_nests(ONE_EXPRESSION, &patterns[pattern], AN_EXPRESSION, pattern_name(&patterns[pattern]));
    print_read("Forms of expressions", ONE_EXPRESSION);
}

static void all_statements(enum function function) {
    for (size_t body = 0; body < COUNT(BODIES); body++)
        body_nests(function, &BODIES[body]);
    print_read("Statements in statements", function);
    for (size_t taker = 0; taker < COUNT(TAKERS); taker++)
        taker_nests(function, &TAKERS[taker]);
    print_read("Expressions in a statement", function);
    all_splits(function);
}

/* What mixes and flat inputs of a function take at most. */
static void print_others(void) {
    printf("\n%-60s %8s %8s\n", lent.strict ? "By function, strict mode" : "By function, old mode", "mixes", "flat");
    for (int function = ONE_EXPRESSION; function <= WHOLE_SCRIPT; function++) {
        size_t mixes = mix_nests((enum function)function);
        size_t flats = flat_inputs((enum function)function);
        bad_arrays((enum function)function);
        printf("%-60s %8zu %8zu\n", NAMES[function], mixes, flats);
    }
}

/* The functions that read tokens, in a mode. */
static void all_readers(bool strict) {
    lent.strict = strict;
    all_expressions();
    all_statements(ONE_STATEMENT);
    all_statements(WHOLE_SCRIPT);
    print_others();
}

static void print_worst(void) {
    printf("\nBytes of stack of a call, at most, and with what\n");
    for (int function = 0; function < FUNCTIONS; function++)
        if (worst[function].what[0] != '\0')
            printf("%-24s %8zu  %s\n", NAMES[function], worst[function].bytes, worst[function].what);
    printf("stack: %lu calls measured, %lu faults\n", calls, faults);
}

int main(int count, char **words) {
    bool self_only = count == 2 && strcmp(words[1], "--self-test") == 0;
    bool trees_only = count == 2 && strcmp(words[1], "--trees") == 0;
    if (count != 1 && !self_only && !trees_only)
        stop("usage: tools/stack [--self-test | --trees]");
    make_patterns();
    if (!self_test())
        return 1;
    if (self_only)
        return 0;
    if (!trees_only) {
        all_readers(false);
        all_readers(true);
        files();
        texts();
        payloads();
    }
    all_trees();
    all_jsons();
    print_worst();
    return faults == 0 ? 0 : 1;
}
