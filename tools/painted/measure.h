/* What has been measured: the worst call of each function, and answers that are not the expected ones. */
#ifndef STACK_MEASURE_H
#define STACK_MEASURE_H

#include "nests.h"

static const char *const NAMES[FUNCTIONS] = {
    [ONE_EXPRESSION] = "one_expression",
    [ONE_STATEMENT] = "one_statement",
    [WHOLE_SCRIPT] = "whole_script",
    [READ_FILE] = "read_file",
    [FOLD] = "fold",
    [TEXT] = "text",
    [CHECK_SMALL] = "check_small",
    [WRITE_SMALL] = "write_small",
    [JSON_SMALL] = "json_small",
    [CHECK_FEW] = "check, up to 4,096 rows",
    [WRITE_FEW] = "write, up to 4,096 rows",
    [JSON_FEW] = "json, up to 4,096 rows",
    [CHECK] = "check",
    [WRITE] = "write",
    [JSON] = "json",
};

/* What the functions on trees may take at most: those that write JSON also keep an index of the file, and the rows of a
   path. */
enum { FEW_BYTES = 64 * 1024, MANY_BYTES = 384 * 1024, FEW_JSON_BYTES = 128 * 1024, MANY_JSON_BYTES = 448 * 1024 };

/* The mode that is lent, for the functions that read tokens. */
static const char *mode_of(enum function function) {
    return function > WHOLE_SCRIPT ? "" : lent.strict ? ", strict mode" : ", old mode";
}

static size_t larger(size_t a, size_t b) {
    return a > b ? a : b;
}

/* What has been found: the worst of each function, the calls that were measured, and the faults. */
static struct {
    size_t bytes;
    char what[300];
} worst[FUNCTIONS];
static unsigned long calls, faults;

/* Counts a fault, and says what the first of them are. */
static void fault(enum function function, const char *what, const char *name) {
    enum { SAID = 20 };
    if (faults++ >= SAID)
        return;
    fprintf(stderr, "tools/stack: %s%s: %s: %s: refusal %u at %zu of %zu tokens\n", NAMES[function], mode_of(function),
            what, name, (unsigned)shigthapul_refusal(&answer), shigthapul_place(&answer), lent.tokens);
}

/* Whether the answer is as expected: a refusal by its number; an acceptance, 0, up to the last token. */
static bool is_expected(enum function function, uint32_t refusal) {
    if (shigthapul_refusal(&answer) != refusal)
        return false;
    if (refusal != 0 || function > WHOLE_SCRIPT)
        return true;
    return shigthapul_place(&answer) == lent.tokens - (function == WHOLE_SCRIPT ? 1 : 2);
}

/* Measures a call with what is lent, and keeps it if it is the function's worst so far. */
static size_t measure(enum function function, const char *name, const char *how) {
    size_t bytes = bytes_of(function);
    calls++;
    if (bytes > worst[function].bytes || worst[function].what[0] == '\0') {
        worst[function].bytes = bytes;
        snprintf(worst[function].what, sizeof worst[function].what, "%s%s%s", name, how, mode_of(function));
    }
    return bytes;
}

/* The same, where a certain answer is expected. */
static size_t expect(enum function function, uint32_t refusal, const char *name, const char *how) {
    size_t bytes = measure(function, name, how);
    if (!is_expected(function, refusal))
        fault(function, "not the expected answer", name);
    return bytes;
}

/* Measures a nest by a function, with rows enough and with none. One with all open that may be is answered as its leaf
   is, and one form more is refused as too deep. So no nest can be shallower than it seems. */
static size_t measure_nest(enum function function, const struct nest *nest) {
    bool past = nest->count == MOST_OPEN;
    uint32_t refusal = past ? SHIGTHAPUL_REFUSED_TOO_DEEP : nest->leaf->refusal;
    const char *name = name_of(nest);
    lend_nest(nest, true);
    size_t with = expect(function, refusal, name, past ? ", one too deep" : "");
    lend_nest(nest, false);
    size_t without = measure(function, name, ", with no rows");
    if (shigthapul_is_accepted(&answer))
        fault(function, "accepted with no rows", name);
    return larger(with, without);
}

#endif
