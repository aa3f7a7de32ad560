/* The twelve functions as jobs for a painted stack, and what a call of each takes beyond an empty function's. */
#ifndef STACK_CALLS_H
#define STACK_CALLS_H

#include "shigthapul.h"
#include "paint.h"

/* The check and the two writers stand here twice, as what they take goes by the pool's rows: few, up to
   SHIGTHAPUL_SMALL_ROWS, and any number. */
enum function {
    ONE_EXPRESSION, ONE_STATEMENT, WHOLE_SCRIPT, READ_FILE, FOLD, TEXT,
    CHECK_SMALL, WRITE_SMALL, JSON_SMALL, CHECK_FEW, WRITE_FEW, JSON_FEW, CHECK, WRITE, JSON, FUNCTIONS
};

/* The largest inputs: tokens of an array, bytes of a file, and bytes of a payload, which has no limit of its own. */
enum { MOST_TOKENS = 32768, MOST_BYTES = 60000, MOST_PAYLOAD = 1 << 20 };
enum { POOL_WORDS = SHIGTHAPUL_ROW_WORDS * SHIGTHAPUL_MOST_ROWS };
enum { WRITTEN_TOKENS = SHIGTHAPUL_ROW_TOKENS * SHIGTHAPUL_MOST_ROWS };

/* The bytes of a row's JSON text with a short payload, and of the longest text: every row, and a file's bytes beside. */
enum { MOST_ROW_TEXT = SHIGTHAPUL_ROW_BYTES + 32 };
enum { MOST_TEXT = MOST_ROW_TEXT * SHIGTHAPUL_MOST_ROWS + SHIGTHAPUL_PAYLOAD_BYTES * MOST_BYTES };

/* What is lent, with a little room past the limits. */
static uint16_t lent_tokens[MOST_TOKENS + 2];
static uint32_t lent_pool[POOL_WORDS];
static uint8_t lent_bytes[MOST_PAYLOAD];
static uint8_t lent_work[MOST_PAYLOAD];
static uint16_t lent_words[WRITTEN_TOKENS];
static uint32_t lent_places[WRITTEN_TOKENS];
static uint8_t lent_json[MOST_TEXT];

/* How much of it, in which mode, and the answer. */
static struct {
    size_t tokens, start, pool, bytes, work, root, words, places, json;
    bool strict;
} lent;
static struct shigthapul_answer answer;

typedef void from_place(const uint16_t *, size_t, uint32_t *, size_t, size_t, bool, uint64_t *, size_t);
typedef void from_front(const uint16_t *, size_t, uint32_t *, size_t, bool, uint64_t *, size_t);
typedef void from_file(const uint8_t *, size_t, uint16_t *, size_t, uint64_t *, size_t);
typedef void to_work(const uint8_t *, size_t, uint8_t *, size_t, uint64_t *, size_t);
typedef void from_work(const uint8_t *, size_t, const uint8_t *, size_t, uint64_t *, size_t);
typedef void of_tree(const uint32_t *, size_t, size_t, uint64_t *, size_t);
typedef void to_tokens(const uint32_t *, size_t, size_t, uint16_t *, size_t, uint32_t *, size_t, uint64_t *, size_t);
typedef void to_json(const uint32_t *, size_t, size_t, const uint8_t *, size_t, uint8_t *, size_t, uint64_t *, size_t);

/* A function of one of these types, or the empty function below. */
union callee {
    from_place *from_place;
    from_front *from_front;
    from_file *from_file;
    to_work *to_work;
    from_work *from_work;
    of_tree *of_tree;
    to_tokens *to_tokens;
    to_json *to_json;
    void (*empty)(void);
};

/* What a job calls: volatile, so that a job is the same code whatever it calls. */
static volatile union callee call;

static void job_from_place(void) {
    call.from_place(lent_tokens, lent.tokens, lent_pool, lent.pool, lent.start, lent.strict, answer.words,
                    SHIGTHAPUL_ANSWER_WORDS);
}

static void job_from_front(void) {
    call.from_front(lent_tokens, lent.tokens, lent_pool, lent.pool, lent.strict, answer.words, SHIGTHAPUL_ANSWER_WORDS);
}

static void job_from_file(void) {
    call.from_file(lent_bytes, lent.bytes, lent_tokens, lent.tokens, answer.words, SHIGTHAPUL_ANSWER_WORDS);
}

static void job_to_work(void) {
    call.to_work(lent_bytes, lent.bytes, lent_work, lent.work, answer.words, SHIGTHAPUL_ANSWER_WORDS);
}

static void job_from_work(void) {
    call.from_work(lent_bytes, lent.bytes, lent_work, lent.work, answer.words, SHIGTHAPUL_ANSWER_WORDS);
}

static void job_of_tree(void) {
    call.of_tree(lent_pool, lent.pool, lent.root, answer.words, SHIGTHAPUL_ANSWER_WORDS);
}

static void job_to_tokens(void) {
    call.to_tokens(lent_pool, lent.pool, lent.root, lent_words, lent.words, lent_places, lent.places, answer.words,
                   SHIGTHAPUL_ANSWER_WORDS);
}

static void job_to_json(void) {
    call.to_json(lent_pool, lent.pool, lent.root, lent_bytes, lent.bytes, lent_json, lent.json, answer.words,
                 SHIGTHAPUL_ANSWER_WORDS);
}

/* An empty function. By the rules of calls on x86-64 it can be called with any arguments. */
static void nothing(void) {
}

/* The job of each function, and what it calls there. */
static const struct {
    void (*job)(void);
    union callee callee;
} JOBS[FUNCTIONS] = {
    [ONE_EXPRESSION] = {job_from_place, {.from_place = shigthapul_one_expression}},
    [ONE_STATEMENT] = {job_from_place, {.from_place = shigthapul_one_statement}},
    [WHOLE_SCRIPT] = {job_from_front, {.from_front = shigthapul_whole_script}},
    [READ_FILE] = {job_from_file, {.from_file = shigthapul_read_file}},
    [FOLD] = {job_to_work, {.to_work = shigthapul_fold}},
    [TEXT] = {job_from_work, {.from_work = shigthapul_text}},
    [CHECK_SMALL] = {job_of_tree, {.of_tree = shigthapul_check_small}},
    [WRITE_SMALL] = {job_to_tokens, {.to_tokens = shigthapul_write_small}},
    [JSON_SMALL] = {job_to_json, {.to_json = shigthapul_json_small}},
    [CHECK_FEW] = {job_of_tree, {.of_tree = shigthapul_check}},
    [WRITE_FEW] = {job_to_tokens, {.to_tokens = shigthapul_write}},
    [JSON_FEW] = {job_to_json, {.to_json = shigthapul_json}},
    [CHECK] = {job_of_tree, {.of_tree = shigthapul_check}},
    [WRITE] = {job_to_tokens, {.to_tokens = shigthapul_write}},
    [JSON] = {job_to_json, {.to_json = shigthapul_json}},
};

/* The depth of a function's job, which calls that function, or the empty one. */
static size_t depth_with(enum function function, union callee called) {
    call = called;
    return depth_of(JOBS[function].job, function < CHECK_SMALL ? USUAL : LARGE);
}

/* The bytes of stack that a call of a function takes with what is lent, beyond those of the empty function. */
static size_t bytes_of(enum function function) {
    static size_t empty[FUNCTIONS];
    if (empty[function] == 0)
        empty[function] = depth_with(function, (union callee){.empty = nothing});
    return depth_with(function, JOBS[function].callee) - empty[function];
}

#endif
