/* Reads a token file on standard input, changes the tree of its script, and prints the script anew:

   - the operands of the first infix row change places;
   - behind the last statement comes another one, which returns the last name of the script.

   editor            reads in the old mode
   editor --strict   reads in strict mode

   The status is 0 where the script is accepted, 1 where it is refused, 2 where the command is wrong. */
#include <inttypes.h>
#include <stdio.h>
#include <string.h>

#include "printed.h"
#include "shigthapul.h"

/* The longest file and a byte more, its tokens, the rows that are added to those of its tree, and what is written. */
enum {
    BYTES = 60001,
    TOKENS = 20000,
    ADDED = 3,
    POOL = SHIGTHAPUL_TOKEN_WORDS * TOKENS + SHIGTHAPUL_ROW_WORDS * ADDED,
    WRITTEN = POOL / SHIGTHAPUL_ROW_WORDS * SHIGTHAPUL_ROW_TOKENS
};

static uint8_t file[BYTES];
static struct shigthapul_field fields[TOKENS];
static uint16_t tokens[TOKENS], words[WRITTEN];
static uint32_t pool[POOL], places[WRITTEN];

/* A script in the pool: its root, and how many rows there are. */
struct script {
    uint32_t root, rows;
};

static struct shigthapul_bytes payload_at(size_t place) {
    return fields[place].payload;
}

/* Reads the file's fields, and the script that they are. */
static struct shigthapul_answer read_script(bool strict) {
    struct shigthapul_answer answer;
    size_t length = fread(file, 1, BYTES, stdin);
    shigthapul_read_file(file, length, tokens, TOKENS, answer.words, SHIGTHAPUL_ANSWER_WORDS);
    struct shigthapul_bytes rest = {file, length};
    size_t count = shigthapul_count(&answer);
    for (size_t place = 0; place < count; place++)
        shigthapul_next_field(&rest, &fields[place]);
    if (shigthapul_is_accepted(&answer))
        shigthapul_whole_script(tokens, count, pool, POOL, strict, answer.words, SHIGTHAPUL_ANSWER_WORDS);
    return answer;
}

/* Has the operands of the first infix row change places. Both are earlier rows, so they still are. */
static void swap_operands(const struct script *script) {
    for (uint32_t reference = 1; reference <= script->rows; reference++) {
        struct shigthapul_row row = shigthapul_row_at(pool, reference);
        if (row.kind != SHIGTHAPUL_KIND_INFIX)
            continue;
        uint32_t left = row.children[0];
        row.children[0] = row.children[1];
        row.children[1] = left;
        shigthapul_put_row(pool, reference, &row);
        return;
    }
}

/* Adds a row behind all others, and gives its reference. */
static uint32_t append(struct script *script, struct shigthapul_row row) {
    shigthapul_put_row(pool, ++script->rows, &row);
    return script->rows;
}

/* Adds a row with the last name of the script, whose place tells it; 0 if there is no name. */
static uint32_t append_name(struct script *script) {
    for (uint32_t reference = script->rows; reference > 0; reference--) {
        struct shigthapul_row row = shigthapul_row_at(pool, reference);
        if (row.kind == SHIGTHAPUL_KIND_IDENTIFIER)
            return append(script, (struct shigthapul_row){.kind = SHIGTHAPUL_KIND_IDENTIFIER, .place = row.place});
    }
    return 0;
}

/* Adds a statement to the script's block. A list may go on with any later row, but a row's own children come before it:
   so a block that was empty is made anew. */
static void add_statement(struct script *script, uint32_t statement) {
    struct shigthapul_row block = shigthapul_row_at(pool, script->root);
    uint32_t last = block.children[0];
    if (last == 0) {
        block.children[0] = statement;
        script->root = append(script, block);
        return;
    }
    struct shigthapul_row row = shigthapul_row_at(pool, last);
    while (row.next != 0) {
        last = row.next;
        row = shigthapul_row_at(pool, last);
    }
    row.next = statement;
    shigthapul_put_row(pool, last, &row);
}

static void add_return(struct script *script) {
    uint32_t name = append_name(script);
    struct shigthapul_row row = {.kind = SHIGTHAPUL_KIND_RETURN, .children = {name}};
    add_statement(script, append(script, row));
}

/* Changes the script's tree, checks that it still is one, and writes it. The check alone is enough for an editor that goes
   on with the tree; the writer makes it as well. */
static struct shigthapul_answer change(struct script script) {
    struct shigthapul_answer answer;
    swap_operands(&script);
    add_return(&script);
    size_t length = SHIGTHAPUL_ROW_WORDS * (size_t)script.rows;
    shigthapul_check(pool, length, script.root, answer.words, SHIGTHAPUL_ANSWER_WORDS);
    if (shigthapul_is_accepted(&answer))
        shigthapul_write(pool, length, script.root, words, WRITTEN, places, WRITTEN, answer.words,
                         SHIGTHAPUL_ANSWER_WORDS);
    return answer;
}

int main(int count, char **arguments) {
    bool strict = count == 2 && strcmp(arguments[1], "--strict") == 0;
    if (count > 1 && !strict) {
        fputs("usage: editor [--strict] < FILE.tok\n", stderr);
        return 2;
    }
    struct shigthapul_answer answer = read_script(strict);
    if (shigthapul_is_accepted(&answer))
        answer = change((struct script){shigthapul_root(&answer), (uint32_t)shigthapul_rows(&answer)});
    uint32_t refusal = shigthapul_refusal(&answer);
    if (shigthapul_is_accepted(&answer))
        print_script(words, places, shigthapul_count(&answer), payload_at);
    else
        printf("refused %" PRIu32 " at %zu: %s\n", refusal, shigthapul_place(&answer), shigthapul_refusal_text(refusal));
    return shigthapul_is_accepted(&answer) ? 0 : 1;
}
