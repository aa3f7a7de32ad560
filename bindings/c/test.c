/* Tests of the header's helpers and of each C function. Prints a line for each check that fails, then the counts; the
   status is 1 if any failed. */
#include <stdio.h>
#include <string.h>

#include "counted.h"
#include "shigthapul.h"
#include "told.h"

enum {
    A = SHIGTHAPUL_CLASS_IDENTIFIER << 8,
    EMPTY = SHIGTHAPUL_CLASS_EMPTY << 8,
    END = SHIGTHAPUL_CLASS_EOF << 8,
    PLUS = SHIGTHAPUL_CLASS_OPERATOR << 8 | SHIGTHAPUL_SPlus,
    OPEN = SHIGTHAPUL_CLASS_OPERATOR << 8 | SHIGTHAPUL_SLParen,
    CLOSE = SHIGTHAPUL_CLASS_OPERATOR << 8 | SHIGTHAPUL_SRparen
};

#define LENGTH(array) (sizeof(array) / sizeof(array)[0])
#define ANSWER(answer) (answer).words, SHIGTHAPUL_ANSWER_WORDS
#define CHECK(holds) check(holds, #holds, __LINE__)

static uint32_t pool[10 * SHIGTHAPUL_ROW_WORDS];

static void check(bool holds, const char *text, int line) {
    if (!counted(holds))
        printf("line %d: %s\n", line, text);
}

static const struct shigthapul_row LEAF = {.kind = SHIGTHAPUL_KIND_IDENTIFIER, .place = 4, .end = 9};

/* How many words of the pool are not 0, from a row on. */
static size_t left(size_t row) {
    size_t count = 0;
    for (size_t i = row * SHIGTHAPUL_ROW_WORDS; i < LENGTH(pool); i++)
        count += pool[i] != 0;
    return count;
}

static void test_expression(void) {
    const uint16_t sum[] = {A, PLUS, A, END};
    struct shigthapul_answer answer;
    memset(pool, 7, sizeof pool);
    shigthapul_one_expression(sum, LENGTH(sum), pool, LENGTH(pool), 0, true, ANSWER(answer));
    CHECK(shigthapul_is_accepted(&answer) && shigthapul_refusal(&answer) == 0);
    CHECK(shigthapul_root(&answer) == 3 && shigthapul_rows(&answer) == 3 && shigthapul_place(&answer) == 2);
    CHECK(left(3) == 0);
    struct shigthapul_row row = shigthapul_row_at(pool, shigthapul_root(&answer));
    CHECK(row.kind == SHIGTHAPUL_KIND_INFIX && row.mark == SHIGTHAPUL_INFIX_PLUS && row.place == 1 && row.next == 0);
    CHECK(row.end == 2 && shigthapul_row_at(pool, 1).end == 0 && shigthapul_row_at(pool, 2).end == 2);
    CHECK(row.children[0] == 1 && row.children[1] == 2 && row.children[2] == 0 && row.children[3] == 0);
    CHECK(!shigthapul_has(&row, SHIGTHAPUL_KIND_CALL, SHIGTHAPUL_THREAD));
}

static void test_refusal(void) {
    const uint16_t group[] = {OPEN, A, CLOSE, END};
    struct shigthapul_answer answer;
    memset(pool, 7, sizeof pool);
    shigthapul_whole_script(group, LENGTH(group), pool, LENGTH(pool), true, ANSWER(answer));
    CHECK(!shigthapul_is_accepted(&answer));
    CHECK(shigthapul_refusal(&answer) == SHIGTHAPUL_REFUSED_INVALID_SYNTAX && shigthapul_place(&answer) == 1);
    CHECK(shigthapul_root(&answer) == 0 && shigthapul_rows(&answer) == 0 && shigthapul_count(&answer) == 0);
    CHECK(left(0) == 0);
}

static void test_statement(void) {
    const uint16_t blank[] = {A, EMPTY, END};
    struct shigthapul_answer answer;
    shigthapul_one_statement(blank, LENGTH(blank), pool, LENGTH(pool), 1, true, ANSWER(answer));
    CHECK(shigthapul_is_accepted(&answer) && shigthapul_root(&answer) == 0 && shigthapul_place(&answer) == 1);
    shigthapul_one_statement(blank, LENGTH(blank), pool, LENGTH(pool), 3, true, ANSWER(answer));
    CHECK(shigthapul_refusal(&answer) == SHIGTHAPUL_REFUSED_BAD_START && shigthapul_place(&answer) == 0);
}

/* By each function, a call from place 1 on that `a` closes: accepted in the old mode, and refused in strict mode. */
static void test_modes(void) {
    const uint16_t script[] = {A, A, OPEN, A, A, END};
    struct shigthapul_answer old, strict;
    shigthapul_one_expression(script, LENGTH(script), pool, LENGTH(pool), 1, false, ANSWER(old));
    shigthapul_one_expression(script, LENGTH(script), pool, LENGTH(pool), 1, true, ANSWER(strict));
    CHECK(shigthapul_is_accepted(&old) && shigthapul_place(&old) == 4);
    CHECK(shigthapul_refusal(&strict) == SHIGTHAPUL_REFUSED_WRONG_SIGN && shigthapul_place(&strict) == 3);
    shigthapul_one_statement(script, LENGTH(script), pool, LENGTH(pool), 1, false, ANSWER(old));
    shigthapul_one_statement(script, LENGTH(script), pool, LENGTH(pool), 1, true, ANSWER(strict));
    CHECK(shigthapul_is_accepted(&old) && shigthapul_place(&old) == 4);
    CHECK(shigthapul_refusal(&strict) == SHIGTHAPUL_REFUSED_WRONG_SIGN && shigthapul_place(&strict) == 3);
    shigthapul_whole_script(script, LENGTH(script), pool, LENGTH(pool), false, ANSWER(old));
    shigthapul_whole_script(script, LENGTH(script), pool, LENGTH(pool), true, ANSWER(strict));
    CHECK(shigthapul_is_accepted(&old) && shigthapul_place(&old) == 5);
    CHECK(shigthapul_refusal(&strict) == SHIGTHAPUL_REFUSED_WRONG_SIGN && shigthapul_place(&strict) == 3);
}

static void test_file(void) {
    const uint8_t file[] = {7, 0, 1, 'a', 2, 0, 0};
    uint16_t words[] = {9, 9, 9};
    struct shigthapul_answer answer;
    shigthapul_read_file(file, LENGTH(file), words, LENGTH(words), ANSWER(answer));
    CHECK(shigthapul_count(&answer) == 2 && words[0] == A && words[1] == END && words[2] == 0);
    shigthapul_read_file(file, LENGTH(file) - 1, words, LENGTH(words), ANSWER(answer));
    CHECK(shigthapul_refusal(&answer) == SHIGTHAPUL_REFUSED_BAD_FIELD && shigthapul_place(&answer) == 1);
    CHECK(words[0] == 0 && words[1] == 0 && words[2] == 0);
}

/* Fields whose payloads are Unicode, and their ends in the file. */
static const uint8_t FIELDS[] = {4, 0, 2, 0xC3, 0xA9, 6, 0, 4, 0, 0x10, 0xFF, 0xFF, 7, 0, 0, 2, 0, 0};
static const size_t ENDS[] = {5, 12, 15, 18};

/* A Char and then a text that are not Unicode: the first bad field decides. */
static void test_unicode(void) {
    uint8_t file[LENGTH(FIELDS)];
    uint16_t words[] = {9, 9, 9, 9, 9};
    struct shigthapul_answer answer;
    shigthapul_read_file(FIELDS, LENGTH(FIELDS), words, LENGTH(words), ANSWER(answer));
    CHECK(shigthapul_count(&answer) == LENGTH(ENDS) && words[1] == SHIGTHAPUL_CLASS_CHAR << 8 && words[4] == 0);
    memcpy(file, FIELDS, sizeof file);
    file[9] = 0x11;
    shigthapul_read_file(file, LENGTH(file), words, LENGTH(words), ANSWER(answer));
    CHECK(shigthapul_refusal(&answer) == SHIGTHAPUL_REFUSED_NOT_UNICODE && shigthapul_place(&answer) == 1);
    CHECK(words[0] == 0 && words[1] == 0 && words[2] == 0 && words[3] == 0 && words[4] == 0);
    file[4] = 0xC3;
    shigthapul_read_file(file, LENGTH(file), words, LENGTH(words), ANSWER(answer));
    CHECK(shigthapul_refusal(&answer) == SHIGTHAPUL_REFUSED_NOT_UNICODE && shigthapul_place(&answer) == 0);
}

static void test_fields(void) {
    struct shigthapul_bytes rest = {FIELDS, LENGTH(FIELDS)};
    struct shigthapul_field field;
    CHECK(shigthapul_next_field(&rest, &field) && field.token_class == SHIGTHAPUL_CLASS_STR);
    CHECK(field.payload.start == FIELDS + 3 && field.payload.length == 2);
    CHECK(shigthapul_char_of(field.payload) == UINT32_MAX);
    CHECK(shigthapul_next_field(&rest, &field) && field.token_class == SHIGTHAPUL_CLASS_CHAR);
    CHECK(shigthapul_char_of(field.payload) == 0x10FFFF);
    CHECK(shigthapul_next_field(&rest, &field) && field.token_class == SHIGTHAPUL_CLASS_IDENTIFIER);
    CHECK(field.payload.start == FIELDS + 15 && field.payload.length == 0);
    CHECK(shigthapul_next_field(&rest, &field) && field.token_class == SHIGTHAPUL_CLASS_EOF);
    CHECK(!shigthapul_next_field(&rest, &field) && field.token_class == SHIGTHAPUL_CLASS_EOF);
    CHECK(rest.start == FIELDS + LENGTH(FIELDS) && rest.length == 0);
}

/* Of a file that is cut anywhere, the fields that are whole, and what is left behind them. */
static void test_cut_fields(void) {
    for (size_t length = 0; length < LENGTH(FIELDS); length++) {
        struct shigthapul_bytes rest = {FIELDS, length};
        struct shigthapul_field field;
        size_t count = 0, end = 0;
        for (; shigthapul_next_field(&rest, &field); count++)
            end = ENDS[count];
        CHECK(ENDS[count] > length && rest.start == FIELDS + end && rest.length == length - end);
    }
}

static void test_text(void) {
    const uint8_t plain[] = {'a', '\\', 'b'}, paired[] = {'a', '\\', '\\', 'b'};
    uint8_t work[] = {'.', '.', '.', '.'};
    struct shigthapul_answer answer;
    shigthapul_fold(plain, LENGTH(plain), work, LENGTH(work), ANSWER(answer));
    CHECK(shigthapul_count(&answer) == 3 && memcmp(work, "....", 4) == 0);
    struct shigthapul_bytes text = shigthapul_text_of(plain, LENGTH(plain), work, LENGTH(work));
    CHECK(text.start == plain && text.length == 3);
    shigthapul_fold(paired, LENGTH(paired), work, LENGTH(work), ANSWER(answer));
    CHECK(shigthapul_count(&answer) == 3 && memcmp(work, "a\\b.", 4) == 0);
    text = shigthapul_text_of(paired, LENGTH(paired), work, LENGTH(work));
    CHECK(text.start == work && text.length == 3);
    CHECK(shigthapul_text_of(paired, LENGTH(paired), work, 2).length == 0);
    shigthapul_fold(paired, LENGTH(paired), work, 2, ANSWER(answer));
    CHECK(shigthapul_refusal(&answer) == SHIGTHAPUL_REFUSED_NO_ROOM);
}

static void test_tree(void) {
    struct shigthapul_row not = {.kind = SHIGTHAPUL_KIND_PREFIX, .mark = SHIGTHAPUL_PREFIX_NOT, .children = {1}};
    uint16_t words[] = {9, 9, 9, 9, 9, 9};
    uint32_t places[] = {9, 9, 9, 9, 9, 9};
    struct shigthapul_answer answer;
    shigthapul_put_row(pool, 1, &LEAF);
    shigthapul_put_row(pool, 2, &not);
    CHECK(shigthapul_row_at(pool, 1).place == 4 && shigthapul_row_at(pool, 2).children[0] == 1);
    CHECK(shigthapul_row_at(pool, 1).end == 9 && shigthapul_row_at(pool, 2).end == 0);
    shigthapul_check(pool, LENGTH(pool), 2, ANSWER(answer));
    CHECK(shigthapul_is_accepted(&answer) && shigthapul_count(&answer) == 0);
    shigthapul_write(pool, LENGTH(pool), 2, words, LENGTH(words), places, LENGTH(places), ANSWER(answer));
    CHECK(shigthapul_is_accepted(&answer) && shigthapul_count(&answer) == 5);
    CHECK(words[0] == OPEN && words[2] == A && words[3] == CLOSE && words[4] == END && words[5] == 0);
    CHECK(places[0] == 0 && places[1] == 0 && places[2] == 4 && places[3] == 0 && places[4] == 0 && places[5] == 0);
    CHECK(shigthapul_has_payload(words[2]) && !shigthapul_has_payload(words[1]) && !shigthapul_has_payload(words[4]));
    shigthapul_write_small(pool, LENGTH(pool), 2, words, 4, places, LENGTH(places), ANSWER(answer));
    CHECK(shigthapul_refusal(&answer) == SHIGTHAPUL_REFUSED_TOO_SHORT && shigthapul_count(&answer) == 0);
    CHECK(words[0] == 0 && words[4] == END && places[2] == 0);
    not.children[0] = 2;
    shigthapul_put_row(pool, 2, &not);
    shigthapul_check_small(pool, LENGTH(pool), 2, ANSWER(answer));
    CHECK(shigthapul_refusal(&answer) == SHIGTHAPUL_REFUSED_NO_TREE && shigthapul_place(&answer) == 2);
}

static void test_json(void) {
    const uint8_t file[] = {7, 0, 2, 0xC3, 0xA9};
    const char expected[] = "{\"kind\":\"identifier\",\"mark\":0,\"place\":0,\"payload\":\"\xC3\xA9\"}";
    struct shigthapul_row leaf = {.kind = SHIGTHAPUL_KIND_IDENTIFIER, .end = 9};
    uint8_t text[60];
    struct shigthapul_answer answer;
    shigthapul_put_row(pool, 1, &leaf);
    memset(text, 7, sizeof text);
    shigthapul_json(pool, LENGTH(pool), 1, file, LENGTH(file), text, LENGTH(text), ANSWER(answer));
    size_t length = shigthapul_count(&answer);
    CHECK(shigthapul_is_accepted(&answer) && length == strlen(expected));
    CHECK(strcmp((const char *)text, expected) == 0 && are_all(text + length, LENGTH(text) - length, 0));
    shigthapul_json_small(pool, LENGTH(pool), 1, file, LENGTH(file), text, length - 1, ANSWER(answer));
    CHECK(shigthapul_refusal(&answer) == SHIGTHAPUL_REFUSED_TOO_SHORT && shigthapul_place(&answer) == 0);
    CHECK(shigthapul_count(&answer) == 0 && are_all(text, length - 1, 0) && text[length - 1] == '}');
    shigthapul_json(pool, LENGTH(pool), 1, file, LENGTH(file) - 1, text, LENGTH(text), ANSWER(answer));
    CHECK(shigthapul_refusal(&answer) == SHIGTHAPUL_REFUSED_BAD_FIELD && are_all(text, LENGTH(text), 0));
    leaf.place = 1;
    shigthapul_put_row(pool, 1, &leaf);
    shigthapul_json_small(pool, LENGTH(pool), 1, file, LENGTH(file), text, LENGTH(text), ANSWER(answer));
    CHECK(shigthapul_refusal(&answer) == SHIGTHAPUL_REFUSED_NO_TREE && shigthapul_place(&answer) == 1);
}

/* The rows of a pool that nests, by the most that a path may have, and the room for its text. */
enum { PATH = 128, NEST = 2 * PATH + 1, NEST_ROOM = SHIGTHAPUL_ROW_BYTES * NEST };

/* By both functions, the answer to a nest of names, and what it leaves. */
static void check_nest(const uint32_t *nest, uint32_t root, uint32_t refusal, size_t place) {
    const uint8_t file[] = {7, 0, 1, 'a'};
    static uint8_t text[NEST_ROOM];
    struct shigthapul_answer answer, small;
    size_t words = (size_t)SHIGTHAPUL_ROW_WORDS * root;
    shigthapul_json_small(nest, words, root, file, LENGTH(file), text, LENGTH(text), ANSWER(small));
    memset(text, 7, sizeof text);
    shigthapul_json(nest, words, root, file, LENGTH(file), text, LENGTH(text), ANSWER(answer));
    size_t length = shigthapul_count(&answer);
    CHECK(memcmp(&answer, &small, sizeof small) == 0 && shigthapul_refusal(&answer) == refusal);
    CHECK(refusal == 0 ? length > 0 && text[length - 1] == '}' : shigthapul_place(&answer) == place);
    CHECK(are_all(text + length, LENGTH(text) - length, 0));
}

/* A name behind `!`, and names in a chain, as often as to have 128 rows on a path and one more. */
static void test_deep_json(void) {
    static uint32_t nest[NEST * SHIGTHAPUL_ROW_WORDS];
    const struct shigthapul_row leaf = {.kind = SHIGTHAPUL_KIND_IDENTIFIER};
    shigthapul_put_row(nest, 1, &leaf);
    for (uint32_t root = 2; root <= PATH + 1; root++) {
        struct shigthapul_row not = {.kind = SHIGTHAPUL_KIND_PREFIX, .children = {root - 1}};
        not.mark = SHIGTHAPUL_PREFIX_NOT;
        shigthapul_put_row(nest, root, &not);
    }
    check_nest(nest, PATH, 0, 0);
    check_nest(nest, PATH + 1, SHIGTHAPUL_REFUSED_DEEP_TREE, 1);
    for (uint32_t root = 3; root <= NEST; root += 2) {
        struct shigthapul_row sum = {.kind = SHIGTHAPUL_KIND_INFIX, .children = {root - 2, root - 1}};
        shigthapul_put_row(nest, root - 1, &leaf);
        shigthapul_put_row(nest, root, &sum);
    }
    check_nest(nest, NEST - 2, 0, 0);
    check_nest(nest, NEST, SHIGTHAPUL_REFUSED_DEEP_TREE, 1);
}

static void test_numbers(void) {
    CHECK(sizeof(struct shigthapul_row) == SHIGTHAPUL_ROW_WORDS * sizeof pool[0]);
    CHECK(shigthapul_word(SHIGTHAPUL_CLASS_KEYWORD, SHIGTHAPUL_KAsync) == 0x091B);
    CHECK(strcmp(shigthapul_symbol_text(SHIGTHAPUL_SImpl), "=>") == 0);
    CHECK(strcmp(shigthapul_kind_text(SHIGTHAPUL_KIND_FOREACH), "foreach") == 0);
    CHECK(strcmp(shigthapul_refusal_text(7), "?") == 0 && strcmp(shigthapul_refusal_text(31), "?") == 0);
    CHECK(strncmp(shigthapul_refusal_text(34), "too deep for a JSON text", 24) == 0);
}

static void test_short_answer(void) {
    const uint16_t empty[] = {END};
    uint64_t words[] = {9, 9, 9};
    shigthapul_whole_script(empty, LENGTH(empty), pool, LENGTH(pool), true, words, 2);
    CHECK(words[0] == 0 && words[1] == 1 && words[2] == 9);
    uint8_t none[1] = {9};
    shigthapul_json(pool, LENGTH(pool), 0, FIELDS, 0, none, 0, words, 1);
    CHECK(words[0] == SHIGTHAPUL_REFUSED_NO_TREE && words[1] == 1 && words[2] == 9 && *none == 9);
}

int main(void) {
    test_expression();
    test_refusal();
    test_statement();
    test_modes();
    test_file();
    test_unicode();
    test_fields();
    test_cut_fields();
    test_text();
    test_tree();
    test_json();
    test_deep_json();
    test_numbers();
    test_short_answer();
    return print_counts();
}
