/* Reads the worked examples of trees, oracle/trees.txt, on standard input, and has the C functions check and write each: in
   full and small, with room enough, just enough and one too little. Prints a line for each check that fails, then the
   counts; the status is 1 if any failed. */
#include <stdio.h>
#include <stdlib.h>
#include <string.h>

#include "counted.h"
#include "pooled.h"
#include "spelled.h"

/* The buffers have room for more tokens than any example has. */
enum { ROOM = 64, DIRT = 7 };

/* An example: its text, the root, the room that is lent, and the answer, 0 and the count of tokens or a refusal. */
static struct {
    char text[200];
    size_t root, words_room, places_room;
    uint32_t refusal;
    size_t value;
    uint16_t words[ROOM];
    uint32_t places[ROOM];
} example;

static void check(bool holds, const char *what) {
    if (!counted(holds))
        printf("%s: %s\n", what, example.text);
}

/* Takes what is written apart: the tokens, EOF behind them, and behind a bar the places that aren't 0. */
static void parse_written(char *text) {
    char *tokens = text, *places = strchr(text, '|');
    if (places != NULL)
        *places++ = '\0';
    for (char *token = strtok(tokens, " "); token != NULL; token = strtok(NULL, " "))
        example.words[example.value++] = spelled_token(token);
    example.words[example.value++] = shigthapul_word(SHIGTHAPUL_CLASS_EOF, 0);
    for (char *pair = places == NULL ? NULL : strtok(places, " "); pair != NULL; pair = strtok(NULL, " ")) {
        char *place;
        size_t token = strtoul(pair, &place, 10);
        example.places[token] = (uint32_t)strtoul(place + 1, NULL, 10);
    }
}

/* Takes a line of an example apart: the root, maybe the room behind a stroke, and the answer. */
static void parse_example(char *text) {
    unsigned refusal;
    memset(&example, 0, sizeof example);
    strcpy(example.text, text);
    char *answer = strchr(text, ':') + 1;
    if (sscanf(text, " %zu/%zu,%zu", &example.root, &example.words_room, &example.places_room) < 3)
        example.words_room = example.places_room = ROOM;
    if (sscanf(answer, " no %u %zu", &refusal, &example.value) == 2)
        example.refusal = refusal;
    else
        parse_written(answer);
}

static bool is_answer(const struct shigthapul_answer *answer, uint64_t number, uint64_t value) {
    return answer->words[0] == number && answer->words[1] == value && answer->words[2] == 0 && answer->words[3] == 0;
}

/* Checks the example's tree, in full or small. */
static void check_tree(bool small) {
    struct shigthapul_answer answer;
    bool is_tree = example.refusal != SHIGTHAPUL_REFUSED_NO_TREE;
    (small ? shigthapul_check_small : shigthapul_check)(pool, pool_length, example.root, answer.words,
                                                         SHIGTHAPUL_ANSWER_WORDS);
    check(is_answer(&answer, is_tree ? 0 : example.refusal, is_tree ? 0 : example.value), "the check");
}

/* Writes the example's tree into dirty buffers with so much room, and expects an answer, and the example's tokens if that
   is an acceptance. */
static void write_tree(bool small, size_t words_room, size_t places_room, uint32_t refusal, size_t value) {
    static uint16_t words[ROOM];
    static uint32_t places[ROOM];
    struct shigthapul_answer answer;
    bool same = true;
    memset(words, DIRT, sizeof words);
    memset(places, DIRT, sizeof places);
    (small ? shigthapul_write_small : shigthapul_write)(pool, pool_length, example.root, words, words_room, places,
                                                         places_room, answer.words, SHIGTHAPUL_ANSWER_WORDS);
    check(is_answer(&answer, refusal, value), "the writer");
    for (size_t at = 0; at < words_room; at++)
        same = same && words[at] == (refusal == 0 ? example.words[at] : 0);
    for (size_t at = 0; at < places_room; at++)
        same = same && places[at] == (refusal == 0 ? example.places[at] : 0);
    check(same, "the written words");
}

static void run_example(void) {
    for (int small = 0; small < 2; small++) {
        size_t count = example.value;
        check_tree(small);
        write_tree(small, example.words_room, example.places_room, example.refusal, example.value);
        if (example.refusal != 0)
            continue;
        write_tree(small, count, count, 0, count);
        write_tree(small, count - 1, ROOM, SHIGTHAPUL_REFUSED_TOO_SHORT, 0);
        write_tree(small, ROOM, count - 1, SHIGTHAPUL_REFUSED_TOO_SHORT, 0);
    }
}

int main(void) {
    char line[sizeof example.text];
    while (fgets(line, sizeof line, stdin) != NULL) {
        line[strcspn(line, "\n")] = '\0';
        if (*line == '#' || *line == '\0')
            continue;
        if (*line != ' ') {
            parse_rows(line);
        } else {
            parse_example(line);
            run_example();
        }
    }
    return print_counts();
}
