/* Reads a token file on standard input and prints its tree as an outline, or why it is refused.

   example            a line for each row, indented: kind, operator or flags, place
   example --rows     the lines of the program `outline`: the answer, and the words of each row
   example --strict   the same as either, in strict mode and not in the old one

   The status is 0 where the script is accepted, 1 where it is refused, 2 where the command is wrong. */
#include <inttypes.h>
#include <stdio.h>
#include <string.h>

#include "shigthapul.h"
#include "worded.h"

/* The buffers of the program `outline`: the longest file and a byte more, its tokens, its rows. */
enum { BYTES = 60001, TOKENS = 20000, ROWS = 1800, POOL = ROWS * SHIGTHAPUL_ROW_WORDS };

static uint8_t bytes[BYTES];
static uint16_t tokens[TOKENS];
static uint32_t pool[POOL];

/* A row that is still to be printed. A row comes up once, so there is room for all of them. */
static struct {
    uint32_t reference;
    int depth;
} waiting[ROWS];

/* Reads the file's fields, and the script that they are, in strict mode or in the old one. */
static struct shigthapul_answer read_script(size_t length, bool strict) {
    struct shigthapul_answer answer;
    shigthapul_read_file(bytes, length, tokens, TOKENS, answer.words, SHIGTHAPUL_ANSWER_WORDS);
    if (shigthapul_is_accepted(&answer)) {
        size_t count = shigthapul_count(&answer);
        shigthapul_whole_script(tokens, count, pool, POOL, strict, answer.words, SHIGTHAPUL_ANSWER_WORDS);
    }
    return answer;
}

/* Prints the lines of `outline`. */
static void print_rows(const struct shigthapul_answer *answer) {
    if (!shigthapul_is_accepted(answer)) {
        printf("no %" PRIu32 " %zu\n", shigthapul_refusal(answer), shigthapul_place(answer));
        return;
    }
    size_t words = shigthapul_rows(answer) * SHIGTHAPUL_ROW_WORDS;
    printf("ok %" PRIu32 " %zu %zu\n", shigthapul_root(answer), shigthapul_rows(answer), shigthapul_place(answer));
    for (size_t i = 0; i < words; i++)
        printf("%" PRIu32 "%c", pool[i], (i + 1) % SHIGTHAPUL_ROW_WORDS == 0 ? '\n' : ' ');
}

/* Has a row printed before those that wait already; nothing for reference 0. */
static void push(size_t *count, uint32_t reference, int depth) {
    if (reference == 0)
        return;
    waiting[*count].reference = reference;
    waiting[*count].depth = depth;
    *count += 1;
}

/* Prints the tree below a root. A tree may be as deep as it has rows, so this takes no recursion. */
static void print_tree(uint32_t root) {
    size_t count = 0;
    push(&count, root, 0);
    while (count > 0) {
        count -= 1;
        int depth = waiting[count].depth;
        struct shigthapul_row row = shigthapul_row_at(pool, waiting[count].reference);
        printf("%*s", 2 * depth, "");
        print_row(&row);
        putchar('\n');
        push(&count, row.next, depth);
        for (size_t slot = SHIGTHAPUL_CHILDREN; slot-- > 0;)
            push(&count, row.children[slot], depth + 1);
    }
}

/* Prints the tree, or the refusal with what it means. */
static void print_outline(const struct shigthapul_answer *answer) {
    uint32_t refusal = shigthapul_refusal(answer);
    if (shigthapul_is_accepted(answer))
        print_tree(shigthapul_root(answer));
    else
        printf("refused %" PRIu32 " at %zu: %s\n", refusal, shigthapul_place(answer), shigthapul_refusal_text(refusal));
}

/* Takes an option off the front of the command's words, if it is there. */
static bool take(char ***words, const char *option) {
    bool there = **words != NULL && strcmp(**words, option) == 0;
    *words += there;
    return there;
}

int main(int count, char **words) {
    words += count > 0;
    bool strict = take(&words, "--strict"), rows = take(&words, "--rows");
    if (*words != NULL) {
        fputs("usage: example [--strict] [--rows] < FILE.tok\n", stderr);
        return 2;
    }
    struct shigthapul_answer answer = read_script(fread(bytes, 1, BYTES, stdin), strict);
    if (rows)
        print_rows(&answer);
    else
        print_outline(&answer);
    return shigthapul_is_accepted(&answer) ? 0 : 1;
}
