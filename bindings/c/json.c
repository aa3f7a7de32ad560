/* Reads a token file on standard input, and prints the tree of its script as a JSON text on one line.

   json            reads in the old mode
   json --strict   reads in strict mode

   The status is 0 where the text is written, 1 where it is refused, 2 where the command is wrong. */
#include <inttypes.h>
#include <stdio.h>
#include <string.h>

#include "shigthapul.h"

/* The longest file and a byte more, its tokens, the rows that are enough for any script of so many, and room for the text
   of any such tree. */
enum {
    BYTES = 60001,
    TOKENS = 20000,
    POOL = SHIGTHAPUL_TOKEN_WORDS * TOKENS,
    ROOM = SHIGTHAPUL_ROW_BYTES * (POOL / SHIGTHAPUL_ROW_WORDS) + SHIGTHAPUL_PAYLOAD_BYTES * BYTES
};

static uint8_t file[BYTES], text[ROOM];
static uint16_t tokens[TOKENS];
static uint32_t pool[POOL];

/* Reads the file's fields and the script that they are, and writes its tree. Just the rows that are used are lent then, so
   that the call takes no more stack than they need. */
static struct shigthapul_answer write_text(size_t length, bool strict) {
    struct shigthapul_answer answer;
    shigthapul_read_file(file, length, tokens, TOKENS, answer.words, SHIGTHAPUL_ANSWER_WORDS);
    if (shigthapul_is_accepted(&answer))
        shigthapul_whole_script(tokens, shigthapul_count(&answer), pool, POOL, strict, answer.words,
                                SHIGTHAPUL_ANSWER_WORDS);
    if (shigthapul_is_accepted(&answer))
        shigthapul_json(pool, SHIGTHAPUL_ROW_WORDS * shigthapul_rows(&answer), shigthapul_root(&answer), file, length,
                        text, ROOM, answer.words, SHIGTHAPUL_ANSWER_WORDS);
    return answer;
}

int main(int count, char **arguments) {
    bool strict = count == 2 && strcmp(arguments[1], "--strict") == 0;
    if (count > 1 && !strict) {
        fputs("usage: json [--strict] < FILE.tok\n", stderr);
        return 2;
    }
    struct shigthapul_answer answer = write_text(fread(file, 1, BYTES, stdin), strict);
    uint32_t refusal = shigthapul_refusal(&answer);
    if (shigthapul_is_accepted(&answer))
        printf("%.*s\n", (int)shigthapul_count(&answer), (const char *)text);
    else
        printf("refused %" PRIu32 " at %zu: %s\n", refusal, shigthapul_place(&answer), shigthapul_refusal_text(refusal));
    return shigthapul_is_accepted(&answer) ? 0 : 1;
}
