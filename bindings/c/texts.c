/* Reads the worked examples of JSON texts, oracle/json.txt, on standard input, and has the C functions write each: in full
   and small, with plenty of room, just enough and too little, and with other ends in the rows. Prints a line for each check
   that fails, then the counts; the status is 1 if any failed. */
#include <stdio.h>
#include <stdlib.h>
#include <string.h>

#include "counted.h"
#include "pooled.h"
#include "told.h"

/* A file one byte too long, and room for a longer line and a longer text than any example has. */
enum { FILE_BYTES = 60001, LINE = 1000, ROOM = 1000, BEHIND = 8 };

/* The file of the examples that come next, and the text of one. */
static uint8_t file[FILE_BYTES], text[ROOM], buffer[ROOM + BEHIND];

static struct told example = {.pool = pool, .file = {file, 0}, .text = {text, 0}};
static char line[LINE];

static void check(bool holds, const char *what) {
    if (!counted(holds))
        printf("%s: %s\n", what, line);
}

/* Adds the byte of two hexadecimal digits to some bytes, and gives what is behind the digits. */
static const char *add_byte(const char *digits, uint8_t *bytes, size_t *length) {
    const char pair[] = {digits[0], digits[1], '\0'};
    bytes[(*length)++] = (uint8_t)strtoul(pair, NULL, 16);
    return digits + 2;
}

/* Takes a line with the bytes of a file apart: words of digits, and before them maybe how often, and a star. */
static void parse_file(const char *bytes) {
    char words[LINE];
    strcpy(words, bytes);
    example.file.length = 0;
    for (char *word = strtok(words, "[] "); word != NULL; word = strtok(NULL, "[] ")) {
        char *star = strchr(word, '*');
        const char *digits = star == NULL ? word : star + 1;
        for (unsigned long left = star == NULL ? 1 : strtoul(word, NULL, 10); left > 0; left--)
            for (const char *rest = digits; *rest != '\0';)
                rest = add_byte(rest, file, &example.file.length);
    }
}

/* Takes a text apart, in which `<7F>` stands for a byte. */
static void parse_text(const char *rest) {
    example.text.length = 0;
    while (*rest != '\0')
        if (*rest != '<') {
            text[example.text.length++] = (uint8_t)*rest++;
        } else {
            for (rest++; *rest != '>';)
                rest = add_byte(rest, text, &example.text.length);
            rest++;
        }
}

/* Takes a line of an example apart: the root, maybe the room behind a stroke, and the answer. Gives the room. */
static size_t parse_example(void) {
    const char *answer = strchr(line, ':') + 2;
    size_t room;
    unsigned refusal;
    if (sscanf(line, " %zu/%zu", &example.root, &room) < 2)
        room = ROOM;
    example.refusal = 0;
    if (sscanf(answer, "no %u %zu", &refusal, &example.place) == 2)
        example.refusal = refusal;
    else
        parse_text(answer);
    return room;
}

/* Puts another end into each row. */
static void change_ends(void) {
    for (size_t end = SHIGTHAPUL_ROW_WORDS - 1; end < pool_length; end += SHIGTHAPUL_ROW_WORDS)
        pool[end] = ~pool[end];
}

static void run_example(bool small, size_t room) {
    example.pool_length = pool_length;
    check(is_told(&example, small, buffer, room, BEHIND), "the example");
    change_ends();
    check(is_told(&example, small, buffer, room, BEHIND), "with other ends");
    change_ends();
    if (example.refusal != 0)
        return;
    struct told too_long = example;
    too_long.refusal = SHIGTHAPUL_REFUSED_TOO_SHORT;
    too_long.place = 0;
    check(is_told(&example, small, buffer, example.text.length, BEHIND), "with just enough room");
    check(is_told(&too_long, small, buffer, example.text.length - 1, BEHIND), "with too little room");
    check(is_told(&too_long, small, buffer, 0, BEHIND), "with no room");
}

int main(void) {
    while (fgets(line, sizeof line, stdin) != NULL) {
        line[strcspn(line, "\n")] = '\0';
        if (*line == '#' || *line == '\0')
            continue;
        if (*line == '[') {
            parse_file(line);
        } else if (*line != ' ') {
            parse_rows(line);
        } else {
            size_t room = parse_example();
            run_example(false, room);
            run_example(true, room);
        }
    }
    return print_counts();
}
