/* Reads recorded JSON texts, crates/retell/stdin, on standard input, and has the C functions write each: in full, and small
   where that looks at all of its rows. Prints a line for each check that fails, then the counts; the status is 1 if any
   failed. docs/RECORDED.md says what a record is. */
#include <stdio.h>

#include "counted.h"
#include "told.h"

/* The most that a record may have, and a few bytes that must stay as they are. */
enum { POOL = 589833, FILE_BYTES = 61000, ROOM = 1048576, BEHIND = 8 };

static uint32_t pool[POOL];
static uint8_t file[FILE_BYTES], text[ROOM], buffer[ROOM + BEHIND];

/* A record's head: its numbers have 32 bits, the low byte first, as this machine has them. */
struct head {
    uint32_t root, pool, file, room, number, value, spare;
};

/* Reads so many elements into a buffer with room for some; whether they were there. */
static bool take(void *to, size_t size, size_t count, size_t most) {
    return count <= most && fread(to, size, count, stdin) == count;
}

/* Reads what is behind a head; whether it was there. */
static bool take_rest(const struct head *head) {
    return take(pool, sizeof *pool, head->pool, POOL) && take(file, 1, head->file, FILE_BYTES)
           && take(text, 1, head->number == 0 ? head->value : 0, ROOM) && head->room <= ROOM;
}

static void check(bool holds, const char *what, size_t record) {
    if (!counted(holds))
        printf("record %zu, %s\n", record, what);
}

int main(void) {
    struct head head;
    size_t bytes, record = 0;
    while ((bytes = fread(&head, 1, sizeof head, stdin)) > 0) {
        if (bytes < sizeof head || !take_rest(&head)) {
            check(false, "cut short, or too long", record);
            break;
        }
        struct told told = {.pool = pool,
                            .pool_length = head.pool,
                            .root = head.root,
                            .file = {file, head.file},
                            .text = {text, head.number == 0 ? head.value : 0},
                            .refusal = head.number,
                            .place = head.value};
        check(is_told(&told, false, buffer, head.room, BEHIND), "in full", record);
        if (head.pool / SHIGTHAPUL_ROW_WORDS <= SHIGTHAPUL_SMALL_ROWS)
            check(is_told(&told, true, buffer, head.room, BEHIND), "small", record);
        record++;
    }
    return print_counts();
}
