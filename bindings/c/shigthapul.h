/* Shigthapul, a proved reader for scripts in the Boson language: its C functions, and small helpers around them. */
#ifndef SHIGTHAPUL_H
#define SHIGTHAPUL_H

#include <stdbool.h>
#include <stddef.h>
#include <stdint.h>
#include <string.h>

#include "shigthapul_numbers.h"

#ifdef __cplusplus
extern "C" {
#endif

/* What a caller owes. Each pointer is followed by a length in elements. It must be good for so many elements, aligned
   for their type and not null, also where the length is 0. What is written must overlap nothing else that is lent.
   A bool is true or false; where another language has no bool of C's, it passes a byte that is 1 or 0. No pointer is
   kept after a call, and there is no state: any number of threads may call. A call takes some stack; docs/GUIDE.md says
   how much.

   What a caller gets. Nothing else is asked: for any words and any lengths the functions are proved to stay inside
   what they are lent, and to return. Each writes four words to the front of `answer`, as far as that goes; words
   behind the fourth stay as they were. */

/* The words of an answer.

   The entries that read tokens      0, root reference, rows used, place of the current token
   The file reader and the fold      0, count of fields or length of the text, 0, 0
   The text                          0, its length, 1 where it is the front of `work` and 0 where it is the payload, 0
   The check of a tree               0, 0, 0, 0
   The writer                        0, count of tokens, 0, 0
   The JSON text of a tree           0, its length, 0, 0
   A refusal                         its number, its place, 0, 0 */
enum { SHIGTHAPUL_ANSWER_WORDS = 4 };

/* The words of a row of the pool: kind, mark, place, children, next, end; struct shigthapul_row, below, has them by name.
   A reference is a row's number plus one, and 0 for none. A pool of `n` words has n / SHIGTHAPUL_ROW_WORDS rows, at most
   SHIGTHAPUL_MOST_ROWS. No token takes more than two rows, so SHIGTHAPUL_TOKEN_WORDS words of a pool for each token, EOF
   counted, are enough for any script. No row is written as more than SHIGTHAPUL_ROW_TOKENS tokens, so that many for each
   row of a tree are enough to write it.

   In a JSON text no row takes more than SHIGTHAPUL_ROW_BYTES bytes beside its payload, and no payload more than
   SHIGTHAPUL_PAYLOAD_BYTES for each byte of its field. So that many for each row and for each byte of the token file are
   enough for the text of a tree in which no two rows name the same field, and every tree that was read is such a one.

   A row had eight words before it had its end: a program that was built then has to be built anew. */
enum {
    SHIGTHAPUL_ROW_WORDS = 9,
    SHIGTHAPUL_CHILDREN = 4,
    SHIGTHAPUL_MOST_ROWS = 65535,
    SHIGTHAPUL_SMALL_ROWS = 4096, /* what the functions for threads with little stack look at */
    SHIGTHAPUL_TOKEN_WORDS = 2 * SHIGTHAPUL_ROW_WORDS,
    SHIGTHAPUL_ROW_TOKENS = 6,
    SHIGTHAPUL_ROW_BYTES = 71,
    SHIGTHAPUL_PAYLOAD_BYTES = 6
};

/* The mode, which the three functions below take as `strict`. In the old mode, false, any token closes a call that has
   arguments, and any token opens the body of while, foreach or finally, as in the original. In strict mode, true, these
   must be ) and {, or the script is refused with SHIGTHAPUL_REFUSED_WRONG_SIGN. Whatever strict mode doesn't refuse so
   has the same answer and the same pool as in the old mode.

   The three functions have gained this parameter, and kept their names: an app that calls them without it has to be
   changed and built anew, as a linker can't tell the two apart. */

/* Read one expression, or one statement, from the place `start`. `tokens` has 1 to 32,768 words, EOF last and nowhere
   else. The tree goes into `pool`, every other word of which becomes 0; after a refusal all of them are 0. A statement
   that is a lone Empty token is accepted with root 0. */
void shigthapul_one_expression(const uint16_t *tokens, size_t tokens_len, uint32_t *pool, size_t pool_len, size_t start,
                               bool strict, uint64_t *answer, size_t answer_len);
void shigthapul_one_statement(const uint16_t *tokens, size_t tokens_len, uint32_t *pool, size_t pool_len, size_t start,
                              bool strict, uint64_t *answer, size_t answer_len);

/* Reads a whole script: the same, from place 0 to EOF. The root is a block at place 0. */
void shigthapul_whole_script(const uint16_t *tokens, size_t tokens_len, uint32_t *pool, size_t pool_len, bool strict,
                             uint64_t *answer, size_t answer_len);

/* Reads a token file of at most 60,000 bytes into the front of `words`, and zeroes the rest; after a refusal every
   word is 0. A text (Str, Identifier, Unknown) that is not well-formed UTF-8, or a Char that is no Unicode scalar value,
   is refused with SHIGTHAPUL_REFUSED_NOT_UNICODE at the number of its field. shigthapul_next_field, below, finds the
   payloads. */
void shigthapul_read_file(const uint8_t *bytes, size_t bytes_len, uint16_t *words, size_t words_len, uint64_t *answer,
                          size_t answer_len);

/* Folds a string's payload: each pair of backslashes becomes one, in the front of `work`; the bytes behind stay as
   they were. With no pair, or where `work` is too short (refusal 3), `work` stays untouched. */
void shigthapul_fold(const uint8_t *payload, size_t payload_len, uint8_t *work, size_t work_len, uint64_t *answer,
                     size_t answer_len);

/* Says where the text of a string is, after the fold: in the payload itself where that has no pair, otherwise in the
   front of `work`; of length 0 where `work` is too short. */
void shigthapul_text(const uint8_t *payload, size_t payload_len, const uint8_t *work, size_t work_len,
                     uint64_t *answer, size_t answer_len);

/* Checks that the rows which `root` reaches by child and next words are a tree: one of an expression, a statement or a
   block. Otherwise the refusal is SHIGTHAPUL_REFUSED_NO_TREE, at 0 where the pool has no such root, else at the reference
   of the first bad row. Rows that the root doesn't reach, places and ends are not looked at. docs/GUIDE.md says what a
   tree is. */
void shigthapul_check(const uint32_t *pool, size_t pool_len, size_t root, uint64_t *answer, size_t answer_len);

/* Checks a tree in the same way, and writes it as a script: token words into the front of `words`, EOF last, and for each
   token the place word of the row that its name, number or text belongs to into `places`; 0 for a token that has none.
   The rest of both becomes 0. Where either is too short for the tokens, the refusal is SHIGTHAPUL_REFUSED_TOO_SHORT
   at 0. After a refusal every word of both is 0. */
void shigthapul_write(const uint32_t *pool, size_t pool_len, size_t root, uint16_t *words, size_t words_len,
                      uint32_t *places, size_t places_len, uint64_t *answer, size_t answer_len);

/* The same two for threads with little stack: they look only at the first SHIGTHAPUL_SMALL_ROWS rows of the pool, as if it
   had no more, and never take more than 64 KiB of stack, whatever the pool. */
void shigthapul_check_small(const uint32_t *pool, size_t pool_len, size_t root, uint64_t *answer, size_t answer_len);
void shigthapul_write_small(const uint32_t *pool, size_t pool_len, size_t root, uint16_t *words, size_t words_len,
                            uint32_t *places, size_t places_len, uint64_t *answer, size_t answer_len);

/* Checks a tree as shigthapul_check does, and writes it as one JSON text (RFC 8259) into the front of `text`. Each row is
   an object: the kind by its name, the mark, the place, the payload if the kind has one, and the children. `file` is the
   token file with the payloads, at most 60,000 bytes: a row's place is the number of the field that has its payload. It
   needn't be the file that the tree was read from, nor a script, but its fields must be good. docs/GUIDE.md says what a
   text looks like, and docs/tree.schema.json is a schema of it.

   The bytes behind the text become 0, and after a refusal every byte of `text` is 0. What is looked at comes in this order:

   SHIGTHAPUL_REFUSED_TOO_LONG, _BAD_FIELD, _NOT_UNICODE   the file, as by shigthapul_read_file
   SHIGTHAPUL_REFUSED_NO_TREE     as by shigthapul_check; and at a row whose place is no field, or one of another class
                                  than its payload needs. The lowest bad row counts, whatever is wrong with it
   SHIGTHAPUL_REFUSED_DEEP_TREE   at the lowest row with more than 128 rows on the path from the root to it, both counted
   SHIGTHAPUL_REFUSED_TOO_SHORT   at 0, where the text is longer than `text`

   The text is well-formed UTF-8 and a JSON text by the RFC's grammar, and none of its bytes is 0, which is proved: with a
   byte of room behind it, it is a string of C's. Ints may have 64 bits: take a JSON reader that doesn't round them. */
void shigthapul_json(const uint32_t *pool, size_t pool_len, size_t root, const uint8_t *file, size_t file_len,
                     uint8_t *text, size_t text_len, uint64_t *answer, size_t answer_len);

/* The same for threads with little stack: it looks only at the first SHIGTHAPUL_SMALL_ROWS rows of the pool, as if it had
   no more, and so takes no more stack for a larger pool. docs/GUIDE.md says how much. */
void shigthapul_json_small(const uint32_t *pool, size_t pool_len, size_t root, const uint8_t *file, size_t file_len,
                           uint8_t *text, size_t text_len, uint64_t *answer, size_t answer_len);

/* The answer of any of them: pass `words` and SHIGTHAPUL_ANSWER_WORDS. */
struct shigthapul_answer {
    uint64_t words[SHIGTHAPUL_ANSWER_WORDS];
};

/* The number of the refusal, 0 where there is none. */
static inline uint32_t shigthapul_refusal(const struct shigthapul_answer *answer) {
    return (uint32_t)answer->words[0];
}

/* Whether it was accepted. */
static inline bool shigthapul_is_accepted(const struct shigthapul_answer *answer) {
    return shigthapul_refusal(answer) == 0;
}

/* The place of a refusal; or of the current token behind an accepted piece, the last one that it used. */
static inline size_t shigthapul_place(const struct shigthapul_answer *answer) {
    return (size_t)answer->words[shigthapul_is_accepted(answer) ? 3 : 1];
}

/* The reference of an accepted root, and how many rows are used. */
static inline uint32_t shigthapul_root(const struct shigthapul_answer *answer) {
    return shigthapul_is_accepted(answer) ? (uint32_t)answer->words[1] : 0;
}

static inline size_t shigthapul_rows(const struct shigthapul_answer *answer) {
    return (size_t)answer->words[2];
}

/* The count of fields that were read or of tokens that were written, or the length of a text. */
static inline size_t shigthapul_count(const struct shigthapul_answer *answer) {
    return shigthapul_is_accepted(answer) ? (size_t)answer->words[1] : 0;
}

/* A row, and the row of a reference that is not 0: to look at, and to put another in its place.

   The end is where the piece of the script ends that the row stands for: the place of its last token, which is the token
   that was the current one when the row was built. A semicolon that was eaten belongs to the piece; the brackets around
   it don't. docs/GUIDE.md says by kind where a row ends. */
struct shigthapul_row {
    uint32_t kind;
    uint32_t mark;
    uint32_t place;
    uint32_t children[SHIGTHAPUL_CHILDREN];
    uint32_t next;
    uint32_t end;
};

static inline struct shigthapul_row shigthapul_row_at(const uint32_t *pool, uint32_t reference) {
    struct shigthapul_row row;
    memcpy(&row, pool + SHIGTHAPUL_ROW_WORDS * ((size_t)reference - 1), sizeof row);
    return row;
}

static inline void shigthapul_put_row(uint32_t *pool, uint32_t reference, const struct shigthapul_row *row) {
    memcpy(pool + SHIGTHAPUL_ROW_WORDS * ((size_t)reference - 1), row, sizeof *row);
}

/* Whether a row is of a kind and has a flag in its mark. */
static inline bool shigthapul_has(const struct shigthapul_row *row, enum shigthapul_kind kind,
                                  enum shigthapul_mark flag) {
    return row->kind == (uint32_t)kind && (row->mark & (uint32_t)flag) != 0;
}

/* Some bytes. */
struct shigthapul_bytes {
    const uint8_t *start;
    size_t length;
};

/* A field of a token file: the class of its token, which is the field's first byte, and its payload. Before the payload
   stand SHIGTHAPUL_FIELD_HEAD bytes. */
struct shigthapul_field {
    uint32_t token_class;
    struct shigthapul_bytes payload;
};

enum { SHIGTHAPUL_FIELD_HEAD = 3 };

/* Takes the first field off the front of `rest`; at first `rest` is the whole file. Where there is none, or where it is
   cut short, the answer is false, and both stay as they were. It looks at no byte behind `rest`, whatever its bytes hold.

   If shigthapul_read_file has accepted the file, the fields come in the order of the token words, as many as them. Then
   the payload of a Str, an Identifier or an Unknown is well-formed UTF-8, which is proved. It may hold bytes that are 0,
   and no 0 ends it. */
static inline bool shigthapul_next_field(struct shigthapul_bytes *rest, struct shigthapul_field *field) {
    const uint8_t *head = rest->start;
    if (rest->length < SHIGTHAPUL_FIELD_HEAD)
        return false;
    size_t length = 256 * (size_t)head[1] + head[2], left = rest->length - SHIGTHAPUL_FIELD_HEAD;
    if (left < length)
        return false;
    field->token_class = head[0];
    field->payload.start = head + SHIGTHAPUL_FIELD_HEAD;
    field->payload.length = length;
    rest->start = field->payload.start + length;
    rest->length = left - length;
    return true;
}

/* The character of a Char's payload, the high one of its four bytes first; UINT32_MAX, which is none, for a payload of
   another length. If shigthapul_read_file has accepted the file, it is a Unicode scalar value, which is proved. */
static inline uint32_t shigthapul_char_of(struct shigthapul_bytes payload) {
    const uint8_t *bytes = payload.start;
    if (payload.length != 4)
        return UINT32_MAX;
    return (uint32_t)bytes[0] << 24 | (uint32_t)bytes[1] << 16 | (uint32_t)bytes[2] << 8 | bytes[3];
}

/* The text of a string after its fold. That of well-formed UTF-8 is well-formed UTF-8, which is proved. */
static inline struct shigthapul_bytes shigthapul_text_of(const uint8_t *payload, size_t payload_len,
                                                         const uint8_t *work, size_t work_len) {
    struct shigthapul_answer answer;
    shigthapul_text(payload, payload_len, work, work_len, answer.words, SHIGTHAPUL_ANSWER_WORDS);
    struct shigthapul_bytes text = {answer.words[2] == 1 ? work : payload, shigthapul_count(&answer)};
    return text;
}

#ifdef __cplusplus
}
#endif

#endif
