/* A plain writer of trees as JSON in C, the measure of the bench. */
#include "json.h"
#include "answer.h"
#include "fields.h"
#include "json_text.h"
#include "tree.h"
#include "unicode.h"

/* The most rows on a path from the root through children. */
enum { MOST_OPEN_ROWS = 128 };

typedef struct {
    Survey survey;
    Fields fields;
    Text text;
} Writer;

/* What stands before a kind's mark, and the class of its payload, or 0. */
typedef struct {
    const char *head;
    uint8_t length, class;
} Told;

#define HEAD(name) "{\"kind\":\"" name "\",\"mark\":"
#define T(name, class) {HEAD(name), sizeof HEAD(name) - 1, class}

static const Told TOLD[KINDS] = {
    [NONE] = T("none", 0),
    [IDENTIFIER] = T("identifier", CLASS_IDENTIFIER),
    [INT] = T("int", CLASS_INTEGER),
    [FLOAT] = T("float", CLASS_FLOAT),
    [CHAR] = T("char", CLASS_CHAR),
    [STRING] = T("string", CLASS_STR),
    [BOOL] = T("bool", 0),
    [ARRAY] = T("array", 0),
    [HASH] = T("hash", 0),
    [INDEX] = T("index", 0),
    [CALL] = T("call", 0),
    [INFIX] = T("infix", 0),
    [PREFIX] = T("prefix", 0),
    [SUFFIX] = T("suffix", 0),
    [LAMBDA] = T("lambda", 0),
    [SHELL] = T("shell", 0),
    [ATTRIBUTE] = T("attribute", 0),
    [NAME] = T("name", CLASS_IDENTIFIER),
    [PAIR] = T("pair", 0),
    [BREAK] = T("break", 0),
    [CONTINUE] = T("continue", 0),
    [VAR] = T("var", CLASS_IDENTIFIER),
    [CONST] = T("const", CLASS_IDENTIFIER),
    [RETURN] = T("return", 0),
    [THROW] = T("throw", 0),
    [EXPRESSION] = T("expression", 0),
    [TRY] = T("try", 0),
    [FUNCTION] = T("function", CLASS_IDENTIFIER),
    [FOR] = T("for", 0),
    [WHILE] = T("while", 0),
    [ASSERT] = T("assert", 0),
    [IF] = T("if", 0),
    [FOREACH] = T("foreach", 0),
    [BLOCK] = T("block", 0),
};

#undef HEAD
#undef T

/* ---- the check */

/* Whether a row's place is that of a field of the class that its kind needs. */
static inline bool is_placed(const Fields *fields, const uint32_t *row) {
    uint8_t class = row[KIND] < KINDS ? TOLD[row[KIND]].class : 0;
    return class == 0 || class_at(fields, row[PLACE]) == class;
}

/* Whether the rows that a root reaches are a tree with all its payloads; if not, the place is that of the refusal. */
static bool is_told_tree(Writer *w, const uint32_t *pool, size_t words, size_t root, size_t *place) {
    bool good = plain_is_tree(&w->survey, pool, words, root, place);
    uint32_t end = good ? w->survey.rows + 1 : (uint32_t)*place;
    for (uint32_t reference = 1; reference < end; reference++)
        if (w->survey.slots[reference] != 0 && !is_placed(&w->fields, row_of(&w->survey, reference))) {
            *place = reference;
            return false;
        }
    return good;
}

/* The lowest row of a tree with too many rows on the path to it; 0 for none. */
static uint32_t first_too_deep(const Survey *s) {
    uint8_t above[MOST_ROWS + 1]; /* the rows on the path to a row, but for itself */
    uint32_t lowest = 0;
    above[s->queue[0]] = 0;
    for (uint32_t at = 0; at < s->found; at++) {
        uint32_t reference = s->queue[at];
        const uint32_t *row = row_of(s, reference);
        uint8_t here = above[reference];
        if (here == MOST_OPEN_ROWS && (lowest == 0 || reference < lowest))
            lowest = reference;
        for (int slot = 0; slot < CHILDREN; slot++)
            above[row[CHILD + slot]] = here < MOST_OPEN_ROWS ? here + 1 : here;
        above[row[NEXT]] = here;
    }
    return lowest;
}

/* ---- the text */

static void put_payload(Text *text, uint8_t class, Payload payload) {
    uint8_t character[4];
    PUT(text, ",\"payload\":");
    switch (class) {
    case CLASS_INTEGER:
        put_signed(text, number_of(payload));
        break;
    case CLASS_FLOAT:
        put_digits(text, payload.bytes, payload.length);
        break;
    case CLASS_CHAR:
        put_string(text, character, plain_encode((uint32_t)number_of(payload), character), false);
        break;
    default:
        put_string(text, payload.bytes, payload.length, class == CLASS_STR);
    }
}

static void put_row(Writer *w, uint32_t reference, unsigned left);

/* Puts what stands in a slot; `left` rows may be on a path from there. */
static void put_slot(Writer *w, const uint32_t *row, int slot, unsigned left) {
    static const char KEYS[CHILDREN][7] = {",\"c0\":", ",\"c1\":", ",\"c2\":", ",\"c3\":"};
    uint32_t first = row[CHILD + slot];
    put(&w->text, KEYS[slot], sizeof KEYS[slot] - 1);
    if (form_of(row[KIND])->slots[slot] >= ANY) {
        PUT(&w->text, "[");
        for (uint32_t member = first; member != 0; member = row_of(&w->survey, member)[NEXT]) {
            if (member != first)
                PUT(&w->text, ",");
            put_row(w, member, left);
        }
        PUT(&w->text, "]");
    } else if (first == 0) {
        PUT(&w->text, "null");
    } else {
        put_row(w, first, left);
    }
}

/* Puts a row of a tree that was checked; the text stops at a row too many on a path. */
static void put_row(Writer *w, uint32_t reference, unsigned left) {
    const uint32_t *row = row_of(&w->survey, reference);
    const Told *told = &TOLD[row[KIND]];
    const uint8_t *slots = form_of(row[KIND])->slots;
    if (left == 0)
        stop(&w->text);
    if (w->text.stopped)
        return;
    put(&w->text, told->head, told->length);
    put_number(&w->text, row[MARK]);
    PUT(&w->text, ",\"place\":");
    put_number(&w->text, row[PLACE]);
    if (told->class != 0)
        put_payload(&w->text, told->class, payload_at(&w->fields, row[PLACE]));
    for (int slot = 0; slot < CHILDREN && slots[slot] != 0; slot++)
        put_slot(w, row, slot, left - 1);
    PUT(&w->text, "}");
}

/* ---- the entry */

/* Puts a tree of which only the depth and the length aren't known: the number of the answer, and its value. */
static uint32_t put_tree(Writer *w, uint32_t root, size_t *value) {
    const uint8_t *begin = w->text.at;
    put_row(w, root, MOST_OPEN_ROWS);
    if (!w->text.stopped) {
        *value = (size_t)(w->text.at - begin);
        return 0;
    }
    *value = first_too_deep(&w->survey);
    return *value != 0 ? TOO_HIGH : TOO_SHORT;
}

void plain_json(const uint32_t *pool, size_t pool_words, size_t root, const uint8_t *file, size_t file_length,
                uint8_t *text, size_t room, uint64_t answer[4]) {
    Writer w;
    size_t value;
    w.text = (Text){text, text + room, false};
    uint32_t number = plain_index(file, file_length, &w.fields, &value);
    if (number == 0)
        number = is_told_tree(&w, pool, pool_words, root, &value) ? put_tree(&w, (uint32_t)root, &value) : NO_TREE;
    answer_with(answer, number, value);
    size_t kept = number == 0 ? value : 0;
    memset(text + kept, 0, room - kept);
}
