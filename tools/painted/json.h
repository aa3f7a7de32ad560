/* The JSON writer: on paths as deep as may be and deeper, on the trees of flat forms, over long files, and refusals. */
#ifndef STACK_JSON_H
#define STACK_JSON_H

#include "lines.h"
#include "paths.h"
#include "trees.h"

/* What the tree that is lent takes: in few rows by both functions, or 0 if it has more, and in the largest pool. */
struct taken {
    size_t few, small, large;
};

static const struct bytes LETTERS = {"letters", {'a'}, 1};

/* Measures a function on the tree that is lent; it must answer so. */
static size_t tell(enum function function, uint32_t refusal, const char *name, const char *how) {
    size_t bytes = expect(function, refusal, name, how);
    limit(function, bytes, name);
    return bytes;
}

/* Measures both functions on the tree that is lent, in a pool of just its rows and in the largest one. They must answer
   so, but the small one only where the rows are few: whatever it says of others is an answer. */
static struct taken tell_all(uint32_t refusal, const char *name, const char *how) {
    struct taken taken = {0, 0, 0};
    size_t words = lent.pool;
    if (words / SHIGTHAPUL_ROW_WORDS <= SHIGTHAPUL_SMALL_ROWS) {
        taken.few = tell(JSON_FEW, refusal, name, how);
        taken.small = tell(JSON_SMALL, refusal, name, how);
        lent.pool = POOL_WORDS;
        taken.small = larger(taken.small, tell(JSON_SMALL, refusal, name, how));
    } else {
        limit(JSON_SMALL, measure(JSON_SMALL, name, how), name);
    }
    lent.pool = POOL_WORDS;
    taken.large = tell(JSON, refusal, name, how);
    lent.pool = words;
    return taken;
}

/* Two trees that take the same, as the second is only longer. */
static void are_same(struct taken few, struct taken many, const char *name) {
    if (few.large != many.large || (many.few != 0 && (few.few != many.few || few.small != many.small)))
        fault(JSON, "takes more stack if it is longer", name);
}

/* Measures the tree of the path, with room enough. It must be refused if it is deeper than may be. So no path can be
   shallower than it seems. */
static struct taken tell_path(const char *name, const char *how) {
    bool past = path.count + 1 > MOST_DEEP;
    lent.pool = 0;
    put_path();
    lend_room();
    return tell_all(past ? SHIGTHAPUL_REFUSED_DEEP_TREE : 0, name, past ? ", too deep" : how);
}

static enum sort first_hole(const struct step *step) {
    return step->is == A_PAIR ? AN_EXP : step->is;
}

/* A path of so many rows through a step as often as may be, around each row that can stand innermost: what it takes. */
static size_t step_path(const struct step *step, size_t rows) {
    size_t most = 0;
    enum sort hole = make_path(step, first_hole(step), rows);
    for (size_t end = 0; end < COUNT(ENDS); end++) {
        path.end = ENDS[end].kind;
        if (ENDS[end].is == hole)
            most = larger(most, tell_path(step->name, path.behind ? ", behind others" : "").small);
    }
    if (most == 0)
        fault(JSON, "no path", step->name);
    return most;
}

/* Paths through a step: as deep as may be, one deeper, and half as deep. Puts a line. */
static void step_paths(const struct step *step) {
    enum { HALF = MOST_DEEP / 2 };
    size_t half = step_path(step, HALF), whole = step_path(step, MOST_DEEP), past = step_path(step, MOST_DEEP + 1);
    put_line(step->name, ((double)whole - (double)half) / (MOST_DEEP - HALF), larger(whole, past));
}

static void all_steps(bool behind) {
    path.behind = behind;
    for (size_t step = 0; step < COUNT(STEPS); step++)
        if (!behind || STEPS[step].list)
            step_paths(&STEPS[step]);
    print_lines(behind ? "Slots, behind others in their lists, by json_small" : "Slots, by json_small");
}

/* An end at random that fits the innermost hole. */
static uint32_t random_end(enum sort hole) {
    size_t end;
    do
        end = random_below(COUNT(ENDS));
    while (ENDS[end].is != hole);
    return ENDS[end].kind;
}

static void make_random_path(size_t rows) {
    static const enum sort ROOTS[] = {AN_EXP, A_STM, A_BLOCK};
    path.end = random_end(make_path(NULL, ROOTS[random_below(COUNT(ROOTS))], rows));
    path.behind = random_below(2) == 0;
}

/* Paths of steps at random, as deep as may be and one deeper, and the same with one to four words changed; whatever
   comes of that is an answer. */
static void random_paths(void) {
    enum { TURNS = 2000 };
    for (size_t turn = 0; turn < TURNS; turn++) {
        make_random_path(MOST_DEEP + turn % 2);
        tell_path("steps at random", "");
        size_t rows = lent.pool / SHIGTHAPUL_ROW_WORDS;
        for (size_t changes = 1 + random_below(4); changes > 0; changes--)
            lent_pool[random_below(lent.pool)] = (uint32_t)random_below(random_below(2) == 0 ? rows + 2 : 60);
        limit(JSON_FEW, measure(JSON_FEW, "steps at random", ", with words changed"), "steps at random");
        limit(JSON_SMALL, measure(JSON_SMALL, "steps at random", ", with words changed"), "steps at random");
    }
}

/* Paths far too deep, through a list and through a single slot. */
static void long_paths(void) {
    static const size_t ROWS[] = {SHIGTHAPUL_SMALL_ROWS, LONGEST_PATH};
    path.behind = false;
    path.end = KIND(NONE);
    for (size_t rows = 0; rows < COUNT(ROWS); rows++)
        for (size_t step = 0; step < COUNT(STEPS); step++)
            if (STEPS[step].kind == KIND(ARRAY) || STEPS[step].kind == KIND(PREFIX)) {
                make_path(&STEPS[step], AN_EXP, ROWS[rows]);
                tell_path(STEPS[step].name, "");
            }
}

/* As many paths of so many rows in one array as a pool has room for. The array is one more row on each of them. */
static void path_list(size_t rows, size_t deep) {
    const uint32_t refusal = deep < MOST_DEEP ? 0 : SHIGTHAPUL_REFUSED_DEEP_TREE;
    uint32_t first = 0, last = 0;
    lent.pool = 0;
    path.behind = false;
    while (lent.pool / SHIGTHAPUL_ROW_WORDS + 5 * deep < rows) {
        path.end = random_end(make_path(NULL, AN_EXP, deep));
        uint32_t head = put_path();
        if (last != 0)
            put_next(last, head);
        first = first == 0 ? head : first;
        last = head;
    }
    put_row(KIND(ARRAY), false, (const uint32_t[SHIGTHAPUL_CHILDREN]){first});
    lend_room();
    tell_all(refusal, "an array of paths", refusal == 0 ? "" : ", too deep");
}

/* The trees of flat forms have their payloads in the file that is lent: each row names the field of its class. */
static void place_rows(void) {
    for (uint32_t reference = 1; reference <= lent.pool / SHIGTHAPUL_ROW_WORDS; reference++) {
        struct shigthapul_row row = shigthapul_row_at(lent_pool, reference);
        row.place = place_of(row.kind, false);
        shigthapul_put_row(lent_pool, reference, &row);
    }
}

/* How many rows the longest path of the tree that is lent has. */
static size_t depth_of_tree(void) {
    static size_t deep[SHIGTHAPUL_MOST_ROWS + 1];
    static uint32_t queue[SHIGTHAPUL_MOST_ROWS + 1];
    size_t found = 0, most = 0;
    deep[lent.root] = 1;
    queue[found++] = (uint32_t)lent.root;
    for (size_t at = 0; at < found; at++) {
        struct shigthapul_row row = shigthapul_row_at(lent_pool, queue[at]);
        most = larger(most, deep[queue[at]]);
        for (size_t slot = 0; slot < SHIGTHAPUL_CHILDREN; slot++)
            if (row.children[slot] != 0) {
                deep[row.children[slot]] = deep[queue[at]] + 1;
                queue[found++] = row.children[slot];
            }
        if (row.next != 0) {
            deep[row.next] = deep[queue[at]];
            queue[found++] = row.next;
        }
    }
    return most;
}

/* The tree that is lent with a file that is refused: cut short, too long, and not Unicode at its end. */
static void tell_bad_files(const char *name) {
    const size_t bytes = lent.bytes;
    lent.bytes = bytes - 1;
    tell_all(SHIGTHAPUL_REFUSED_BAD_FIELD, name, ", its file cut short");
    lent.bytes = MOST_BYTES + 1;
    tell_all(SHIGTHAPUL_REFUSED_TOO_LONG, name, ", too long a file");
    lent.bytes = bytes;
    lent_bytes[bytes - 1] ^= 0xFF;
    tell_all(SHIGTHAPUL_REFUSED_NOT_UNICODE, name, ", its file not Unicode");
    lent_bytes[bytes - 1] ^= 0xFF;
}

/* Whether a row of the tree that is lent has a payload; if so, the first of them gets a place that is no field. */
static bool misplace(void) {
    for (uint32_t reference = 1; reference <= lent.root; reference++) {
        struct shigthapul_row row = shigthapul_row_at(lent_pool, reference);
        if (row.kind == KIND(IDENTIFIER)) {
            row.place = MOST_BYTES;
            shigthapul_put_row(lent_pool, reference, &row);
            return true;
        }
    }
    return false;
}

/* The tree that is lent, if it has just been accepted, as it is refused: for its room, its file, its root, its pool,
   and a payload. */
static void tell_refusals(const char *name) {
    const uint32_t no_tree = SHIGTHAPUL_REFUSED_NO_TREE;
    const size_t words = lent.pool, root = lent.root, room = lent.json;
    if (!shigthapul_is_accepted(&answer))
        return;
    lent.json = shigthapul_count(&answer) - 1;
    tell_all(SHIGTHAPUL_REFUSED_TOO_SHORT, name, ", with a byte too few");
    lent.json = 0;
    tell_all(SHIGTHAPUL_REFUSED_TOO_SHORT, name, ", with no room");
    lent.json = room;
    tell_bad_files(name);
    lent.root = 0;
    tell_all(no_tree, name, ", without a root");
    lent.root = root;
    lent.pool = 0;
    tell(JSON_FEW, no_tree, name, ", in an empty pool");
    tell(JSON_SMALL, no_tree, name, ", in an empty pool");
    lent.pool = words;
    if (misplace())
        tell_all(no_tree, name, ", a place that is no field");
    break_root();
    tell_all(no_tree, name, ", its root with a next");
}

/* The trees of a flat form, of three parts, of about as many as a small pool has rows for, and of the greatest length.
   If they are just as deep they take the same. */
static void flat_texts(const struct flat *flat) {
    char name[80];
    struct taken least = {0, 0, 0};
    size_t most = most_parts(flat), sizes[] = {3, most / 16, most}, deep = 0;
    snprintf(name, sizeof name, "%s %s .. %s", flat->head, flat->part, flat->tail);
    for (size_t size = 0; size < COUNT(sizes); size++) {
        lend_tree(flat, sizes[size]);
        place_rows();
        lend_room();
        size_t depth = depth_of_tree();
        struct taken taken = tell_all(depth > MOST_DEEP ? SHIGTHAPUL_REFUSED_DEEP_TREE : 0, name, "");
        if (size == 0) {
            deep = depth;
            least = taken;
        } else if (depth == deep) {
            are_same(least, taken, name);
        }
        tell_refusals(name);
    }
}

/* The deepest path around a string, over files with a short text and with long ones, of each kind of character. */
static void long_texts(const struct bytes *bytes) {
    enum { FIXED = 100, LONG = (MOST_BYTES - FIXED) / 2 };
    static const uint32_t LONG_KINDS[] = {KIND(STRING), KIND(IDENTIFIER)};
    for (size_t kind = 0; kind < COUNT(LONG_KINDS); kind++) {
        path.behind = true;
        make_path(&STEPS[0], AN_EXP, MOST_DEEP);
        path.end = LONG_KINDS[kind];
        lend_fields(bytes, bytes->count);
        struct taken taken = tell_path(bytes->name, ", a short text");
        lend_fields(bytes, LONG);
        are_same(taken, tell_path(bytes->name, ", a long text"), bytes->name);
        tell_refusals(bytes->name);
    }
}

/* The deepest path with no payload, over files of the greatest length and with the most fields. */
static void long_files(void) {
    path.behind = false;
    make_path(&STEPS[0], AN_EXP, MOST_DEEP);
    path.end = KIND(NONE);
    for (size_t field = 0; field < COUNT(FIELDS); field++) {
        lend_bytes(&FIELDS[field], MOST_BYTES);
        tell_path(FIELDS[field].name, ", over and over");
    }
    lent.bytes = 0;
    tell_path("an empty file", "");
}

static const struct bytes ESCAPES[] = {
    {"control characters", {1}, 1},
    {"new lines", {'\n'}, 1},
    {"quotes", {'"'}, 1},
};

static void all_jsons(void) {
    lend_fields(&LETTERS, 1000);
    all_steps(false);
    all_steps(true);
    random_paths();
    long_paths();
    path_list(SHIGTHAPUL_SMALL_ROWS, MOST_DEEP - 1);
    for (size_t deep = MOST_DEEP - 1; deep <= MOST_DEEP; deep++)
        path_list(SHIGTHAPUL_MOST_ROWS, deep);
    for (size_t flat = 0; flat < COUNT(FLATS); flat++)
        flat_texts(&FLATS[flat]);
    for (size_t text = 0; text < COUNT(CHARACTERS); text++)
        long_texts(&CHARACTERS[text]);
    for (size_t text = 0; text < COUNT(PAYLOADS); text++)
        long_texts(&PAYLOADS[text]);
    for (size_t text = 0; text < COUNT(ESCAPES); text++)
        long_texts(&ESCAPES[text]);
    long_files();
}

#endif
