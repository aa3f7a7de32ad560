/* A plugin of the emulator qemu-x86_64: counts the instructions between the bench's two marks, in all and by function. */
#include <stddef.h>
#include <stdint.h>
#include <stdio.h>
#include <stdlib.h>
#include <string.h>

/* What is used of the emulator's interface for plugins, version 1. */
typedef uint64_t plugin_id;
struct qemu_plugin_tb;
struct qemu_plugin_insn;
struct qemu_info;
void qemu_plugin_register_vcpu_tb_trans_cb(plugin_id, void (*)(plugin_id, struct qemu_plugin_tb *));
void qemu_plugin_register_vcpu_tb_exec_cb(struct qemu_plugin_tb *, void (*)(unsigned, void *), int, void *);
void qemu_plugin_register_atexit_cb(plugin_id, void (*)(plugin_id, void *), void *);
size_t qemu_plugin_tb_n_insns(const struct qemu_plugin_tb *);
struct qemu_plugin_insn *qemu_plugin_tb_get_insn(const struct qemu_plugin_tb *, size_t);
const char *qemu_plugin_insn_symbol(const struct qemu_plugin_insn *);
void qemu_plugin_outs(const char *);

int qemu_plugin_version = 1;

/* A function, with what it has executed between the marks. */
typedef struct {
    char name[160];
    uint64_t instructions;
} Function;

/* A piece of translated code: straight instructions of one function. */
typedef struct {
    size_t function;
    uint64_t instructions;
} Piece;

enum { BEGIN, END, ELSEWHERE, MOST_FUNCTIONS = 100000 };

static Function functions[MOST_FUNCTIONS] = {
    {"count_begin", 0}, {"count_end", 0}, {"(libraries)", 0}};
static size_t function_count = 3;
static int counting;

/* The function of this name; code without a name is that of shared libraries. */
static size_t function_named(const char *name) {
    if (name == NULL || name[0] == 0)
        return ELSEWHERE;
    for (size_t i = 0; i < function_count; i++)
        if (strncmp(functions[i].name, name, sizeof functions[i].name - 1) == 0)
            return i;
    if (function_count == MOST_FUNCTIONS)
        return ELSEWHERE;
    strncpy(functions[function_count].name, name, sizeof functions[0].name - 1);
    return function_count++;
}

static void executed(unsigned cpu, void *data) {
    (void)cpu;
    const Piece *piece = data;
    if (piece->function == BEGIN)
        counting = 1;
    else if (piece->function == END)
        counting = 0;
    else if (counting)
        functions[piece->function].instructions += piece->instructions;
}

static void translated(plugin_id id, struct qemu_plugin_tb *tb) {
    (void)id;
    Piece *piece = malloc(sizeof *piece);
    if (piece == NULL)
        abort();
    piece->function = function_named(qemu_plugin_insn_symbol(qemu_plugin_tb_get_insn(tb, 0)));
    piece->instructions = qemu_plugin_tb_n_insns(tb);
    qemu_plugin_register_vcpu_tb_exec_cb(tb, executed, 0, piece);
}

static int by_count(const void *left, const void *right) {
    uint64_t l = ((const Function *)left)->instructions, r = ((const Function *)right)->instructions;
    return l < r ? 1 : l > r ? -1 : 0;
}

/* Writes the sum, then each function that has executed any, the busiest first. */
static void finished(plugin_id id, void *data) {
    (void)id, (void)data;
    char line[sizeof functions[0].name + 40];
    uint64_t sum = 0;
    for (size_t i = 0; i < function_count; i++)
        sum += functions[i].instructions;
    snprintf(line, sizeof line, "instructions %llu\n", (unsigned long long)sum);
    qemu_plugin_outs(line);
    qsort(functions, function_count, sizeof *functions, by_count);
    for (size_t i = 0; i < function_count && functions[i].instructions > 0; i++) {
        snprintf(line, sizeof line, "%12llu %.159s\n", (unsigned long long)functions[i].instructions,
                 functions[i].name);
        qemu_plugin_outs(line);
    }
}

int qemu_plugin_install(plugin_id id, const struct qemu_info *info, int argc, char **argv) {
    (void)info, (void)argc, (void)argv;
    qemu_plugin_register_vcpu_tb_trans_cb(id, translated);
    qemu_plugin_register_atexit_cb(id, finished, NULL);
    return 0;
}
