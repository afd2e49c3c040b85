/*
 * Counts the instructions that an x86-64 program runs: a plugin of the emulator qemu-user, on any
 * processor that it runs on.
 *
 *     cc -shared -fPIC -O2 -o count.so count.c
 *     qemu-x86_64 -cpu qemu64 -plugin ./count.so,out=FILE[,until=NAME] PROGRAM WORDS
 *
 * FILE then has `instructions N`, `steps N`, and a line `in N FUNCTION` for each function that has
 * a symbol. A repeated string instruction (rep movsb and its like) is one instruction, as a
 * processor counts it; the emulator goes through it octet by octet, and `steps` has what that adds.
 * The counts are the same in every run. With `until=NAME` they are those up to the first call of a
 * function whose name begins so; if there is none, of all.
 */
#include <stdint.h>
#include <stdio.h>
#include <stdlib.h>
#include <string.h>

/* What is used of qemu's plugin interface, version 1 (tried with qemu 7.2). Debian 12 has no
 * package with its header. */
typedef uint64_t qemu_plugin_id_t;
struct qemu_plugin_tb;
struct qemu_plugin_insn;
enum { VERSION = 1, NO_REGISTERS = 0, ADD = 0 };
typedef void (*translated_fn)(qemu_plugin_id_t, struct qemu_plugin_tb *);
typedef void (*executed_fn)(unsigned, void *);
typedef void (*exit_fn)(qemu_plugin_id_t, void *);
void qemu_plugin_register_vcpu_tb_trans_cb(qemu_plugin_id_t, translated_fn);
void qemu_plugin_register_vcpu_insn_exec_inline(struct qemu_plugin_insn *, int, void *, uint64_t);
void qemu_plugin_register_vcpu_insn_exec_cb(struct qemu_plugin_insn *, executed_fn, int, void *);
void qemu_plugin_register_atexit_cb(qemu_plugin_id_t, exit_fn, void *);
size_t qemu_plugin_tb_n_insns(const struct qemu_plugin_tb *);
struct qemu_plugin_insn *qemu_plugin_tb_get_insn(const struct qemu_plugin_tb *, size_t);
const uint8_t *qemu_plugin_insn_data(const struct qemu_plugin_insn *);
size_t qemu_plugin_insn_size(const struct qemu_plugin_insn *);
const char *qemu_plugin_insn_symbol(const struct qemu_plugin_insn *);

/* Only these two names are looked up by the emulator. */
extern int qemu_plugin_version;
int qemu_plugin_version = VERSION;
int qemu_plugin_install(qemu_plugin_id_t, const void *, int, char **);

enum { MOST_FUNCTIONS = 4096 };

struct function {
    const char *name;
    uint64_t count;
};

/* The first stands for all code without a symbol, and for functions beyond the most. */
static struct function functions[MOST_FUNCTIONS] = {{.name = "?"}};
static size_t known = 1;
static uint64_t steps;
static const char *out_path, *until;
static int told;

static struct function *function_of(const struct qemu_plugin_insn *insn)
{
    const char *name = qemu_plugin_insn_symbol(insn);
    if (name == NULL || *name == '\0') {
        return functions;
    }
    for (size_t i = 1; i < known; i++) {
        if (strcmp(functions[i].name, name) == 0) {
            return functions + i;
        }
    }
    if (known == MOST_FUNCTIONS) {
        return functions;
    }
    functions[known].name = strdup(name);
    return functions + known++;
}

/* Is it a string instruction (ins to outs, movs, cmps, stos, lods, scas) behind a repeat prefix? */
static int is_repeated(const struct qemu_plugin_insn *insn)
{
    const uint8_t *octets = qemu_plugin_insn_data(insn);
    size_t size = qemu_plugin_insn_size(insn), i = 0;
    int repeats = 0;
    /* operand size, both repeats, REX: what may stand before the opcode here */
    while (i + 1 < size &&
           (octets[i] == 0x66 || (octets[i] & 0xfe) == 0xf2 || (octets[i] & 0xf0) == 0x40)) {
        repeats |= (octets[i] & 0xfe) == 0xf2;
        i++;
    }
    uint8_t opcode = octets[i];
    return repeats && ((opcode >= 0x6c && opcode <= 0x6f) ||
                       (opcode >= 0xa4 && opcode <= 0xaf && (opcode & 0xfe) != 0xa8));
}

/* The emulator comes to a repeated instruction once for each step, with nothing else of its
 * function run in between. */
static void repeated(unsigned cpu, void *of)
{
    static struct function *last;
    static uint64_t at;
    struct function *function = of;
    (void)cpu;
    if (last == function && at == function->count) {
        steps++;
        return;
    }
    last = function;
    at = ++function->count;
}

static void tell(void)
{
    FILE *out = fopen(out_path, "w");
    uint64_t instructions = 0;
    if (out == NULL) {
        perror(out_path);
        return;
    }
    for (size_t i = 0; i < known; i++) {
        instructions += functions[i].count;
    }
    fprintf(out, "instructions %llu\nsteps %llu\n", (unsigned long long)instructions,
            (unsigned long long)steps);
    for (size_t i = 0; i < known; i++) {
        if (functions[i].count != 0) {
            fprintf(out, "in %llu %s\n", (unsigned long long)functions[i].count, functions[i].name);
        }
    }
    fclose(out);
}

static void reached(unsigned cpu, void *unused)
{
    (void)cpu;
    (void)unused;
    if (!told) {
        told = 1;
        tell();
    }
}

/* Each instruction by itself: the size that qemu 7.2 tells of a block is one too many where its
 * last instruction lies across two pages. */
static void translated(qemu_plugin_id_t id, struct qemu_plugin_tb *block)
{
    size_t size = qemu_plugin_tb_n_insns(block);
    struct function *function = function_of(qemu_plugin_tb_get_insn(block, 0));
    (void)id;
    if (until != NULL && strncmp(function->name, until, strlen(until)) == 0) {
        qemu_plugin_register_vcpu_insn_exec_cb(qemu_plugin_tb_get_insn(block, 0), reached,
                                               NO_REGISTERS, NULL);
    }
    for (size_t i = 0; i < size; i++) {
        struct qemu_plugin_insn *insn = qemu_plugin_tb_get_insn(block, i);
        if (is_repeated(insn)) {
            qemu_plugin_register_vcpu_insn_exec_cb(insn, repeated, NO_REGISTERS, function);
        } else {
            qemu_plugin_register_vcpu_insn_exec_inline(insn, ADD, &function->count, 1);
        }
    }
}

static void at_exit(qemu_plugin_id_t id, void *unused)
{
    (void)id;
    (void)unused;
    if (!told) {
        tell();
    }
}

int qemu_plugin_install(qemu_plugin_id_t id, const void *info, int words, char **word)
{
    (void)info;
    for (int i = 0; i < words; i++) {
        if (strncmp(word[i], "out=", 4) == 0) {
            out_path = strdup(word[i] + 4);
        } else if (strncmp(word[i], "until=", 6) == 0) {
            until = strdup(word[i] + 6);
        }
    }
    if (out_path == NULL) {
        fprintf(stderr, "count: out=FILE is missing\n");
        return 1;
    }
    qemu_plugin_register_vcpu_tb_trans_cb(id, translated);
    qemu_plugin_register_atexit_cb(id, at_exit, NULL);
    return 0;
}
