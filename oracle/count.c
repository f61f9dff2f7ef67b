/* A plugin of Debian's qemu-user that counts the instructions a program executes, and says on standard error when it ends how many each
 * function had, and the sum:
 *   gcc -shared -fPIC -O2 -o count.so oracle/count.c
 *   qemu-x86_64 -plugin ./count.so PROGRAM ARGS
 * The emulator's header is in no Debian package, so what is used of it is declared here (plugin interface 1). */
#include <inttypes.h>
#include <stddef.h>
#include <stdio.h>
#include <string.h>

#define SHOWN __attribute__((visibility("default")))

typedef uint64_t plugin;
struct qemu_plugin_tb;
struct qemu_plugin_insn;
enum { ADD_U64 = 0, FUNCTIONS = 4096, LETTERS = 256 };

size_t qemu_plugin_tb_n_insns(const struct qemu_plugin_tb *block);
struct qemu_plugin_insn *qemu_plugin_tb_get_insn(const struct qemu_plugin_tb *block, size_t at);
const char *qemu_plugin_insn_symbol(const struct qemu_plugin_insn *instruction);
void qemu_plugin_register_vcpu_tb_exec_inline(struct qemu_plugin_tb *block, int operation, void *sum, uint64_t by);
void qemu_plugin_register_vcpu_tb_trans_cb(plugin self, void (*translated)(plugin, struct qemu_plugin_tb *));
void qemu_plugin_register_atexit_cb(plugin self, void (*ended)(plugin, void *), void *with);

SHOWN int qemu_plugin_version = 1;

/* The functions met so far; the last place is for those that find no room. */
static struct {
    char name[LETTERS];
    uint64_t executed;
} functions[FUNCTIONS];

/* The place of a function's sum: its own, a new one, or the last. */
static uint64_t *sum_of(const char *name)
{
    size_t k = 0;
    while (k < FUNCTIONS - 1 && functions[k].name[0] && strncmp(functions[k].name, name, LETTERS - 1))
        k++;
    if (!functions[k].name[0])
        strncpy(functions[k].name, k < FUNCTIONS - 1 ? name : "others", LETTERS - 1);
    return &functions[k].executed;
}

/* Each time the block is entered, its length is added to the function in which it starts. */
static void translated(plugin self, struct qemu_plugin_tb *block)
{
    const char *name = qemu_plugin_insn_symbol(qemu_plugin_tb_get_insn(block, 0));
    (void)self;
    qemu_plugin_register_vcpu_tb_exec_inline(block, ADD_U64, sum_of(name && *name ? name : "unnamed"), qemu_plugin_tb_n_insns(block));
}

static void ended(plugin self, void *with)
{
    uint64_t sum = 0;
    (void)self;
    (void)with;
    for (size_t k = 0; k < FUNCTIONS; k++) {
        if (functions[k].executed)
            fprintf(stderr, "function %" PRIu64 " %s\n", functions[k].executed, functions[k].name);
        sum += functions[k].executed;
    }
    fprintf(stderr, "instructions %" PRIu64 "\n", sum);
}

SHOWN int qemu_plugin_install(plugin self, const void *emulator, int count, char **words)
{
    (void)emulator;
    (void)count;
    (void)words;
    qemu_plugin_register_vcpu_tb_trans_cb(self, translated);
    qemu_plugin_register_atexit_cb(self, ended, NULL);
    return 0;
}
