/* Counts in qemu-x86_64 what callgrind counts on x86-64: the instructions of each function between begin_count and
 * end_count of count.c. The counts go to DUMPS/count.1, DUMPS/count.2 .. in callgrind's format.
 *   cc -O2 -shared -fPIC plugin.c -o plugin.so
 *   qemu-x86_64 -d plugin -D LOG -plugin ./plugin.so,dumps=DUMPS PROGRAM ..
 * Without -d qemu reads no symbols. */
#include <inttypes.h>
#include <stdio.h>
#include <stdlib.h>
#include <string.h>

/* What is used of qemu-plugin.h, which comes with qemu's source only. */
struct qemu_plugin_tb;
struct qemu_plugin_insn;
struct qemu_info;
enum callback_flags { READS_NO_REGISTERS };
typedef void on_translation(uint64_t id, struct qemu_plugin_tb *block);
typedef void on_execution(unsigned processor, void *data);
void qemu_plugin_register_vcpu_tb_trans_cb(uint64_t id, on_translation *call);
void qemu_plugin_register_vcpu_insn_exec_cb(struct qemu_plugin_insn *instruction, on_execution *call,
                                            enum callback_flags flags, void *data);
size_t qemu_plugin_tb_n_insns(const struct qemu_plugin_tb *block);
struct qemu_plugin_insn *qemu_plugin_tb_get_insn(const struct qemu_plugin_tb *block, size_t place);
const char *qemu_plugin_insn_symbol(const struct qemu_plugin_insn *instruction);

/* The version of that interface up to qemu 8. */
int qemu_plugin_version = 1;

/* Where there is no symbol, as in shared libraries, the first one counts. */
static struct function {
    const char *name;
    uint64_t count;
} functions[20000] = {{"(no symbol)", 0}};

static size_t known = 1;
static int counting;
static unsigned dumps;
static const char *folder;

static struct function *function_of(const char *name)
{
    if (name == NULL)
        return functions;
    for (size_t k = known; k-- > 1;)
        if (!strcmp(functions[k].name, name))
            return &functions[k];
    if (known == sizeof functions / sizeof *functions)
        return functions;
    functions[known].name = strdup(name);
    return &functions[known++];
}

static void count(unsigned processor, void *function)
{
    (void)processor;
    ((struct function *)function)->count++;
}

/* With each instruction of begin_count, so that what follows its last one is counted. */
static void begin(unsigned processor, void *data)
{
    (void)processor, (void)data;
    for (size_t k = 0; k < known; k++)
        functions[k].count = 0;
    counting = 1;
}

/* With each instruction of end_count; the first one ends the count. */
static void end(unsigned processor, void *data)
{
    char path[4096];
    uint64_t total = 0;
    (void)processor, (void)data;
    if (!counting)
        return;
    counting = 0;
    snprintf(path, sizeof path, "%s/count.%u", folder, ++dumps);
    FILE *out = fopen(path, "w");
    if (out == NULL) {
        perror(path);
        exit(2);
    }
    fprintf(out, "events: Ir\n");
    for (size_t k = 0; k < known; k++)
        if (functions[k].count) {
            fprintf(out, "fn=%s\n0 %" PRIu64 "\n", functions[k].name, functions[k].count);
            total += functions[k].count;
        }
    fprintf(out, "totals: %" PRIu64 "\n", total);
    fclose(out);
}

static void translated(uint64_t id, struct qemu_plugin_tb *block)
{
    (void)id;
    for (size_t k = 0; k < qemu_plugin_tb_n_insns(block); k++) {
        struct qemu_plugin_insn *instruction = qemu_plugin_tb_get_insn(block, k);
        const char *name = qemu_plugin_insn_symbol(instruction);
        on_execution *call = count;
        if (name != NULL && !strcmp(name, "begin_count"))
            call = begin;
        else if (name != NULL && !strcmp(name, "end_count"))
            call = end;
        qemu_plugin_register_vcpu_insn_exec_cb(instruction, call, READS_NO_REGISTERS, function_of(name));
    }
}

int qemu_plugin_install(uint64_t id, const struct qemu_info *info, int argc, char **argv)
{
    (void)info;
    if (argc != 1 || strncmp(argv[0], "dumps=", 6))
        return fprintf(stderr, "plugin.c: dumps=FOLDER is missing\n"), 1;
    folder = argv[0] + 6;
    qemu_plugin_register_vcpu_tb_trans_cb(id, translated);
    return 0;
}
