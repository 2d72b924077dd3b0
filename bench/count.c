/* A plugin of QEMU that counts the instructions that a program spends inside of some of its functions, in place of callgrind, which can't
   run a program of another processor:

       qemu-x86_64 -plugin ./count.so,inside=PATTERN,part=PATTERN,out=FILE PROGRAM

   It counts from the first instruction of a function whose name fits `inside`, with all that is called, up to the return behind the call
   that entered it. When a function that fits `part` is entered, and at the end, what was counted goes to FILE.1, FILE.2 and so on, in
   callgrind's form as far as run and profile.awk read it, and counting starts again from 0. A pattern is a shell's: `*counted_*` is every
   name that has this text in it, and a name without stars is that name alone. The program must have one thread. */
#define _POSIX_C_SOURCE 200809L
#include <fnmatch.h>
#include <inttypes.h>
#include <stdbool.h>
#include <stdio.h>
#include <stdlib.h>
#include <string.h>

/* What is used of QEMU's plugin interface, version 1. It is written out here because QEMU is often installed without its header. */
typedef uint64_t plugin_id;
struct block;       /* instructions that QEMU translates together */
struct instruction; /* one of them */
enum { NO_REGISTERS = 0 };

void qemu_plugin_register_vcpu_tb_trans_cb(plugin_id id, void (*call)(plugin_id id, struct block *block));
void qemu_plugin_register_vcpu_insn_exec_cb(struct instruction *on, void (*call)(unsigned processor, void *data), int flags, void *data);
void qemu_plugin_register_atexit_cb(plugin_id id, void (*call)(plugin_id id, void *data), void *data);
size_t qemu_plugin_tb_n_insns(const struct block *block);
struct instruction *qemu_plugin_tb_get_insn(const struct block *block, size_t index);
uint64_t qemu_plugin_insn_vaddr(const struct instruction *instruction);
size_t qemu_plugin_insn_size(const struct instruction *instruction);
const char *qemu_plugin_insn_symbol(const struct instruction *instruction);

int qemu_plugin_version = 1;

struct function {
    char *name;
    bool is_counted, ends_part;
    uint64_t cost; /* in this part */
    struct function *next;
};

/* An instruction of the program: its address, the address behind it, and the function that it stands in. */
struct place {
    uint64_t at, behind;
    struct function *function;
};

static char *inside, *part, *out; /* the arguments */
static int parts;
static struct function *functions;

static struct function nowhere;
static struct place start = {0, 0, &nowhere};
static struct place *last = &start; /* executed last */
static bool is_counting;
static uint64_t back; /* while counting: where the counted function returns to */

/* Not by exit, which would call back into QEMU in the midst of an instruction. */
static void stop(const char *why)
{
    fprintf(stderr, "count: %s\n", why);
    _Exit(1);
}

static void write_part(void)
{
    char path[4096];
    uint64_t total = 0;
    /* A function that was jumped to, not called, does not return to where it was entered from. */
    if (is_counting)
        stop("a part ends inside of a counted function");
    snprintf(path, sizeof path, "%s.%d", out, ++parts);
    FILE *to = fopen(path, "w");
    if (to == NULL)
        stop("a part can't be written");
    for (struct function *f = functions; f != NULL; f = f->next) {
        if (f->cost > 0)
            fprintf(to, "fn=%s\n0 %" PRIu64 "\n", f->name, f->cost);
        total += f->cost;
        f->cost = 0;
    }
    fprintf(to, "totals: %" PRIu64 "\n", total);
    if (fclose(to) != 0)
        stop("a part can't be written");
}

/* Called before each instruction. What is executed last before a counted function is its call, so the return is to what stands behind. */
static void execute(unsigned processor, void *data)
{
    struct place *now = data;
    struct function *function = now->function;
    (void)processor;
    if (is_counting && now->at == back) {
        is_counting = false;
    } else if (!is_counting && function->is_counted && !last->function->is_counted) {
        is_counting = true;
        back = last->behind;
    }
    if (is_counting)
        function->cost++;
    if (function->ends_part && function != last->function)
        write_part();
    last = now;
}

static struct function *function_named(const char *name)
{
    struct function *f = functions;
    while (f != NULL && strcmp(f->name, name) != 0)
        f = f->next;
    if (f != NULL)
        return f;
    f = calloc(1, sizeof *f);
    f->name = strdup(name);
    f->is_counted = fnmatch(inside, name, 0) == 0;
    f->ends_part = fnmatch(part, name, 0) == 0;
    f->next = functions;
    return functions = f;
}

/* Called when a block is translated, before it is executed first. QEMU knows the names of the program's own functions, and none of the C
   library's: `???` is what callgrind calls a function without a name. */
static void translate(plugin_id id, struct block *block)
{
    (void)id;
    for (size_t i = 0; i < qemu_plugin_tb_n_insns(block); i++) {
        struct instruction *instruction = qemu_plugin_tb_get_insn(block, i);
        const char *name = qemu_plugin_insn_symbol(instruction);
        struct place *place = calloc(1, sizeof *place);
        place->at = qemu_plugin_insn_vaddr(instruction);
        place->behind = place->at + qemu_plugin_insn_size(instruction);
        place->function = function_named(name != NULL ? name : "???");
        qemu_plugin_register_vcpu_insn_exec_cb(instruction, execute, NO_REGISTERS, place);
    }
}

static void end(plugin_id id, void *data)
{
    (void)id;
    (void)data;
    write_part();
}

static char *argument(const char *key, int count, char **words)
{
    for (int i = 0; i < count; i++)
        if (strncmp(words[i], key, strlen(key)) == 0)
            return strdup(words[i] + strlen(key));
    stop("wants inside=PATTERN,part=PATTERN,out=FILE");
    return NULL;
}

int qemu_plugin_install(plugin_id id, const void *qemu, int count, char **words)
{
    (void)qemu;
    inside = argument("inside=", count, words);
    part = argument("part=", count, words);
    out = argument("out=", count, words);
    qemu_plugin_register_vcpu_tb_trans_cb(id, translate);
    qemu_plugin_register_atexit_cb(id, end, NULL);
    return 0;
}
