/* Where callgrind cannot run an x86-64 program, the emulator counts: a plugin of qemu-x86_64 (QEMU 7.2) that counts the instructions executed in each
 * call of some functions.
 *
 *   qemu-x86_64 -plugin libcount.so,out=FILE,at=NAME:HEXADDRESS,at=.. PROGRAM
 *
 * FILE gets a line "COUNT NAME" for each call when it is left: every instruction from the first at the address to the ret that leaves, both
 * included, and all of what is called in between. A repeated string instruction counts once for each time round and once for its end, as in
 * callgrind.
 *
 * Calls are followed by their call and ret instructions, as a function may be jumped to where that ends its caller. The address that is gone on
 * with after the last ret is held to the one after the call that led in. Exit status 3 where that fails, or where one of the functions is called
 * inside another. */
#include <inttypes.h>
#include <stdint.h>
#include <stdio.h>
#include <stdlib.h>
#include <string.h>

/* What of qemu-plugin.h of QEMU 7.2 is used here. */
typedef uint64_t qemu_plugin_id_t;
typedef struct qemu_info_t qemu_info_t;
struct qemu_plugin_tb;
struct qemu_plugin_insn;
enum qemu_plugin_cb_flags { QEMU_PLUGIN_CB_NO_REGS, QEMU_PLUGIN_CB_R_REGS, QEMU_PLUGIN_CB_RW_REGS };
typedef void (*qemu_plugin_vcpu_udata_cb_t)(unsigned int vcpu_index, void *userdata);
void qemu_plugin_register_vcpu_tb_trans_cb(qemu_plugin_id_t id, void (*cb)(qemu_plugin_id_t id, struct qemu_plugin_tb *tb));
void qemu_plugin_register_vcpu_insn_exec_cb(struct qemu_plugin_insn *insn, qemu_plugin_vcpu_udata_cb_t cb, enum qemu_plugin_cb_flags flags, void *userdata);
void qemu_plugin_register_atexit_cb(qemu_plugin_id_t id, void (*cb)(qemu_plugin_id_t id, void *userdata), void *userdata);
size_t qemu_plugin_tb_n_insns(const struct qemu_plugin_tb *tb);
struct qemu_plugin_insn *qemu_plugin_tb_get_insn(const struct qemu_plugin_tb *tb, size_t idx);
const void *qemu_plugin_insn_data(const struct qemu_plugin_insn *insn);
size_t qemu_plugin_insn_size(const struct qemu_plugin_insn *insn);
uint64_t qemu_plugin_insn_vaddr(const struct qemu_plugin_insn *insn);

#define EXPORT __attribute__((visibility("default")))
EXPORT int qemu_plugin_version = 1;
EXPORT int qemu_plugin_install(qemu_plugin_id_t id, const qemu_info_t *info, int argc, char **argv);

enum { FUNCTIONS = 32 };
static struct { char *name; uint64_t at; } function[FUNCTIONS];
static unsigned functions;
static FILE *out;

enum kind { OTHER, CALL, RET };
struct insn {                           /* one that has been translated */
    uint64_t at, next;
    enum kind kind;
    int entry;                          /* of which function, or -1 */
};

enum { DEEPEST = 1 << 16 };
static uint64_t executed;
static uint64_t back[DEEPEST];          /* the addresses after the call instructions that have not yet been returned from */
static unsigned deep;
static int is_called;                   /* the last instruction was a call */
static int inside = -1;                 /* the function, or -1 */
static uint64_t from;                   /* executed, and deep, when it was entered */
static unsigned entered;
static uint64_t expected;               /* after a ret out of it: the address to go on with; else 0 */

static void fail(const char *what, const struct insn *i)
{
    fprintf(stderr, "count: %s at %" PRIx64 "\n", what, i->at);
    fflush(NULL);
    _Exit(3);
}

static void execute(unsigned vcpu, void *data)
{
    const struct insn *i = data;
    (void)vcpu;
    if (expected != 0 && i->at != expected)
        fail("left to another address than it was called from", i);
    expected = 0;
    if (i->entry >= 0) {
        if (inside < 0) {
            inside = i->entry;
            from = executed;
            entered = deep;
        } else if (is_called || i->entry != inside) {
            fail("called inside of another", i);
        }
    }
    executed++;
    is_called = i->kind == CALL;
    if (i->kind == CALL) {
        if (deep == DEEPEST)
            fail("too deep", i);
        back[deep++] = i->next;
    } else if (i->kind == RET && deep > 0) {
        deep--;
        if (inside >= 0 && deep < entered) {
            fprintf(out, "%" PRIu64 " %s\n", executed - from, function[inside].name);
            inside = -1;
            expected = back[deep];
        }
    }
}

static enum kind kind_of(const uint8_t *byte, size_t n)
{
    size_t k = 0;
    while (k < n && (strchr("\x66\x67\xf2\xf3\x2e\x36\x3e\x26\x64\x65", byte[k]) != NULL && byte[k] != 0))
        k++;
    if (k < n && byte[k] >= 0x40 && byte[k] <= 0x4f)
        k++;
    if (k >= n)
        return OTHER;
    if (byte[k] == 0xe8 || (byte[k] == 0xff && k + 1 < n && (byte[k + 1] >> 3 & 7) == 2))
        return CALL;
    return byte[k] == 0xc3 || byte[k] == 0xc2 ? RET : OTHER;
}

static void translate(qemu_plugin_id_t id, struct qemu_plugin_tb *tb)
{
    size_t n = qemu_plugin_tb_n_insns(tb);
    (void)id;
    for (size_t k = 0; k < n; k++) {
        struct qemu_plugin_insn *q = qemu_plugin_tb_get_insn(tb, k);
        struct insn *i = malloc(sizeof *i);
        i->at = qemu_plugin_insn_vaddr(q);
        i->next = i->at + qemu_plugin_insn_size(q);
        i->kind = kind_of(qemu_plugin_insn_data(q), qemu_plugin_insn_size(q));
        i->entry = -1;
        for (unsigned f = 0; f < functions; f++)
            if (function[f].at == i->at)
                i->entry = (int)f;
        qemu_plugin_register_vcpu_insn_exec_cb(q, execute, QEMU_PLUGIN_CB_NO_REGS, i);
    }
}

static void leave(qemu_plugin_id_t id, void *data)
{
    (void)id;
    (void)data;
    fprintf(stderr, "count: %" PRIu64 " instructions in all\n", executed);
    fclose(out);
}

int qemu_plugin_install(qemu_plugin_id_t id, const qemu_info_t *info, int argc, char **argv)
{
    (void)info;
    for (int k = 0; k < argc; k++) {
        char *colon = strrchr(argv[k], ':');
        if (strncmp(argv[k], "out=", 4) == 0) {
            out = fopen(argv[k] + 4, "w");
        } else if (strncmp(argv[k], "at=", 3) == 0 && colon != NULL && functions < FUNCTIONS) {
            function[functions].name = strndup(argv[k] + 3, (size_t)(colon - argv[k] - 3));
            function[functions++].at = strtoull(colon + 1, NULL, 16);
        } else {
            fprintf(stderr, "count: %s?\n", argv[k]);
            return 1;
        }
    }
    if (out == NULL || functions == 0) {
        fprintf(stderr, "count: out=FILE and at=NAME:ADDRESS are needed\n");
        return 1;
    }
    qemu_plugin_register_vcpu_tb_trans_cb(id, translate);
    qemu_plugin_register_atexit_cb(id, leave, NULL);
    return 0;
}
