/* A plugin of qemu's (API 1): counts the guest's instructions, and writes the count to the file that it is given (to=PATH) whenever the
   guest, of x86-64, asks for its process number. */
#include <fcntl.h>
#include <stddef.h>
#include <stdint.h>
#include <string.h>
#include <unistd.h>
typedef uint64_t plugin;
struct qemu_plugin_tb;
struct qemu_plugin_insn;
extern void qemu_plugin_register_vcpu_tb_trans_cb(plugin, void (*)(plugin, struct qemu_plugin_tb *));
extern size_t qemu_plugin_tb_n_insns(const struct qemu_plugin_tb *);
extern struct qemu_plugin_insn *qemu_plugin_tb_get_insn(const struct qemu_plugin_tb *, size_t);
extern void qemu_plugin_register_vcpu_insn_exec_inline(struct qemu_plugin_insn *, int, void *, uint64_t);
extern void qemu_plugin_register_vcpu_syscall_cb(plugin, void (*)(plugin, unsigned, int64_t, uint64_t, uint64_t, uint64_t, uint64_t, uint64_t, uint64_t, uint64_t, uint64_t));
int qemu_plugin_version = 1;
static uint64_t count;
static int file;

/* each instruction by itself: a block is said to have one more where an instruction lies across the end of a page */
static void block(plugin id, struct qemu_plugin_tb *tb) {
    for (size_t i = 0; i < qemu_plugin_tb_n_insns(tb); i++)
        qemu_plugin_register_vcpu_insn_exec_inline(qemu_plugin_tb_get_insn(tb, i), 0, &count, 1); /* 0: add */
}

static void call(plugin id, unsigned cpu, int64_t number, uint64_t a, uint64_t b, uint64_t c, uint64_t d, uint64_t e, uint64_t f, uint64_t g, uint64_t h) {
    if (number == 39 && pwrite(file, &count, sizeof count, 0) != sizeof count)
        _exit(1);
}

int qemu_plugin_install(plugin id, const void *info, int n, char **words) {
    if (n != 1 || strncmp(words[0], "to=", 3) || (file = open(words[0] + 3, O_RDWR | O_CREAT, 0666)) < 0)
        return 1;
    qemu_plugin_register_vcpu_tb_trans_cb(id, block);
    qemu_plugin_register_vcpu_syscall_cb(id, call);
    return 0;
}
