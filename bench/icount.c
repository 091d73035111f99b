// A plugin of Debian's qemu-user 7.2 (plugin interface 1) that counts executed x86-64 instructions and prints "total N" at exit:
//   gcc -O2 -shared -fPIC -o icount.so icount.c;  qemu-x86_64 -plugin ./icount.so PROGRAM ARG..
// A string instruction with a rep prefix counts once, as a processor's counter has it; the emulator runs it once for each turn.
#include <stddef.h>
#include <stdint.h>
#include <stdio.h>
typedef uint64_t id;
typedef struct block block;
typedef struct instruction instruction;
enum { NO_REGISTERS = 0, ADD = 0 };
extern void qemu_plugin_register_vcpu_tb_trans_cb(id, void (*)(id, block *));
extern void qemu_plugin_register_atexit_cb(id, void (*)(id, void *), void *);
extern size_t qemu_plugin_tb_n_insns(const block *);
extern instruction *qemu_plugin_tb_get_insn(const block *, size_t);
extern const void *qemu_plugin_insn_data(const instruction *);
extern size_t qemu_plugin_insn_size(const instruction *);
extern uint64_t qemu_plugin_insn_vaddr(const instruction *);
extern void qemu_plugin_register_vcpu_insn_exec_inline(instruction *, int, void *, uint64_t);
extern void qemu_plugin_register_vcpu_insn_exec_cb(instruction *, void (*)(unsigned, void *), int, void *);
__attribute__((visibility("default"))) int qemu_plugin_version = 1;

static uint64_t count, last_place, last_count;

// One turn of a rep: no other instruction since the last turn of the same one.
static void on_rep(unsigned cpu, void *place) {
    (void)cpu;
    if (last_place == (uint64_t)place && last_count + 1 == count) count--;
    last_place = (uint64_t)place, last_count = count;
}

// A string instruction after prefixes, one of them rep.
static int is_rep(const uint8_t *code, size_t size) {
    size_t at = 0;
    int rep = 0;
    while (at + 1 < size && (code[at] == 0xf2 || code[at] == 0xf3 || code[at] == 0x66 || (code[at] & 0xf0) == 0x40))
        rep |= (code[at++] & 0xfe) == 0xf2;
    return rep && ((code[at] & 0xfc) == 0xa4 || (code[at] >= 0xaa && code[at] <= 0xaf));
}

static void on_block(id plugin, block *b) {
    (void)plugin;
    for (size_t k = 0; k < qemu_plugin_tb_n_insns(b); k++) {
        instruction *i = qemu_plugin_tb_get_insn(b, k);
        qemu_plugin_register_vcpu_insn_exec_inline(i, ADD, &count, 1);
        if (is_rep(qemu_plugin_insn_data(i), qemu_plugin_insn_size(i)))
            qemu_plugin_register_vcpu_insn_exec_cb(i, on_rep, NO_REGISTERS, (void *)qemu_plugin_insn_vaddr(i));
    }
}

static void at_exit(id plugin, void *nothing) {
    (void)plugin, (void)nothing;
    fprintf(stderr, "total %lu\n", (unsigned long)count);
}

__attribute__((visibility("default"))) int qemu_plugin_install(id plugin, const void *info, int words, char **word) {
    (void)info, (void)words, (void)word;
    qemu_plugin_register_vcpu_tb_trans_cb(plugin, on_block);
    qemu_plugin_register_atexit_cb(plugin, at_exit, 0);
    return 0;
}
