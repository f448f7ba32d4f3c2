/* A plugin for qemu-x86_64 (qemu-user 7.2, plugin interface 1). It counts the guest instructions that run between the two markers of marks.h, and
   the integer divisions among them, and writes both to the file that its option out= names.

   The emulator starts a string instruction under a rep prefix anew for every element. A processor retires it once, so it counts once here. Guests have
   one thread: the counts are not atomic. */
#include <inttypes.h>
#include <stdbool.h>
#include <stdio.h>
#include <string.h>
#include "marks.h"

/* What is used of the emulator's plugin interface. Its header is in no Debian package. */
typedef uint64_t plugin_id;
struct qemu_plugin_tb;
struct qemu_plugin_insn;
enum { NO_REGISTERS = 0, ADD_U64 = 0 };
void qemu_plugin_register_vcpu_tb_trans_cb(plugin_id, void (*)(plugin_id, struct qemu_plugin_tb *));
void qemu_plugin_register_vcpu_insn_exec_cb(struct qemu_plugin_insn *, void (*)(unsigned, void *), int, void *);
void qemu_plugin_register_vcpu_insn_exec_inline(struct qemu_plugin_insn *, int, void *, uint64_t);
void qemu_plugin_register_atexit_cb(plugin_id, void (*)(plugin_id, void *), void *);
size_t qemu_plugin_tb_n_insns(const struct qemu_plugin_tb *);
struct qemu_plugin_insn *qemu_plugin_tb_get_insn(const struct qemu_plugin_tb *, size_t);
const void *qemu_plugin_insn_data(const struct qemu_plugin_insn *);
size_t qemu_plugin_insn_size(const struct qemu_plugin_insn *);
uint64_t qemu_plugin_insn_vaddr(const struct qemu_plugin_insn *);

#define EXPORT __attribute__((visibility("default")))
EXPORT int qemu_plugin_version = 1;

struct counts {
    uint64_t single;   /* instructions without a rep prefix */
    uint64_t rep;      /* entries into those with one */
    uint64_t division; /* among the single ones */
};

static struct counts now, from, region;
static int begun, ended;
static uint64_t rep_at, single_at_rep;
static char out_name[4096];

static bool is_prefix(uint8_t b)
{
    bool rex = (b & 0xf0) == 0x40, size = b == 0x66 || b == 0x67, repeat = b == 0xf2 || b == 0xf3;
    bool segment = b == 0x26 || b == 0x2e || b == 0x36 || b == 0x3e || b == 0x64 || b == 0x65;
    return rex || size || repeat || segment;
}

static size_t prefixes(const uint8_t *b, size_t len)
{
    size_t i = 0;
    while (i < len && is_prefix(b[i])) i++;
    return i;
}

/* movs, cmps, stos, lods, scas, ins, outs under f2 or f3 */
static bool is_rep(const uint8_t *b, size_t len)
{
    size_t at = prefixes(b, len);
    if (at == len || !(memchr(b, 0xf2, at) || memchr(b, 0xf3, at))) return false;
    uint8_t o = b[at];
    return (o >= 0xa4 && o <= 0xa7) || (o >= 0xaa && o <= 0xaf) || (o >= 0x6c && o <= 0x6f);
}

/* div and idiv: opcode f6 or f7, with 6 or 7 in the middle of the byte after it */
static bool is_division(const uint8_t *b, size_t len)
{
    size_t at = prefixes(b, len);
    return at + 1 < len && (b[at] == 0xf6 || b[at] == 0xf7) && (b[at + 1] >> 3 & 7) >= 6;
}

/* nopl with the displacement of a marker: 1 for the first, 2 for the last, 0 for any other instruction */
static int marker(const uint8_t *b, size_t len)
{
    uint32_t shift;
    if (len != 7 || b[0] != 0x0f || b[1] != 0x1f || b[2] != 0x80) return 0;
    memcpy(&shift, b + 3, 4);
    return shift == MARK_BEGIN ? 1 : shift == MARK_END ? 2 : 0;
}

static void on_begin(unsigned cpu, void *none)
{
    (void)cpu, (void)none;
    from = now;
    begun++;
}

static void on_end(unsigned cpu, void *none)
{
    (void)cpu, (void)none;
    region.single += now.single - from.single;
    region.rep += now.rep - from.rep;
    region.division += now.division - from.division;
    ended++;
}

/* Where nothing else ran since the same instruction was started, it is the next element of one entry. */
static void on_rep(unsigned cpu, void *address)
{
    (void)cpu;
    if ((uint64_t)address == rep_at && now.single == single_at_rep) return;
    rep_at = (uint64_t)address;
    single_at_rep = now.single;
    now.rep++;
}

static void on_instruction(struct qemu_plugin_insn *insn)
{
    const uint8_t *b = qemu_plugin_insn_data(insn);
    size_t len = qemu_plugin_insn_size(insn);
    int mark = marker(b, len);
    if (mark) { /* itself not counted */
        qemu_plugin_register_vcpu_insn_exec_cb(insn, mark == 1 ? on_begin : on_end, NO_REGISTERS, NULL);
    } else if (is_rep(b, len)) {
        qemu_plugin_register_vcpu_insn_exec_cb(insn, on_rep, NO_REGISTERS, (void *)qemu_plugin_insn_vaddr(insn));
    } else {
        qemu_plugin_register_vcpu_insn_exec_inline(insn, ADD_U64, &now.single, 1);
        if (is_division(b, len)) qemu_plugin_register_vcpu_insn_exec_inline(insn, ADD_U64, &now.division, 1);
    }
}

static void on_block(plugin_id id, struct qemu_plugin_tb *tb)
{
    (void)id;
    for (size_t i = 0; i < qemu_plugin_tb_n_insns(tb); i++) on_instruction(qemu_plugin_tb_get_insn(tb, i));
}

/* Nothing is written unless the region was entered and left once. */
static void on_exit_of_guest(plugin_id id, void *none)
{
    (void)id, (void)none;
    FILE *f = begun == 1 && ended == 1 ? fopen(out_name, "w") : NULL;
    if (!f) return;
    fprintf(f, "%" PRIu64 " %" PRIu64 "\n", region.single + region.rep, region.division);
    fclose(f);
}

EXPORT int qemu_plugin_install(plugin_id id, const void *info, int argc, char **argv)
{
    (void)info;
    if (argc != 1 || strncmp(argv[0], "out=", 4) != 0) return -1;
    snprintf(out_name, sizeof out_name, "%s", argv[0] + 4);
    qemu_plugin_register_vcpu_tb_trans_cb(id, on_block);
    qemu_plugin_register_atexit_cb(id, on_exit_of_guest, NULL);
    return 0;
}
