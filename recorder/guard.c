// The second witness: the processor's debug registers say which bytes a step touched, whether their value changed or not.
#include "witness.h"
#include <string.h>

enum { ON_WRITE = 1, ON_ACCESS = 3 };

static uint64_t control(const Guard *g, int kind) {
    uint64_t bits = 0;
    for (int k = 0; k < 4; k++)
        if (g->is_set[k])
            bits |= UINT64_C(1) << 2 * k | (uint64_t)kind << (16 + 4 * k);
    return bits;
}

void guard_clear(Guard *g, const Thread *t) {
    if (g->control)
        process_set_debug(t, 7, 0);
    memset(g, 0, sizeof *g);
}

// An emulator that tells one watchpoint alone gets those of one phase: the first byte, the last byte, or those around. QEMU says of
// unaligned data that bytes around it were touched too, of a store even 17 bytes before it: there nothing around is watched, and that
// its first and last byte were touched says little.
static int is_wanted(int k, const Access *a, int phase) {
    int is_aligned = (a->size & (a->size - 1)) == 0 && a->address % a->size == 0;
    return phase < 0 || k == (phase == 2 ? -1 : phase) || (k >= 2 && phase == 2 && is_aligned);
}

void guard_set(Guard *g, const Thread *t, const Access *a, int phase) {
    const uint64_t at[4] = {a->address, a->address + a->size - 1, a->address - 1, a->address + a->size};
    for (int k = 0; k < 4; k++) {
        g->is_set[k] = is_wanted(k, a, phase) && ((g->at[k] == at[k] && g->is_set[k]) || process_set_debug(t, k, at[k]) == 0);
        g->at[k] = at[k];
    }
    uint64_t bits = control(g, a->writes ? ON_WRITE : ON_ACCESS);
    if (bits != g->control) {
        if (process_set_debug(t, 7, bits) != 0) {
            guard_clear(g, t);
            return;
        }
        g->control = bits;
    }
    process_set_debug(t, 6, 0);
}

const char *guard_say(const Guard *g, const Thread *t, const Accesses *said, const Access *a) {
    static const char *const MISSED[2] = {"its first byte was not touched", "its last byte was not touched"};
    static const char *const STRAY[2] = {"the byte before it was touched", "the byte behind it was touched"};
    uint64_t hits = process_debug(t, 6);
    for (int k = 0; k < 4; k++) {
        int hit = (int)(hits >> k & 1);
        if (!g->is_set[k])
            continue;
        if (k < 2 && !hit)
            return MISSED[k];
        if (k >= 2 && hit && !accesses_touch(said, g->at[k], a->writes))
            return STRAY[k - 2];
    }
    return NULL;
}
