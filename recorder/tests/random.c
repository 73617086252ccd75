// Random instructions under random registers: what the library logs of their records must be what Zydis' operands say. Runs on any
// processor, since nothing is executed. usage: random SEED COUNT
#include "../witness.h"
#include "any.h"
#include <stdio.h>
#include <stdlib.h>
#include <string.h>

// Prefixes stand more often than chance would have them.
static void any_code(uint8_t code[CODE_BYTES]) {
    static const uint8_t PREFIXES[] = {0x66, 0x67, 0xf2, 0xf3, 0x64, 0x65, 0x2e, 0xf0, 0x40, 0x48, 0x4c, 0x0f, 0xc4, 0xc5, 0x62};
    for (int k = 0; k < CODE_BYTES; k++)
        code[k] = (uint8_t)any();
    int at = 0;
    for (uint64_t prefixes = any() % 4; prefixes > 0; prefixes--)
        code[at++] = PREFIXES[any() % sizeof PREFIXES];
    if (any() % 3 == 0)
        code[at] = 0x0f;
}

static void any_registers(Regs *regs) {
    for (int k = 0; k < SLOTS; k++)
        regs->slot[k] = any() >> (any() % 4 * 16);
    if (any() % 8 == 0)
        regs->slot[1] = 0;
    regs->flags = 0;
}

static void show(const char *words, const Encoded *e, const Accesses *logged, const Accesses *operands) {
    printf("%s: %s (%s)\n", words, e->text, how_word(e->how));
    const Accesses *both[2] = {logged, operands};
    for (int k = 0; k < 2; k++)
        for (int i = 0; i < both[k]->count; i++)
            printf("  %s %s 0x%llx, %u bytes\n", k ? "operands" : "log", both[k]->all[i].writes ? "write" : "read",
                   (unsigned long long)both[k]->all[i].address, both[k]->all[i].size);
}

int main(int count, char **words) {
    state = count > 1 ? strtoull(words[1], NULL, 0) * 2654435761u + 1 : 88172645463325252u;
    long rounds = count > 2 ? atol(words[2]) : 100000, by_how[3] = {0}, none = 0, bad = 0, with_memory = 0;
    for (long k = 0; k < rounds; k++) {
        uint8_t code[CODE_BYTES], size;
        Regs regs;
        Encoded e;
        Accesses logged, operands;
        any_code(code);
        any_registers(&regs);
        if (encode(code, sizeof code, regs.slot[SLOT_RIP], &e) != 0) {
            none++;
            continue;
        }
        by_how[e.how]++;
        const uint8_t *record = encoded_record(&e, &regs, &size);
        unsigned refused = accesses_logged(record, size, &regs, &logged);
        if (e.how == COMPLEX ? refused != 4 : refused != 0) {
            printf("refused %u: %s (%s)\n", refused, e.text, how_word(e.how));
            bad++;
        }
        if (refused || accesses_by_operands(code, sizeof code, &regs, &operands) != 0)
            continue;
        with_memory += operands.count > 0;
        if (!accesses_equal(&logged, &operands)) {
            show("they differ", &e, &logged, &operands);
            bad++;
        }
        if (bad > 40)
            break;
    }
    printf("%ld exact, %ld with registers missing, %ld complex, %ld no instruction; %ld touch memory; %ld wrong\n", by_how[EXACT],
           by_how[REGISTERS], by_how[COMPLEX], none, with_memory, bad);
    return bad ? 1 : 0;
}
