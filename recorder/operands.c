// The first witness: what Zydis' own operands and its own addresses say. It shares no code with encode.c.
#include "witness.h"
#include <Zydis/Zydis.h>
#include <string.h>

static ZydisRegisterContext context_of(const Regs *regs) {
    ZydisRegisterContext c;
    memset(&c, 0, sizeof c);
    for (int k = 0; k < 16; k++) {
        c.values[ZYDIS_REGISTER_RAX + k] = regs->slot[k];
        c.values[ZYDIS_REGISTER_EAX + k] = regs->slot[k] & 0xffffffff;
    }
    for (int k = 0; k < 4; k++)
        c.values[ZYDIS_REGISTER_AL + k] = regs->slot[k] & 0xff;
    return c;
}

// Stack operands that an instruction does not name: Zydis leaves the place to the reader.
static uint64_t stack_place(const ZydisDecodedOperand *o, const Regs *regs, int writes) {
    return writes ? regs->slot[4] - o->size / 8 : regs->slot[4];
}

static int place_of(const ZydisDecodedInstruction *in, const ZydisDecodedOperand *o, const Regs *regs, int writes, uint64_t *at) {
    ZydisRegisterContext c = context_of(regs);
    int hidden = o->visibility == ZYDIS_OPERAND_VISIBILITY_HIDDEN;
    if (hidden && o->mem.base == ZYDIS_REGISTER_RSP) {
        *at = stack_place(o, regs, writes);
        return 0;
    }
    if (in->mnemonic == ZYDIS_MNEMONIC_POP && !hidden) { // rsp counts after its increment
        c.values[ZYDIS_REGISTER_RSP] += 8;
        c.values[ZYDIS_REGISTER_ESP] = (c.values[ZYDIS_REGISTER_ESP] + 8) & 0xffffffff;
    }
    if (in->mnemonic == ZYDIS_MNEMONIC_XLAT) { // Zydis gives its index no scale
        *at = regs->slot[3] + (regs->slot[0] & 0xff);
        return 0;
    }
    if (in->mnemonic == ZYDIS_MNEMONIC_LEAVE) { // an address-size prefix does not reach the stack, and Zydis has it do so
        *at = regs->slot[5];
        return 0;
    }
    ZyanU64 address;
    if (!ZYAN_SUCCESS(ZydisCalcAbsoluteAddressEx(in, o, regs->slot[SLOT_RIP], &c, &address)))
        return -1;
    *at = address;
    if (o->mem.segment == ZYDIS_REGISTER_FS)
        *at += regs->slot[SLOT_FS];
    if (o->mem.segment == ZYDIS_REGISTER_GS)
        *at += regs->slot[SLOT_GS];
    return 0;
}

static void add(Accesses *into, int writes, uint64_t at, unsigned size) {
    Access one = {writes, at, size};
    if (into->count < MOST_ACCESSES)
        into->all[into->count++] = one;
}

static int touches_nothing(const ZydisDecodedInstruction *in, const ZydisDecodedOperand *o) {
    return o->type != ZYDIS_OPERAND_TYPE_MEMORY || o->mem.type == ZYDIS_MEMOP_TYPE_AGEN || in->meta.category == ZYDIS_CATEGORY_PREFETCH ||
           in->meta.category == ZYDIS_CATEGORY_PREFETCHWT1 || in->meta.category == ZYDIS_CATEGORY_WIDENOP || in->meta.category == ZYDIS_CATEGORY_NOP;
}

static int counts_to_nothing(const ZydisDecodedInstruction *in, const Regs *regs) {
    int repeated = (in->attributes & (ZYDIS_ATTRIB_HAS_REP | ZYDIS_ATTRIB_HAS_REPE | ZYDIS_ATTRIB_HAS_REPNE)) != 0;
    uint64_t counter = in->address_width == 32 ? regs->slot[1] & 0xffffffff : regs->slot[1];
    return repeated && in->meta.category == ZYDIS_CATEGORY_STRINGOP && counter == 0;
}

int accesses_by_operands(const uint8_t *code, size_t bytes, const Regs *regs, Accesses *into) {
    ZydisDecoder decoder;
    ZydisDecodedInstruction in;
    ZydisDecodedOperand ops[ZYDIS_MAX_OPERAND_COUNT];
    memset(ops, 0, sizeof ops);
    into->count = 0;
    ZydisDecoderInit(&decoder, ZYDIS_MACHINE_MODE_LONG_64, ZYDIS_STACK_WIDTH_64);
    if (!ZYAN_SUCCESS(ZydisDecoderDecodeFull(&decoder, code, bytes, &in, ops)))
        return -1;
    if (counts_to_nothing(&in, regs))
        return 0;
    for (int k = 0; k < in.operand_count; k++) {
        const ZydisDecodedOperand *o = &ops[k];
        uint64_t at;
        if (touches_nothing(&in, o))
            continue;
        for (int writes = 0; writes < 2; writes++) {
            if (!(o->actions & (writes ? ZYDIS_OPERAND_ACTION_MASK_WRITE : ZYDIS_OPERAND_ACTION_MASK_READ)))
                continue;
            if (place_of(&in, o, regs, writes, &at) != 0)
                return -1;
            add(into, writes, at, o->size / 8);
        }
    }
    return 0;
}
