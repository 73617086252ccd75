// Zydis' operands as the operands of a record.
#include "build.h"

void put64(uint8_t *p, uint64_t v) {
    for (int i = 0; i < 8; i++)
        p[i] = (uint8_t)(v >> 8 * i);
}

uint64_t get64(const uint8_t *p) {
    uint64_t v = 0;
    for (int i = 0; i < 8; i++)
        v |= (uint64_t)p[i] << 8 * i;
    return v;
}

int access_of(const Op *o) {
    return (o->actions & ZYDIS_OPERAND_ACTION_MASK_READ ? 1 : 0) | (o->actions & ZYDIS_OPERAND_ACTION_MASK_WRITE ? 2 : 0);
}

// Bank and number by docs/FORMAT.md.
static void bank_of(ZydisRegister r, int *bank, int *number) {
    if (r >= ZYDIS_REGISTER_AL && r <= ZYDIS_REGISTER_BH) {
        *bank = 4;
        *number = (int)(r - ZYDIS_REGISTER_AL);
        return;
    }
    if (r >= ZYDIS_REGISTER_SPL && r <= ZYDIS_REGISTER_R15B) {
        *bank = 3;
        *number = (int)(r - ZYDIS_REGISTER_SPL) + 4;
        return;
    }
    int id = ZydisRegisterGetId(r);
    *number = id < 0 ? 0 : id;
    switch (ZydisRegisterGetClass(r)) {
    case ZYDIS_REGCLASS_GPR64: *bank = 0; return;
    case ZYDIS_REGCLASS_GPR32: *bank = 1; return;
    case ZYDIS_REGCLASS_GPR16: *bank = 2; return;
    case ZYDIS_REGCLASS_XMM: *bank = 5; return;
    case ZYDIS_REGCLASS_YMM: *bank = 6; return;
    case ZYDIS_REGCLASS_ZMM: *bank = 7; return;
    case ZYDIS_REGCLASS_MASK: *bank = 8; return;
    case ZYDIS_REGCLASS_SEGMENT: *bank = 12; *number &= 7; return;
    case ZYDIS_REGCLASS_X87: *bank = 12; *number = 8 + (*number & 7); return;
    case ZYDIS_REGCLASS_MMX: *bank = 12; *number = 16 + (*number & 7); return;
    default: *bank = 12; *number = 31; return;
    }
}

void set_register(Build *b, int slot, int bank, int number) {
    b->used[slot] = 1;
    b->r[8 + 2 * slot] = (uint8_t)bank;
    b->r[9 + 2 * slot] = (uint8_t)number;
}

void add_spec(Build *b, int spec, int access) {
    b->r[4 + b->count] = (uint8_t)spec;
    b->access |= access << 2 * b->count++;
}

// The slot for a register: the one of its field in the instruction, another free one, or -1.
static int slot_for(const Build *b, const Op *o, int bank, int number) {
    int field = o->encoding == ZYDIS_OPERAND_ENCODING_MODRM_RM ? 1 : o->encoding == ZYDIS_OPERAND_ENCODING_NDSNDD ? 3 : 0;
    int same = b->r[8 + 2 * field] == bank && b->r[9 + 2 * field] == number;
    if (!b->used[field] || (same && field != 1))
        return field;
    static const int order[3] = {0, 3, 1};
    for (int i = 0; i < 3; i++)
        if (!b->used[order[i]])
            return order[i];
    return -1;
}

void add_register(Build *b, const Op *o, int access) {
    int bank, number;
    bank_of(o->reg.value, &bank, &number);
    if (b->count >= 4) {
        b->loose = "more than four operands";
        return;
    }
    int slot = slot_for(b, o, bank, number);
    if (slot >= 0) {
        static const int plain[4] = {RRR, MMM, 0, VEX}, masked[4] = {RRR_MASK, MMM_MASK, 0, VEX_MASK};
        set_register(b, slot, bank, number);
        add_spec(b, b->mask && b->count == 0 ? masked[slot] : plain[slot], access);
    } else if (b->used[3] && b->r[14] == bank && !b->reg4 && !b->r[26]) { // Reg4 has the bank of regs[3] and its number in the immediate
        b->r[26] = (uint8_t)number;
        b->reg4 = 1;
        add_spec(b, REG4, access);
    } else {
        b->loose = "more registers than a record has places for";
    }
}

void add_immediate(Build *b, const Op *o) {
    if (b->count >= 4) {
        b->loose = "more than four operands";
        return;
    }
    if (b->reg4) { // it took the immediate's place
        b->loose = "a register in the immediate's place";
        return;
    }
    put64(b->r + 26, o->imm.value.u);
    add_spec(b, o->size <= 8 ? IMM_8 : o->size <= 16 ? IMM_16 : o->size <= 32 ? IMM_32 : IMM_64, 1);
}

static int string_spec(const Op *o) {
    switch (o->mem.base) {
    case ZYDIS_REGISTER_RDI: return DEREF_RDI;
    case ZYDIS_REGISTER_RSI: return DEREF_RSI;
    case ZYDIS_REGISTER_EDI: return DEREF_EDI;
    case ZYDIS_REGISTER_ESI: return DEREF_ESI;
    default: return 0;
    }
}

// The size and the segment of a memory operand, which all memory of the record shares. Answers whether it can be said.
static int shared_parts(Build *b, const Op *o, int access) {
    int is_lea = b->in->mnemonic == ZYDIS_MNEMONIC_LEA;
    int size = is_lea || !access ? 8 : o->size / 8;
    int segment = o->mem.segment == ZYDIS_REGISTER_FS ? 1 : o->mem.segment == ZYDIS_REGISTER_GS ? 2 : 0;
    if (o->mem.type != (is_lea ? ZYDIS_MEMOP_TYPE_AGEN : ZYDIS_MEMOP_TYPE_MEM))
        b->fail = "no plain address";
    else if (size < 1 || size > 64)
        b->fail = "more than 64 bytes of memory";
    else if (b->r[16] && b->r[16] != size)
        b->fail = "two sizes of memory";
    else if (b->count >= 4)
        b->fail = "more than four operands";
    if (b->fail)
        return 0;
    b->r[16] = (uint8_t)size;
    if (segment && !is_lea)
        b->segment = segment;
    return 1;
}

static int memory_spec(const Build *b, int base, int index, int displaced) {
    if (!base && !index)
        return b->address_size ? DISP_U32 : DISP_U64;
    if (!index)
        return displaced ? DISP : DEREF;
    if (!base)
        return displaced ? INDEX_DISP : INDEX;
    return displaced ? BASE_INDEX_DISP : BASE_INDEX;
}

void add_memory(Build *b, const Op *o, int access) {
    if (!shared_parts(b, o, access))
        return;
    if (o->visibility == ZYDIS_OPERAND_VISIBILITY_HIDDEN) {
        int spec = string_spec(o);
        if (!spec)
            b->fail = "hidden memory";
        else
            add_spec(b, spec, access);
        return;
    }
    if (b->explicit_memory++) {
        b->fail = "two memory operands";
        return;
    }
    int by_rip = o->mem.base == ZYDIS_REGISTER_RIP || o->mem.base == ZYDIS_REGISTER_EIP;
    int base = o->mem.base != ZYDIS_REGISTER_NONE && !by_rip, index = o->mem.index != ZYDIS_REGISTER_NONE, bank, number;
    b->used[1] = 1;
    if (base) {
        bank_of(o->mem.base, &bank, &number);
        set_register(b, 1, bank, number);
    }
    if (index) {
        bank_of(o->mem.index, &bank, &number);
        set_register(b, 2, bank, number);
        b->r[17] = o->mem.scale;
    }
    // relative to rip: the sum is known here, so that no register file has to know rip
    uint64_t next = by_rip ? b->pc + b->in->length : 0;
    put64(b->r + 18, (uint64_t)o->mem.disp.value + next);
    add_spec(b, by_rip ? DISP_U64 : memory_spec(b, base, index, o->mem.disp.value != 0), access);
}

// The slot of a register file that a register of an address is in.
static uint32_t slot_bit(int bank, int number) {
    return bank <= 2 ? 1u << number : bank == 3 ? 1u << number : bank == 4 ? 1u << (number & 3) : 0;
}

// Which slots the addresses of a record need.
uint32_t needs_of(const uint8_t *r) {
    uint32_t needs = 0, base = slot_bit(r[10], r[11]), index = slot_bit(r[12], r[13]);
    for (int i = 0; i < r[3]; i++) {
        int spec = r[4 + i];
        if (!(r[37] >> 2 * i & 3) && r[1] + (r[2] << 8) != 28)
            continue;
        if (spec == DEREF || spec == DISP || spec == BASE_INDEX || spec == BASE_INDEX_DISP)
            needs |= base;
        if (spec >= INDEX && spec <= BASE_INDEX_DISP)
            needs |= index;
        if (spec == DEREF_RDI || spec == DEREF_EDI)
            needs |= 1u << 7;
        if (spec == DEREF_RSI || spec == DEREF_ESI)
            needs |= 1u << 6;
        if (spec >= DEREF && spec != DEREF_RDI && spec != DEREF_EDI && r[0] == 0x11 && r[40])
            needs |= 1u << (r[40] == 1 ? SLOT_FS : SLOT_GS);
    }
    if (r[38] == LIST_PUSH || r[38] == LIST_POP)
        needs |= 1u << 4;
    if (r[38] == LIST_XLAT)
        needs |= 1u << 3 | 1u << 0;
    return needs;
}
