// An instruction's bytes -> a record: Zydis decodes, and its operands are put into docs/FORMAT.md's places.
#include "build.h"
#include <string.h>

static int has_prefix(const Insn *in, int value) {
    for (int i = 0; i < in->raw.prefix_count; i++)
        if (in->raw.prefixes[i].value == value)
            return 1;
    return 0;
}

// 16-bit PUSH and POP move rsp by 2, and the lists say 8: so their stack is an explicit operand.
static void add_small_stack(Build *b, int access) {
    if (b->used[1] || b->explicit_memory || b->r[16] || b->count > 2) {
        b->fail = "a 16-bit push or pop of memory";
        return;
    }
    set_register(b, 1, 0, 4);
    b->explicit_memory = 1;
    b->address_size = 0; // it does not reach the stack
    b->r[16] = 2;
    if (access & 2)
        put64(b->r + 18, (uint64_t)-2);
    add_spec(b, access & 2 ? DISP : DEREF, access);
    add_spec(b, MMM, 3);
}

static void add_stack(Build *b, const Op *o, int access) {
    int moves = b->in->mnemonic == ZYDIS_MNEMONIC_PUSH || b->in->mnemonic == ZYDIS_MNEMONIC_POP;
    if (o->size == 16 && moves)
        add_small_stack(b, access);
    else if (o->size != 64 || (access != 1 && access != 2) || b->list)
        b->fail = "an odd access of the stack";
    else if (b->r[16] && b->r[16] != 8)
        b->fail = "two sizes of memory";
    else {
        b->list = access == 2 ? LIST_PUSH : LIST_POP;
        b->r[16] = 8;
    }
}

static void add_hidden_memory(Build *b, const Op *o) {
    if (b->list == LIST_STRING || b->list == LIST_STRINGS)
        return; // they lead: see add_operands
    if (o->mem.base == ZYDIS_REGISTER_RSP && o->mem.index == ZYDIS_REGISTER_NONE)
        add_stack(b, o, access_of(o));
    else if (b->in->mnemonic == ZYDIS_MNEMONIC_XLAT && !b->address_size && o->mem.segment != ZYDIS_REGISTER_FS &&
             o->mem.segment != ZYDIS_REGISTER_GS) {
        b->list = LIST_XLAT;
        b->r[16] = 1;
    } else
        b->fail = "hidden memory";
}

// Whether a list names this hidden register, or no bank does.
static int is_left_out(const Build *b, const Op *o) {
    ZydisRegister r = o->reg.value;
    int class = ZydisRegisterGetClass(r);
    if (class == ZYDIS_REGCLASS_FLAGS || class == ZYDIS_REGCLASS_IP)
        return 1;
    if (o->visibility != ZYDIS_OPERAND_VISIBILITY_HIDDEN)
        return 0;
    if (b->skip_hidden || r == ZYDIS_REGISTER_RSP)
        return 1;
    if ((b->list == LIST_STRING || b->list == LIST_STRINGS) && (r == ZYDIS_REGISTER_RDI || r == ZYDIS_REGISTER_RSI ||
                                                                r == ZYDIS_REGISTER_EDI || r == ZYDIS_REGISTER_ESI))
        return 1;
    if (b->in->mnemonic == ZYDIS_MNEMONIC_XLAT && r != ZYDIS_REGISTER_AL)
        return 1;
    return class == ZYDIS_REGCLASS_CONTROL || class == ZYDIS_REGCLASS_INVALID || r == ZYDIS_REGISTER_MXCSR ||
           r == ZYDIS_REGISTER_X87CONTROL || r == ZYDIS_REGISTER_X87STATUS || r == ZYDIS_REGISTER_X87TAG;
}

static void add_operand(Build *b, const Op *o) {
    int hidden = o->visibility == ZYDIS_OPERAND_VISIBILITY_HIDDEN;
    if (o->encoding == ZYDIS_OPERAND_ENCODING_MASK)
        return; // the mask field brings it
    if (o->type == ZYDIS_OPERAND_TYPE_MEMORY && hidden)
        add_hidden_memory(b, o);
    else if (o->type == ZYDIS_OPERAND_TYPE_MEMORY)
        add_memory(b, o, is_hint(b->in) ? 0 : b->in->mnemonic == ZYDIS_MNEMONIC_LEA ? 1 : access_of(o));
    else if (o->type == ZYDIS_OPERAND_TYPE_REGISTER && !is_left_out(b, o))
        add_register(b, o, access_of(o));
    else if (o->type == ZYDIS_OPERAND_TYPE_IMMEDIATE && !hidden)
        add_immediate(b, o);
    else if (o->type == ZYDIS_OPERAND_TYPE_POINTER)
        b->fail = "a far pointer";
}

// String memory leads, since the lists name slots 0 and 1; memory claims its registers before other operands take their places.
static void add_operands(Build *b) {
    if (b->list == LIST_STRING || b->list == LIST_STRINGS)
        for (int i = 0; i < b->in->operand_count && !b->fail; i++)
            if (b->ops[i].type == ZYDIS_OPERAND_TYPE_MEMORY)
                add_memory(b, &b->ops[i], access_of(&b->ops[i]));
    for (int i = 0; i < b->in->operand_count_visible; i++)
        if (b->ops[i].type == ZYDIS_OPERAND_TYPE_MEMORY)
            b->used[1] = 1;
    int count = b->in->mnemonic == ZYDIS_MNEMONIC_NOP && b->in->operand_count ? 1 : b->in->operand_count;
    for (int i = 0; i < count && !b->fail; i++)
        add_operand(b, &b->ops[i]);
}

// rsp <- rbp + 8, rbp <- [rbp]
static void add_leave(Build *b) {
    b->address_size = 0; // it does not reach the stack
    set_register(b, 0, 0, 4);
    set_register(b, 1, 0, 5);
    b->r[16] = 8;
    add_spec(b, DEREF, 1);
    add_spec(b, MMM, 3);
    add_spec(b, RRR, 2);
}

// [rsp - 8] <- rbp, rbp <- rsp - 8, rsp <- rsp - 8 - imm
static void add_enter(Build *b) {
    b->address_size = 0;
    set_register(b, 0, 0, 5);
    set_register(b, 1, 0, 4);
    b->r[16] = 8;
    put64(b->r + 18, (uint64_t)-8);
    add_spec(b, DISP, 2);
    add_spec(b, MMM, 3);
    add_spec(b, RRR, 3);
}

// POP counts rsp after its increment where rsp is the base of what is popped to.
static void move_pop(Build *b) {
    const Op *o = &b->ops[0];
    if (b->in->mnemonic != ZYDIS_MNEMONIC_POP || o->type != ZYDIS_OPERAND_TYPE_MEMORY ||
        (o->mem.base != ZYDIS_REGISTER_RSP && o->mem.base != ZYDIS_REGISTER_ESP))
        return;
    int64_t moved = o->mem.disp.value + 8;
    if (moved > INT32_MAX) {
        b->fail = "a displacement over 32 bits";
        return;
    }
    put64(b->r + 18, (uint64_t)moved);
    b->r[4] = (uint8_t)(b->r[4] == DEREF ? DISP : b->r[4] == BASE_INDEX ? BASE_INDEX_DISP : b->r[4]);
}

static void set_mask(Build *b) {
    const Insn *in = b->in;
    if (in->encoding != ZYDIS_INSTRUCTION_ENCODING_EVEX || in->avx.mask.reg <= ZYDIS_REGISTER_K0 || in->avx.mask.reg > ZYDIS_REGISTER_K7)
        return;
    b->mask = (int)(in->avx.mask.reg - ZYDIS_REGISTER_K0);
    b->r[35] = (uint8_t)b->mask;
    for (int i = 0; i < in->operand_count; i++)
        if (b->ops[i].type == ZYDIS_OPERAND_TYPE_MEMORY)
            b->fail = "a mask chooses the bytes";
}

// What the opcode says before the operands are looked at.
static void set_rules(Build *b) {
    const Insn *in = b->in;
    b->opcode = opcode_of(in);
    if (is_bit_test(in) && b->ops[0].type == ZYDIS_OPERAND_TYPE_MEMORY)
        b->opcode = 0x1000 + (int)in->mnemonic; // with an immediate it is a plain access: a number without a rule
    if (in->cpu_flags && in->cpu_flags->tested)
        b->behavior |= FLAGS_READ;
    if (in->cpu_flags && (in->cpu_flags->modified | in->cpu_flags->set_0 | in->cpu_flags->set_1 | in->cpu_flags->undefined))
        b->behavior |= FLAGS_WRITTEN;
    if (is_nontrivial(in, b->opcode)) {
        b->behavior |= NONTRIVIAL;
        b->skip_hidden = b->opcode != 13;
    }
    b->list = string_list(in);
    if (b->opcode == 17 || b->opcode == 19) {
        b->list = b->opcode + (in->raw.rex.W ? 1 : 0);
        b->skip_hidden = 1;
    }
}

static void describe(Build *b) {
    b->fail = why_complex(b->in, b->ops);
    set_rules(b);
    if (!b->fail)
        set_mask(b);
    if (b->fail)
        return;
    if (b->in->mnemonic == ZYDIS_MNEMONIC_LEAVE && b->in->operand_width == 64)
        add_leave(b);
    else if (b->in->mnemonic == ZYDIS_MNEMONIC_ENTER && b->in->operand_width == 64)
        add_enter(b);
    else if (b->in->mnemonic == ZYDIS_MNEMONIC_LEAVE || b->in->mnemonic == ZYDIS_MNEMONIC_ENTER)
        b->fail = "a 16-bit frame";
    else
        add_operands(b);
    if (!b->fail)
        move_pop(b);
}

// A repeated string instruction stops after each iteration: a step is the plain one and the counter. At 0 the counter alone is read.
static void set_counter(Encoded *e, const Insn *in) {
    ZydisInstructionAttributes repeated = ZYDIS_ATTRIB_HAS_REP | ZYDIS_ATTRIB_HAS_REPE | ZYDIS_ATTRIB_HAS_REPNE;
    if (!(in->attributes & repeated) || !string_list(in))
        return;
    int small = has_prefix(in, 0x67);
    e->counter = small ? 4 : 8;
    e->zero[0] = 0x10;
    memcpy(e->zero + 1, e->record + 1, 2);
    e->zero[3] = 1;
    e->zero[4] = RRR;
    e->zero[8] = (uint8_t)small;
    e->zero[9] = 1;
    e->zero[34] = e->record[34];
    e->zero[37] = 1;
}

static void finish(Encoded *e, Build *b) {
    uint8_t *r = e->record;
    e->how = b->fail ? COMPLEX : b->loose ? REGISTERS : EXACT;
    e->why = b->fail ? b->fail : b->loose;
    if (b->fail) { // nothing that stands half made
        memset(r, 0, RECORD_BYTES);
        b->count = b->access = b->list = b->segment = 0;
        b->behavior = IS_COMPLEX;
    }
    r[0] = b->segment ? 0x11 : 0x10;
    r[1] = (uint8_t)b->opcode;
    r[2] = (uint8_t)(b->opcode >> 8);
    r[3] = (uint8_t)b->count;
    const Insn *in = b->in;
    r[34] = (uint8_t)((in->raw.vex.W ? 1 : 0) | (in->raw.rex.W ? 2 : 0) | (has_prefix(in, 0x66) ? 4 : 0) | (b->address_size ? 8 : 0));
    r[36] = (uint8_t)b->behavior;
    r[37] = (uint8_t)b->access;
    r[38] = (uint8_t)b->list;
    r[40] = (uint8_t)b->segment;
    e->size = b->segment ? 41 : 40;
    e->needs = b->fail ? 0 : needs_of(r);
}

static uint32_t writes_of(const Insn *in, const Op *ops) {
    uint32_t slots = 0;
    for (int i = 0; i < in->operand_count; i++) {
        if (ops[i].type != ZYDIS_OPERAND_TYPE_REGISTER || !(access_of(&ops[i]) & 2))
            continue;
        ZydisRegister whole = ZydisRegisterGetLargestEnclosing(ZYDIS_MACHINE_MODE_LONG_64, ops[i].reg.value);
        if (ZydisRegisterGetClass(whole) == ZYDIS_REGCLASS_GPR64)
            slots |= 1u << ZydisRegisterGetId(whole);
    }
    return slots;
}

int encode(const uint8_t *code, size_t bytes, uint64_t pc, Encoded *e) {
    static ZydisDecoder decoder;
    static ZydisFormatter formatter;
    static int ready;
    if (!ready) {
        ZydisDecoderInit(&decoder, ZYDIS_MACHINE_MODE_LONG_64, ZYDIS_STACK_WIDTH_64);
        ZydisFormatterInit(&formatter, ZYDIS_FORMATTER_STYLE_INTEL);
        ready = 1;
    }
    Insn in;
    Op ops[ZYDIS_MAX_OPERAND_COUNT];
    memset(e, 0, sizeof *e);
    memset(ops, 0, sizeof ops);
    if (!ZYAN_SUCCESS(ZydisDecoderDecodeFull(&decoder, code, bytes, &in, ops)))
        return -1;
    e->length = in.length;
    ZydisFormatterFormatInstruction(&formatter, &in, ops, in.operand_count_visible, e->text, sizeof e->text, pc, NULL);
    Build b = {.in = &in, .ops = ops, .pc = pc, .r = e->record, .address_size = has_prefix(&in, 0x67)};
    describe(&b);
    finish(e, &b);
    e->is_syscall = in.meta.category == ZYDIS_CATEGORY_SYSCALL || in.meta.category == ZYDIS_CATEGORY_INTERRUPT;
    e->writes = writes_of(&in, ops);
    set_counter(e, &in);
    e->falls = !e->is_syscall && !e->counter && in.meta.branch_type == ZYDIS_BRANCH_TYPE_NONE && in.meta.category != ZYDIS_CATEGORY_RET;
    return 0;
}

const uint8_t *encoded_record(const Encoded *e, const Regs *regs, uint8_t *size) {
    uint64_t counter = e->counter == 4 ? regs->slot[1] & 0xffffffff : regs->slot[1];
    if (e->counter && counter == 0) {
        *size = 40;
        return e->zero;
    }
    *size = e->size;
    return e->record;
}

const char *how_word(How how) { return how == EXACT ? "exact" : how == REGISTERS ? "registers" : "complex"; }
