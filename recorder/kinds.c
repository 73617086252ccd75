// What is known of an instruction by its name: its number, its list, and whether a record can say what it does.
#include "build.h"

static const struct {
    int mnemonic, opcode;
} OPCODES[] = {
    {ZYDIS_MNEMONIC_MUL, 1}, {ZYDIS_MNEMONIC_IMUL, 2}, {ZYDIS_MNEMONIC_DIV, 3}, {ZYDIS_MNEMONIC_IDIV, 4},
    {ZYDIS_MNEMONIC_NOP, 5}, {ZYDIS_MNEMONIC_CMPXCHG, 6}, {ZYDIS_MNEMONIC_VMOVLPS, 7}, {ZYDIS_MNEMONIC_VMOVHPS, 8},
    {ZYDIS_MNEMONIC_VMOVLPD, 9}, {ZYDIS_MNEMONIC_VMOVHPD, 10}, {ZYDIS_MNEMONIC_EXTRQ, 11}, {ZYDIS_MNEMONIC_INSERTQ, 12},
    {ZYDIS_MNEMONIC_RET, 13}, {ZYDIS_MNEMONIC_MULX, 15}, {ZYDIS_MNEMONIC_PCMPESTRI, 17}, {ZYDIS_MNEMONIC_VPCMPESTRI, 18},
    {ZYDIS_MNEMONIC_PCMPESTRM, 19}, {ZYDIS_MNEMONIC_VPCMPESTRM, 20}, {ZYDIS_MNEMONIC_LOOPNE, 21}, {ZYDIS_MNEMONIC_LOOPE, 22},
    {ZYDIS_MNEMONIC_LOOP, 23}, {ZYDIS_MNEMONIC_BT, 24}, {ZYDIS_MNEMONIC_BTS, 25}, {ZYDIS_MNEMONIC_BTR, 26},
    {ZYDIS_MNEMONIC_BTC, 27}, {ZYDIS_MNEMONIC_LEA, 28}, {ZYDIS_MNEMONIC_MOV, 100}, {ZYDIS_MNEMONIC_MOVZX, 101},
    {ZYDIS_MNEMONIC_MOVSX, 102}, {ZYDIS_MNEMONIC_ADD, 103}, {ZYDIS_MNEMONIC_SUB, 104}, {ZYDIS_MNEMONIC_AND, 105},
    {ZYDIS_MNEMONIC_OR, 106}, {ZYDIS_MNEMONIC_XOR, 107}, {ZYDIS_MNEMONIC_ADC, 108}, {ZYDIS_MNEMONIC_SBB, 109},
    {ZYDIS_MNEMONIC_CMP, 110}, {ZYDIS_MNEMONIC_TEST, 111}, {ZYDIS_MNEMONIC_INC, 112}, {ZYDIS_MNEMONIC_DEC, 113},
    {ZYDIS_MNEMONIC_NEG, 114}, {ZYDIS_MNEMONIC_NOT, 115}, {ZYDIS_MNEMONIC_XCHG, 116}, {ZYDIS_MNEMONIC_PUSH, 117},
    {ZYDIS_MNEMONIC_POP, 118},
};

// A number above all that have a rule, where the instruction has none.
static int plain(const Insn *in) { return 0x1000 + (int)in->mnemonic; }

int opcode_of(const Insn *in) {
    for (size_t i = 0; i < sizeof OPCODES / sizeof *OPCODES; i++)
        if (OPCODES[i].mnemonic == (int)in->mnemonic)
            return OPCODES[i].opcode;
    return plain(in);
}

int is_bit_test(const Insn *in) {
    return in->mnemonic == ZYDIS_MNEMONIC_BT || in->mnemonic == ZYDIS_MNEMONIC_BTS || in->mnemonic == ZYDIS_MNEMONIC_BTR ||
           in->mnemonic == ZYDIS_MNEMONIC_BTC;
}

// Whether the fix-ups of docs/FORMAT.md say what this instruction does; a NOP without an operand needs none.
int is_nontrivial(const Insn *in, int opcode) {
    if (opcode == 5)
        return in->operand_count_visible > 0;
    if (opcode >= 7 && opcode <= 10) // a store of theirs has two operands, and the fix-up reads the first
        return in->operand_count_visible == 3;
    // these two ask for VEX W where the instruction has REX W, so they bring their list
    return opcode <= 23 && opcode != 17 && opcode != 19;
}

// The implicit list of a string instruction, or 0. MOVSD and CMPSD are vector instructions too, with operands.
int string_list(const Insn *in) {
    if (in->operand_count_visible)
        return 0;
    switch (in->mnemonic) {
    case ZYDIS_MNEMONIC_MOVSB: case ZYDIS_MNEMONIC_MOVSW: case ZYDIS_MNEMONIC_MOVSD: case ZYDIS_MNEMONIC_MOVSQ:
    case ZYDIS_MNEMONIC_CMPSB: case ZYDIS_MNEMONIC_CMPSW: case ZYDIS_MNEMONIC_CMPSD: case ZYDIS_MNEMONIC_CMPSQ:
        return LIST_STRINGS;
    case ZYDIS_MNEMONIC_STOSB: case ZYDIS_MNEMONIC_STOSW: case ZYDIS_MNEMONIC_STOSD: case ZYDIS_MNEMONIC_STOSQ:
    case ZYDIS_MNEMONIC_LODSB: case ZYDIS_MNEMONIC_LODSW: case ZYDIS_MNEMONIC_LODSD: case ZYDIS_MNEMONIC_LODSQ:
    case ZYDIS_MNEMONIC_SCASB: case ZYDIS_MNEMONIC_SCASW: case ZYDIS_MNEMONIC_SCASD: case ZYDIS_MNEMONIC_SCASQ:
        return LIST_STRING;
    default:
        return 0;
    }
}

// Its memory operand is neither read nor written.
int is_hint(const Insn *in) {
    switch (in->mnemonic) {
    case ZYDIS_MNEMONIC_PREFETCH: case ZYDIS_MNEMONIC_PREFETCHNTA: case ZYDIS_MNEMONIC_PREFETCHT0: case ZYDIS_MNEMONIC_PREFETCHT1:
    case ZYDIS_MNEMONIC_PREFETCHT2: case ZYDIS_MNEMONIC_PREFETCHW: case ZYDIS_MNEMONIC_PREFETCHWT1: case ZYDIS_MNEMONIC_NOP:
        return 1;
    default:
        return 0;
    }
}

static const char *by_category(const Insn *in) {
    switch (in->meta.category) {
    case ZYDIS_CATEGORY_SYSCALL: case ZYDIS_CATEGORY_SYSRET: case ZYDIS_CATEGORY_INTERRUPT:
        return "the kernel runs, and may write";
    case ZYDIS_CATEGORY_SYSTEM:
        return in->mnemonic == ZYDIS_MNEMONIC_RDTSC || in->mnemonic == ZYDIS_MNEMONIC_RDTSCP ? NULL : "the system's state";
    case ZYDIS_CATEGORY_XSAVE: case ZYDIS_CATEGORY_XSAVEOPT:
        return "the processor's state decides the size";
    case ZYDIS_CATEGORY_GATHER: case ZYDIS_CATEGORY_AVX2GATHER: case ZYDIS_CATEGORY_SCATTER:
        return "as many addresses as a vector has lanes";
    case ZYDIS_CATEGORY_VTX: case ZYDIS_CATEGORY_SGX: case ZYDIS_CATEGORY_IO: case ZYDIS_CATEGORY_IOSTRINGOP:
    case ZYDIS_CATEGORY_CET: case ZYDIS_CATEGORY_ENQCMD: case ZYDIS_CATEGORY_AMX_TILE: case ZYDIS_CATEGORY_TSX_LDTRK:
    case ZYDIS_CATEGORY_UINTR: case ZYDIS_CATEGORY_MPX:
        return in->mnemonic == ZYDIS_MNEMONIC_ENDBR64 || in->mnemonic == ZYDIS_MNEMONIC_ENDBR32 || in->mnemonic == ZYDIS_MNEMONIC_RDSSPQ ||
                       in->mnemonic == ZYDIS_MNEMONIC_RDSSPD
                   ? NULL
                   : "state that has no name in a record";
    default:
        return NULL;
    }
}

static const char *by_name(const Insn *in) {
    switch (in->mnemonic) {
    case ZYDIS_MNEMONIC_CLFLUSH: case ZYDIS_MNEMONIC_CLFLUSHOPT: case ZYDIS_MNEMONIC_CLWB: case ZYDIS_MNEMONIC_CLDEMOTE:
    case ZYDIS_MNEMONIC_CLZERO:
        return "a whole cache line";
    case ZYDIS_MNEMONIC_MASKMOVDQU: case ZYDIS_MNEMONIC_VMASKMOVDQU: case ZYDIS_MNEMONIC_MASKMOVQ:
    case ZYDIS_MNEMONIC_VMASKMOVPS: case ZYDIS_MNEMONIC_VMASKMOVPD: case ZYDIS_MNEMONIC_VPMASKMOVD: case ZYDIS_MNEMONIC_VPMASKMOVQ:
        return "a mask chooses the bytes";
    case ZYDIS_MNEMONIC_XBEGIN: case ZYDIS_MNEMONIC_XEND: case ZYDIS_MNEMONIC_XABORT:
        return "a transaction may undo it";
    default:
        return NULL;
    }
}

// Why no record can say what it does, or NULL.
const char *why_complex(const Insn *in, const Op *ops) {
    int is_other = in->encoding == ZYDIS_INSTRUCTION_ENCODING_MVEX || in->meta.isa_ext == ZYDIS_ISA_EXT_KNC ||
                   in->meta.isa_ext == ZYDIS_ISA_EXT_KNCE || in->meta.isa_ext == ZYDIS_ISA_EXT_KNCV;
    const char *why = is_other ? "an instruction of another processor" : by_category(in);
    if (!why)
        why = by_name(in);
    if (!why && is_bit_test(in) && ops[0].type == ZYDIS_OPERAND_TYPE_MEMORY && ops[1].type != ZYDIS_OPERAND_TYPE_IMMEDIATE)
        why = "the bit's number moves the address";
    if (!why && in->mnemonic == ZYDIS_MNEMONIC_ENTER && ops[1].imm.value.u)
        why = "enter copies frames";
    return why;
}
