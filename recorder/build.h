// The record that is being made: shared by encode.c, operand.c and kinds.c.
#ifndef MACHHUREL_BUILD_H
#define MACHHUREL_BUILD_H
#include "record.h"
#include <Zydis/Zydis.h>

typedef ZydisDecodedOperand Op;
typedef ZydisDecodedInstruction Insn;

// the specs of docs/FORMAT.md
enum {
    RRR = 1, MMM = 2, VEX = 3, REG4 = 4, RRR_MASK = 5, MMM_MASK = 8, VEX_MASK = 10,
    IMM_8 = 11, IMM_16 = 13, IMM_32 = 15, IMM_64 = 16, DEREF = 18, DEREF_RDI = 20, DEREF_RSI = 21, DEREF_EDI = 22, DEREF_ESI = 23,
    DISP = 24, INDEX = 26, INDEX_DISP = 28, BASE_INDEX = 30, BASE_INDEX_DISP = 32, DISP_U64 = 34, DISP_U32 = 35
};
// the implicit lists
enum { LIST_LOOP = 21, LIST_LOOP_32 = 23, LIST_STRING = 24, LIST_STRINGS = 25, LIST_PUSH = 26, LIST_POP = 27, LIST_XLAT = 28 };
// bits of behavior
enum { FLAGS_READ = 4, FLAGS_WRITTEN = 8, NONTRIVIAL = 16, IS_COMPLEX = 32 };

typedef struct {
    const Insn *in;
    const Op *ops;
    uint64_t pc;
    uint8_t *r;        // the record
    int used[4];       // regs[i] is taken
    int count, access; // operands so far, and their accesses
    int list, behavior, opcode, segment;
    int explicit_memory, mask, address_size, reg4;
    int skip_hidden;   // the list brings the hidden registers
    const char *fail;  // why it is complex
    const char *loose; // why a register is missing
} Build;

void put64(uint8_t *p, uint64_t v);
uint64_t get64(const uint8_t *p);

// kinds.c: what is known by the mnemonic
int opcode_of(const Insn *in);
int is_nontrivial(const Insn *in, int opcode);
int string_list(const Insn *in);
int is_hint(const Insn *in);
int is_bit_test(const Insn *in);
const char *why_complex(const Insn *in, const Op *ops);

// operand.c: adds an operand
int access_of(const Op *o);
void add_spec(Build *b, int spec, int access);
void add_register(Build *b, const Op *o, int access);
void add_memory(Build *b, const Op *o, int access);
void add_immediate(Build *b, const Op *o);
void set_register(Build *b, int slot, int bank, int number);
uint32_t needs_of(const uint8_t *record);
#endif
