// What the parts of the recorder share. docs/RECORDING.md says what it writes, docs/FORMAT.md what each byte means.
#ifndef MACHHUREL_RECORD_H
#define MACHHUREL_RECORD_H
#include <stddef.h>
#include <stdint.h>

enum { CODE_BYTES = 15, RECORD_BYTES = 41, SLOTS = 19, SLOT_RIP = 16, SLOT_FS = 17, SLOT_GS = 18 };

// Registers by the slots of a register file: rax rcx rdx rbx rsp rbp rsi rdi r8 to r15, rip, the bases of fs and gs.
typedef struct {
    uint64_t slot[SLOTS];
    uint64_t flags;
} Regs;

// How well a record describes its instruction. What is not exact in memory is complex, never described wrongly.
typedef enum { EXACT, REGISTERS, COMPLEX } How;

typedef struct {
    uint8_t record[RECORD_BYTES]; // kind 0x10, or 0x11 where a segment has a base
    uint8_t size;                 // of the record: 40 or 41
    uint8_t length;               // of the instruction
    uint8_t zero[40];             // what a repeated string instruction is where its counter is 0
    uint8_t counter;              // 8 or 4 where it is repeated: the bytes of the counter; else 0
    uint8_t is_syscall;
    uint8_t falls;                // the next instruction is the one behind it
    How how;
    uint32_t needs;  // bit k: an address of the record needs slot k
    uint32_t writes; // bit k: the instruction writes slot k, or a part of it
    const char *why; // where it is not exact
    char text[96];   // disassembly
} Encoded;

// Describes the instruction at pc. Answers 0, or -1 where the bytes are no instruction.
int encode(const uint8_t *code, size_t bytes, uint64_t pc, Encoded *into);
// The record that holds under these registers, and its size.
const uint8_t *encoded_record(const Encoded *e, const Regs *regs, uint8_t *size);

const char *how_word(How how);
#endif
