// What a step did by three witnesses: Zydis' operands, the debug registers, and the writable memory before and after.
#ifndef MACHHUREL_WITNESS_H
#define MACHHUREL_WITNESS_H
#include "process.h"

enum { MOST_ACCESSES = 16 };

typedef struct {
    int writes;
    uint64_t address;
    unsigned size;
} Access;

typedef struct {
    Access all[MOST_ACCESSES];
    int count;
} Accesses;

// log.c: the memory events of a record under these registers. Answers the refusal number.
unsigned accesses_logged(const uint8_t *record, size_t size, const Regs *regs, Accesses *into);
int next_access(const uint8_t *log, size_t length, size_t *at, Access *access);
int accesses_equal(const Accesses *a, const Accesses *b);
int accesses_touch(const Accesses *a, uint64_t address, int writes_only);

// operands.c: those that Zydis' operands say. 0 where it can tell.
int accesses_by_operands(const uint8_t *code, size_t bytes, const Regs *regs, Accesses *into);

// guard.c: a one-byte watchpoint on the first and the last byte of an access, and on the bytes before and behind it
typedef struct {
    uint64_t at[4];
    int is_set[4];
    uint64_t control; // of the four, as the processor has it now
} Guard;
void guard_set(Guard *g, const Thread *t, const Access *a, int phase); // phase: 0 to 2, -1 for all at once
const char *guard_say(const Guard *g, const Thread *t, const Accesses *said, const Access *a); // what is wrong, or NULL
void guard_clear(Guard *g, const Thread *t);

// pages.c: all writable memory
typedef struct {
    uint64_t start;
    size_t size;
    uint8_t *was, *is;
} Area;
enum { MOST_AREAS = 64 };
typedef struct {
    Area areas[MOST_AREAS];
    int count;
    uint64_t left_out; // bytes for which there was no room
} Pages;
void pages_find(Pages *pages, const Process *p);
void pages_free(Pages *pages);
// Takes the memory anew, and answers the first byte that changed where `may` has no write; 0 where there is none.
uint64_t pages_changed(Pages *pages, const Process *p, const Accesses *may);
#endif
