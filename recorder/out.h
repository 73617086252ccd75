// What the recorder writes: X.trace and X.side.
#ifndef MACHHUREL_OUT_H
#define MACHHUREL_OUT_H
#include "record.h"
#include "watch.h"
#include <stdio.h>

enum { GROUP_RECORDS = 1024 };

typedef struct {
    FILE *trace, *side;
    int full;          // a register file with all registers before each record
    uint64_t records, files;
    uint32_t known;    // of the register file that the records of the group stand under
    uint64_t value[SLOTS];
    uint8_t group[GROUP_RECORDS * RECORD_BYTES];
    size_t group_bytes, group_records;
} Out;

int out_open(Out *o, const char *name, int full); // 0, or -1
int out_close(Out *o);                            // 0 where all was written
void out_record(Out *o, const uint8_t *record, size_t size, uint32_t needs, const Regs *regs, unsigned length);
// A text of the program, without a blank or a byte that a terminal takes as a command.
void out_word(Out *o, const char *text);
size_t file_item(uint8_t item[157], uint32_t known, const uint64_t value[SLOTS]); // a register file of kind 0x21, or 0x20 where that will do
#endif
