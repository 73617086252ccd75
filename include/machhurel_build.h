/*
 * Machhurel: records and register files, byte by byte. machhurel.h takes this file in.
 *
 * A record is begun, then gets its operands and fields in any order; what is not set is 0. A mistake that cannot be written (a fifth
 * operand, a slot above 3, a register that no file has) makes a record that is refused 2 or a file that is refused 3, never other bytes.
 */
#ifndef MACHHUREL_BUILD_H
#define MACHHUREL_BUILD_H

#include <stddef.h>
#include <stdint.h>

#include "machhurel_format.h"

/* The low bytes of a number, lowest first. */
static inline void machhurel_put_number(uint8_t *bytes, size_t count, uint64_t number)
{
    size_t i;
    for (i = 0; i < count; i++) {
        bytes[i] = MACHHUREL_CAST(uint8_t, number & 0xFF);
        number >>= 8;
    }
}

/* The number in 8 bytes, lowest first: an event's address. */
static inline uint64_t machhurel_get_number(const uint8_t *bytes)
{
    uint64_t number = 0;
    size_t i;
    for (i = 8; i > 0; i--)
        number = number << 8 | bytes[i - 1];
    return number;
}

/* A record of this opcode, with nothing else in its MACHHUREL_RECORD_BYTES. */
static inline void machhurel_record_begin(uint8_t *record, uint16_t opcode)
{
    size_t i;
    for (i = 0; i < MACHHUREL_RECORD_BYTES; i++)
        record[i] = 0;
    record[0] = MACHHUREL_KIND_RECORD;
    machhurel_put_number(record + 1, 2, opcode);
}

/* The next operand: a MACHHUREL_SPEC_ and a MACHHUREL_ACCESS_. */
static inline void machhurel_record_operand(uint8_t *record, unsigned spec, unsigned access)
{
    unsigned k = record[3];
    if (k < 255)
        record[3] = MACHHUREL_CAST(uint8_t, k + 1);
    if (k < 4) {
        record[4 + k] = MACHHUREL_CAST(uint8_t, spec < 255 ? spec : 255);
        record[37] = MACHHUREL_CAST(uint8_t, record[37] | (access & 3) << (2 * k));
    }
}

/* regs[slot]: slot 0 is RegRRR's, 1 RegMMM's and the base, 2 the index, 3 RegVex's. */
static inline void machhurel_record_register(uint8_t *record, unsigned slot, unsigned bank, unsigned number)
{
    if (slot > 3) {
        record[3] = 255;
        return;
    }
    record[8 + 2 * slot] = MACHHUREL_CAST(uint8_t, bank < 255 ? bank : 255);
    record[9 + 2 * slot] = MACHHUREL_CAST(uint8_t, number < 255 ? number : 255);
}

/* The bytes that a memory operand has, 1 to 64, the index's scale, and the displacement. */
static inline void machhurel_record_memory(uint8_t *record, unsigned size, unsigned scale, int64_t displacement)
{
    record[16] = MACHHUREL_CAST(uint8_t, size < 255 ? size : 255);
    record[17] = MACHHUREL_CAST(uint8_t, scale & 0xFF);
    machhurel_put_number(record + 18, 8, MACHHUREL_CAST(uint64_t, displacement));
}

/* The immediate; its low byte is the number of Reg4. */
static inline void machhurel_record_immediate(uint8_t *record, uint64_t immediate)
{
    machhurel_put_number(record + 26, 8, immediate);
}

/* MACHHUREL_PREFIX_ bits, and the mask register, 0 for none. */
static inline void machhurel_record_prefixes(uint8_t *record, unsigned bits, unsigned mask)
{
    record[34] = MACHHUREL_CAST(uint8_t, bits < 255 ? bits : 255);
    record[35] = MACHHUREL_CAST(uint8_t, mask < 255 ? mask : 255);
}

/* MACHHUREL_BEHAVIOR_ bits, and a MACHHUREL_LIST_. */
static inline void machhurel_record_digest(uint8_t *record, unsigned behavior, uint16_t list)
{
    record[36] = MACHHUREL_CAST(uint8_t, behavior & 0xFF);
    machhurel_put_number(record + 38, 2, list);
}

/* A MACHHUREL_SEGMENT_: the record is one of kind 0x11 from now on, in MACHHUREL_SEGMENT_RECORD_BYTES. */
static inline void machhurel_record_segment(uint8_t *record, unsigned segment)
{
    record[0] = MACHHUREL_KIND_SEGMENT_RECORD;
    record[MACHHUREL_RECORD_BYTES] = MACHHUREL_CAST(uint8_t, segment < 255 ? segment : 255);
}

/*
 * The record is one of kind 0x12 from now on, its first MACHHUREL_EVERYDAY_RECORD_BYTES: it has no digest, so that accesses, flags and
 * list that were set count for nothing. The opcode decides them, and one that has none is refused 9.
 */
static inline void machhurel_record_everyday(uint8_t *record)
{
    record[0] = MACHHUREL_KIND_EVERYDAY_RECORD;
}

/* A register file that knows nothing, in MACHHUREL_FILE_BYTES. */
static inline void machhurel_file_begin(uint8_t *file)
{
    size_t i;
    for (i = 0; i < MACHHUREL_FILE_BYTES; i++)
        file[i] = 0;
    file[0] = MACHHUREL_KIND_FILE;
}

/* The same with room for the bases of fs and gs, in MACHHUREL_BASED_FILE_BYTES. */
static inline void machhurel_based_file_begin(uint8_t *file)
{
    size_t i;
    for (i = 0; i < MACHHUREL_BASED_FILE_BYTES; i++)
        file[i] = 0;
    file[0] = MACHHUREL_KIND_BASED_FILE;
}

/* The value of a register, MACHHUREL_RAX to MACHHUREL_RIP (that of the next instruction); of a file with bases, to MACHHUREL_GS_BASE. */
static inline void machhurel_file_know(uint8_t *file, unsigned number, uint64_t value)
{
    if (number > (file[0] == MACHHUREL_KIND_BASED_FILE ? MACHHUREL_GS_BASE : MACHHUREL_RIP)) {
        file[4] = 0x80;
        return;
    }
    file[1 + number / 8] = MACHHUREL_CAST(uint8_t, file[1 + number / 8] | 1u << (number % 8));
    machhurel_put_number(file + 5 + 8 * number, 8, value);
}

#endif
