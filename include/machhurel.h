/*
 * Machhurel: which registers and which memory an x86-64 instruction touched, in order.
 *
 * Every call takes bytes and answers one 64-bit number. Any bytes at any length get an answer: no call fails, traps, allocates or keeps
 * anything, and calls may run on any thread at once as long as no two write the same buffer, session, watch, sheet or reader. A pointer
 * may be NULL where its length is 0. Otherwise it points to that many bytes, and a buffer, session, watch, sheet or reader that is
 * written overlaps no other argument.
 *
 * Records are 40 bytes of kind 0x10, 41 of kind 0x11 or 36 of kind 0x12, register files 141 bytes of kind 0x20 or 157 of kind 0x21;
 * numbers are little-endian. docs/FORMAT.md has every field, table and rule.
 *
 *   record   0 kind 0x10; 1-2 opcode; 3 operand count; 4-7 specs; 8-15 four registers (bank, number); 16 memory size; 17 scale;
 *            18-25 displacement; 26-33 immediate; 34 prefix bits; 35 mask register; 36 behavior; 37 operand access; 38-39 list;
 *            of kind 0x11 also 40 segment (0 none, 1 fs, 2 gs); of kind 0x12 only 0-35, and the digest comes from the opcode
 *   file     0 kind 0x20; 1-4 known bits (0-15 rax, rcx, rdx, rbx, rsp, rbp, rsi, rdi, r8 to r15; 16 rip); 5-140 seventeen values;
 *            of kind 0x21 also bits 17 and 18 and 141-156, the bases of fs and gs.
 *            rip is that of the next instruction. The file is that before the instruction.
 *   event    1 register read, 2 register write (bank, number); 3 memory read, 4 memory write (8 address bytes, size);
 *            5 memory read, 6 memory write at an unknown address (size)
 *
 * Refusal numbers, tested in this order; a refused call changes no byte of a buffer, and but for what 4 and 7 carry every other part
 * of its answer is 0:
 *
 *   1  the record's kind is unknown, or its length is not the kind's; in a log: an unknown kind, or an event cut short;
 *      of a block or list of records: no record's length, or bytes that are no multiple of it
 *   2  a field of the record is outside its table; in a log: a bad register, or a size outside 1 to 64; of a watch: a length outside
 *      1 to 8, or a pair past the limit; of a sheet: such a length, or a log over 65,536 bytes; a block or list of more than 1,000
 *      records
 *   9  the record is of kind 0x12, and its opcode has no base digest
 *   3  the file's kind is unknown, its length is not the kind's, or a known bit above the kind's last is set
 *   4  the instruction is complex: its accesses are not a plain list. The answer carries the opcode
 *   5  an operand that is accessed names no register or memory, or a string list names no string slot
 *   6  memory is accessed and the record's memory size is 0
 *   7  the start lies past the buffer's end, or the buffer has too little room behind it. The answer carries the bytes needed
 *   8  machhurel_reader_close alone: the stream ends inside an item
 *  10  the sheet takes no more logs
 */
#ifndef MACHHUREL_H
#define MACHHUREL_H

#include <stddef.h>
#include <stdint.h>

#include "machhurel_build.h"
#include "machhurel_format.h"

/* The version of this library; tools/version keeps it the same everywhere. */
#define MACHHUREL_VERSION "0.1.0"

#ifdef __cplusplus
extern "C" {
#endif

/* A block never has more records, and each gets so many bytes of answer. */
#define MACHHUREL_BLOCK_RECORDS 1000
#define MACHHUREL_ANSWER_BYTES 4

/* A log never needs more bytes or events, a listing never more bytes. */
#define MACHHUREL_LOG_BYTES 201
#define MACHHUREL_LOG_EVENTS 46
#define MACHHUREL_LISTING_BYTES 34

/* Every answer: the refusal number, 0 for none (for machhurel_event also MACHHUREL_FINISHED). */
#define MACHHUREL_NUMBER(answer) MACHHUREL_CAST(unsigned, ((answer) & 0xFF))

/*
 * machhurel_visit, machhurel_append, machhurel_listing, machhurel_reader_read: the bytes written, after refusal 7 those needed; and after
 * refusal 4 the opcode.
 */
#define MACHHUREL_COUNT(answer) MACHHUREL_CAST(uint32_t, ((answer) >> 32))
#define MACHHUREL_OPCODE(answer) MACHHUREL_CAST(uint16_t, (((answer) >> 8) & 0xFFFF))

/* machhurel_digest: the digest after fix-ups. */
#define MACHHUREL_BEHAVIOR(answer) MACHHUREL_CAST(uint8_t, (((answer) >> 8) & 0xFF))
#define MACHHUREL_OPERAND_ACCESS(answer) MACHHUREL_CAST(uint8_t, (((answer) >> 16) & 0xFF))
#define MACHHUREL_LIST(answer) MACHHUREL_CAST(uint16_t, (((answer) >> 32) & 0xFFFF))

/* machhurel_privilege: 0 any level, 1 CPL 0 only, 2 special, 3 reserved. */
#define MACHHUREL_LEVEL(answer) MACHHUREL_CAST(unsigned, (((answer) >> 8) & 0xFF))

/* machhurel_exceptions: bit 13 for #GP, bit 14 for #PF. */
#define MACHHUREL_EXCEPTIONS(answer) MACHHUREL_CAST(uint32_t, ((answer) >> 32))

/* machhurel_block: the records before the first that is refused 7; MACHHUREL_COUNT has the bytes of log written. */
#define MACHHUREL_RECORDS(answer) MACHHUREL_CAST(unsigned, (((answer) >> 8) & 0xFFFF))

/* machhurel_event: there is no event at or past the log's end. */
#define MACHHUREL_FINISHED 255

/* machhurel_difference: the sign, 1 where the logs differ. */
#define MACHHUREL_DIFFERS(answer) MACHHUREL_CAST(unsigned, (((answer) >> 8) & 1))

/*
 * A log session: what stands in a buffer that logs are appended to. machhurel_reset empties it, and machhurel_append goes on with it.
 * Between two calls the bytes used must stay as they are; the rest of the buffer is free. Then the counts are always those that reading
 * the log from its start would give, and none of them wraps. Any words at all get an answer.
 */
typedef struct machhurel_session {
    uint64_t used;    /* bytes, from the buffer's start on */
    uint64_t events;  /* in these bytes */
    uint64_t unknown; /* of the events, those of kinds 5 and 6: memory events at an unknown address */
} machhurel_session;

/* machhurel_reader_read: whether a record or a bad file finished, so that the number and the log are its own. */
#define MACHHUREL_IS_FINISHED(answer) MACHHUREL_CAST(unsigned, (((answer) >> 24) & 1))

/*
 * A reader of a stream of files and records: the bytes of the unfinished item, and the latest good file. machhurel_reader_new writes it,
 * and the other two calls go on with it. What its words mean is not for callers. Any words at all get an answer: words that no call
 * leaves count as a reader that has stopped.
 */
typedef struct machhurel_reader {
    uint64_t words[48];
} machhurel_reader;

/*
 * A watched variable, and what the pairs of a trace did to it so far. Pairs are numbered from 0. machhurel_watch_new writes it, and
 * machhurel_watch_step goes on with it. Any words at all get an answer; from machhurel_watch_new on no count wraps.
 */
typedef struct machhurel_watch {
    uint64_t address;
    uint64_t length;  /* 1 to 8 bytes */
    uint64_t pairs;   /* taken so far, refused ones among them */
    uint64_t unknown; /* write events at an unknown address */
    uint64_t none;    /* write events that touched none of the variable's bytes, */
    uint64_t part;    /* part of them, */
    uint64_t whole;   /* or all of them */
    uint64_t refused; /* pairs that visiting refuses: each may have written the variable */
    uint64_t first;   /* the number of the first pair with a part write, or MACHHUREL_NEVER */
    uint64_t last;    /* the number of the last pair with a whole write, or MACHHUREL_NEVER */
} machhurel_watch;

#define MACHHUREL_NEVER UINT64_MAX

/* A watch takes no more pairs. */
#define MACHHUREL_WATCH_PAIRS 1000000

/* machhurel_watch_step: visiting's number for the pair and its opcode after 4; the pair's own write events. */
#define MACHHUREL_VISITED(answer) MACHHUREL_CAST(unsigned, (((answer) >> 8) & 0xFF))
#define MACHHUREL_VISITED_OPCODE(answer) MACHHUREL_CAST(uint16_t, ((answer) >> 48))
#define MACHHUREL_UNKNOWN(answer) MACHHUREL_CAST(unsigned, (((answer) >> 16) & 0xFF))
#define MACHHUREL_NONE(answer) MACHHUREL_CAST(unsigned, (((answer) >> 24) & 0xFF))
#define MACHHUREL_PART(answer) MACHHUREL_CAST(unsigned, (((answer) >> 32) & 0xFF))
#define MACHHUREL_WHOLE(answer) MACHHUREL_CAST(unsigned, (((answer) >> 40) & 0xFF))

/* machhurel_verdict: 0 no memory write, 1 unknown address, 2 none, 3 part, 4 whole; and bit i for byte i of the variable. */
#define MACHHUREL_VERDICT(answer) MACHHUREL_CAST(unsigned, (((answer) >> 8) & 0xFF))
#define MACHHUREL_TOUCHED(answer) MACHHUREL_CAST(uint8_t, (((answer) >> 16) & 0xFF))

/* A set has a bit for each register that a file can know (0-15 rax to r15, 16 rip), and 17 and 18 for the bases of fs and gs. */
#define MACHHUREL_SET_BITS 19

/* machhurel_fetch_judge: 1 where the set is accepted; else the lowest bit that the first lacking record lacks, and its number from 0. */
#define MACHHUREL_ACCEPTED(answer) MACHHUREL_CAST(unsigned, (((answer) >> 8) & 1))
#define MACHHUREL_LACKED(answer) MACHHUREL_CAST(unsigned, (((answer) >> 16) & 0xFF))
#define MACHHUREL_LACKING(answer) MACHHUREL_CAST(uint32_t, ((answer) >> 32))

/* machhurel_fetch_propose: the set. */
#define MACHHUREL_SET(answer) MACHHUREL_CAST(uint32_t, ((answer) >> 32))

/*
 * An acceptance sheet: totals over all events of the logs taken so far. machhurel_sheet_new writes it, and machhurel_sheet_add goes on with
 * it. Any words at all get an answer; from machhurel_sheet_new on no total wraps, and each stays below two to the 53.
 */
typedef struct machhurel_sheet {
    uint64_t address;
    uint64_t length;     /* 1 to 8 bytes */
    uint64_t logs;       /* taken so far */
    uint64_t in;         /* bytes of memory read, at unknown addresses too, */
    uint64_t out;        /* and written */
    uint64_t part;       /* writes at known addresses that touched part of the variable, */
    uint64_t known;      /* of so many writes at known addresses */
    uint64_t reads[14];  /* register reads by bank, */
    uint64_t writes[14]; /* and writes */
    uint64_t sizes[64];  /* memory events by size, that of 1 byte first, at unknown addresses too */
} machhurel_sheet;

/* A sheet takes no more logs, and a log no more bytes. */
#define MACHHUREL_SHEET_LOGS 4294967295
#define MACHHUREL_SHEET_LOG_BYTES 65536

/*
 * Writes the log of the record under the register file into log[start..], and answers its length in MACHHUREL_COUNT. Refuses 1 to 7
 * and 9. With MACHHUREL_LOG_BYTES of room behind the start it never refuses 7. After 7 MACHHUREL_COUNT has the length of the log: the
 * same call with so many bytes behind its start succeeds.
 */
uint64_t machhurel_visit(const uint8_t *record, size_t record_len, const uint8_t *file, size_t file_len, uint8_t *log, size_t log_len,
                         size_t start);

/*
 * Writes the listing of the record's operands into out[start..]: flags, implicit operands, explicit operands, without a register file.
 * Answers its length in MACHHUREL_COUNT, after 7 too. Refuses 1, 2, 9, 4, 7.
 */
uint64_t machhurel_listing(const uint8_t *record, size_t record_len, uint8_t *out, size_t out_len, size_t start);

/* The record's digest after fix-ups. Refuses 1, 2, 9. */
uint64_t machhurel_digest(const uint8_t *record, size_t record_len);

/* The privilege level that the instruction needs. Refuses 1, 2, 9. */
uint64_t machhurel_privilege(const uint8_t *record, size_t record_len);

/* The exceptions that the instruction may raise. Refuses 1, 2, 9. */
uint64_t machhurel_exceptions(const uint8_t *record, size_t record_len);

/*
 * Looks at the event that stands at log[at..]. Answers its length in MACHHUREL_COUNT, so that the next event stands at `at` plus that;
 * refuses 1, 2; MACHHUREL_FINISHED where `at` is at or past the end.
 */
uint64_t machhurel_event(const uint8_t *log, size_t log_len, size_t at);

/*
 * Where two logs part. Both are read whole first: refuses 1, 2 as the first event that does not read is refused, the
 * first log's number if both. Otherwise MACHHUREL_DIFFERS says whether the logs differ, which is whether their bytes do.
 * *at is where the part of the second log begins: at its first event that the first log does not have there. The part
 * is second[*at..]. It is empty, and *at is second_len, where the logs are equal, where the second ends early and after
 * a refusal. An address that is known in one log and unknown in the other differs.
 */
uint64_t machhurel_difference(const uint8_t *first, size_t first_len, const uint8_t *second, size_t second_len,
                              uint64_t *at);

/*
 * Visits up to MACHHUREL_BLOCK_RECORDS records of `each` bytes, the length of one of the three kinds, under one register file, which is
 * parsed once. Their logs go into log[start..] behind one another, without a gap, and equal those of single calls. Each record gets
 * MACHHUREL_ANSWER_BYTES in `answers`: its number, the length of its log (after 7 the bytes needed), and the opcode after 4 as two
 * bytes, low byte first, else 0. A record that is refused 1, 2, 9, 4, 5 or 6 writes no log, and the next goes on. The first that is
 * refused 7 gets its answer and ends the call: all later bytes of both buffers stay. MACHHUREL_NUMBER is 0 then, MACHHUREL_RECORDS the
 * number of records before it, which are all where none is refused 7, and MACHHUREL_COUNT the bytes of log written. With
 * MACHHUREL_LOG_BYTES a record behind the start none is.
 *
 * The whole call is refused, writes nothing and answers its number alone, in this order: 1 where `each` is no record's length or
 * records_len no multiple of it; 2 for too many records; 3 for a bad file; 7 for fewer than MACHHUREL_ANSWER_BYTES a record. No
 * records succeed.
 */
uint64_t machhurel_block(const uint8_t *records, size_t records_len, size_t each, const uint8_t *file, size_t file_len, uint8_t *log,
                         size_t log_len, size_t start, uint8_t *answers, size_t answers_len);

/*
 * Visits the record under the register file as machhurel_visit does, from session->used on, and counts the log that it wrote. Answers as
 * machhurel_visit: the log's length in MACHHUREL_COUNT, after 7 the bytes that this append needs. Refused, it changes no byte and no
 * count. The buffer is lent to each call; one that ends before session->used is refused 7, where no other comes first.
 */
uint64_t machhurel_append(machhurel_session *session, const uint8_t *record, size_t record_len, const uint8_t *file, size_t file_len,
                          uint8_t *log, size_t log_len);

/* Makes the three counts 0; the next append writes at the buffer's start. No byte of a buffer is cleared. Answers 0. */
uint64_t machhurel_reset(machhurel_session *session);

/* A fresh reader, which has no file. Answers 0. */
uint64_t machhurel_reader_new(machhurel_reader *reader);

/*
 * Hands over the next bytes of a stream, as they have arrived. The call ends with the first record or bad file that finishes, before the
 * byte of an unknown kind, or when all is taken; *taken is how many bytes are, refused too. Hand the rest over again.
 *
 * MACHHUREL_IS_FINISHED is 1 where a record or a bad file finished. Then MACHHUREL_NUMBER is 0, and the record's log, which may be empty,
 * stands in log[start..] as machhurel_visit writes it under the latest good file; or the number is the refusal, 3 for a bad file, which
 * is not used, and for a record before any good one. Such an item is used up, and reading goes on. A good file does not end the call.
 * MACHHUREL_IS_FINISHED is 0 where all is taken and more is awaited (0); at an unknown kind (1), whose byte is not taken, and in every
 * later call: the reader has stopped; and with less than MACHHUREL_LOG_BYTES behind the start (7), before a byte is taken.
 */
uint64_t machhurel_reader_read(machhurel_reader *reader, const uint8_t *chunk, size_t chunk_len, uint8_t *log, size_t log_len,
                               size_t start, uint64_t *taken);

/* Ends the stream: answers 1 of a reader that has stopped, 8 inside an item, else 0. The reader is fresh then, with no file. */
uint64_t machhurel_reader_close(machhurel_reader *reader);

/* A new watch of the `length` bytes from `address` on, byte addresses modulo two to the 64. Refuses 2 for another length than 1 to 8. */
uint64_t machhurel_watch_new(machhurel_watch *watch, uint64_t address, uint64_t length);

/*
 * The next pair of a trace: visits the record under the file, and gives each memory write event its verdict. A pair that visiting refuses
 * is counted in `refused`, keeps its number and changes nothing else: MACHHUREL_NUMBER is 0 and MACHHUREL_VISITED is visiting's number.
 * Refuses 2 past MACHHUREL_WATCH_PAIRS, before the pair is looked at, and where the watch's length is not 1 to 8; then nothing changes.
 */
uint64_t machhurel_watch_step(machhurel_watch *watch, const uint8_t *record, size_t record_len, const uint8_t *file, size_t file_len);

/*
 * The verdict on the event at log[at..] against a variable, by the same definition: MACHHUREL_VERDICT, MACHHUREL_TOUCHED, and the event's
 * length in MACHHUREL_COUNT. Refuses 2 for another length than 1 to 8; then answers as machhurel_event does: 1, 2, MACHHUREL_FINISHED.
 */
uint64_t machhurel_verdict(uint64_t address, uint64_t length, const uint8_t *log, size_t log_len, size_t at);

/* A new sheet, whose watch is of the `length` bytes from `address` on. Refuses 2 for another length than 1 to 8; then nothing changes. */
uint64_t machhurel_sheet_new(machhurel_sheet *sheet, uint64_t address, uint64_t length);

/*
 * Adds the events of a log. Refuses 10 at MACHHUREL_SHEET_LOGS, whatever the log is; then 2 where the sheet's length is not 1 to 8, and for
 * a log of more than MACHHUREL_SHEET_LOG_BYTES; then by the log's own number, 1 or 2, where it does not read whole. A refused log changes
 * nothing.
 */
uint64_t machhurel_sheet_add(machhurel_sheet *sheet, const uint8_t *log, size_t log_len);

/*
 * Judges a set of registers for a list of records, one after another, `each` bytes long: MACHHUREL_ACCEPTED where no bit above 18 is set
 * and every register that enters the address of a logged memory access is in the set, for each record that a visit under a good file with
 * room does not refuse. A register counts as its full one: ah as rax, eip as rip. Under an accepted set every record of the list is
 * visited alike, answer and log, under a file and under the same file that knows no register outside the set. Not accepted and no bit
 * above 18: MACHHUREL_LACKED is the lowest bit that the first lacking record lacks, MACHHUREL_LACKING that record's number. Refuses 1 where
 * `each` is no record's length or the bytes are no multiple of it, 2 for more than MACHHUREL_BLOCK_RECORDS records.
 */
uint64_t machhurel_fetch_judge(const uint8_t *records, size_t records_len, size_t each, uint32_t set);

/* The least set that machhurel_fetch_judge accepts for the list, in MACHHUREL_SET. Refuses 1, 2 as it does. */
uint64_t machhurel_fetch_propose(const uint8_t *records, size_t records_len, size_t each);

#ifdef __cplusplus
}
#endif

#endif
