/* The header's builders: the bytes of a record and of a file, and that a mistake is refused. As C and as C++. */
#include <stdio.h>
#include <string.h>

#include "machhurel.h"

static int failed = 0;

static void check(const char *what, int is_so)
{
    if (!is_so) {
        printf("not so: %s\n", what);
        failed = 1;
    }
}

static unsigned number_of(const uint8_t *record, const uint8_t *file)
{
    uint8_t log[MACHHUREL_LOG_BYTES];
    return MACHHUREL_NUMBER(machhurel_visit(record, MACHHUREL_RECORD_BYTES, file, MACHHUREL_FILE_BYTES, log, sizeof log, 0));
}

/* document 01's P2: a read and a write of [rbx + 8], a read of rax, the flags written */
static void begin_p2(uint8_t *record)
{
    machhurel_record_begin(record, 40);
    machhurel_record_operand(record, MACHHUREL_SPEC_DISP, MACHHUREL_ACCESS_BOTH);
    machhurel_record_operand(record, MACHHUREL_SPEC_REG_RRR, MACHHUREL_ACCESS_READ);
    machhurel_record_register(record, 0, MACHHUREL_BANK_Q, MACHHUREL_RAX);
    machhurel_record_register(record, 1, MACHHUREL_BANK_Q, MACHHUREL_RBX);
    machhurel_record_memory(record, 8, 0, 8);
    machhurel_record_digest(record, MACHHUREL_BEHAVIOR_FLAGS(MACHHUREL_ACCESS_WRITE), MACHHUREL_LIST_NONE);
}

static void bytes_as_defined(void)
{
    static const uint8_t p2[MACHHUREL_RECORD_BYTES] = {0x10, 40, 0, 2, 24, 1, 0, 0, 0, 0, 0, 3, 0, 0, 0, 0, 8, 0, 8, 0, 0, 0, 0, 0, 0, 0,
                                                       0,    0,  0, 0, 0,  0, 0, 0, 0, 0, 8, 7, 0, 0};
    uint8_t record[MACHHUREL_RECORD_BYTES], file[MACHHUREL_FILE_BYTES], expected[MACHHUREL_FILE_BYTES] = {0x20};
    begin_p2(record);
    check("P2's bytes", memcmp(record, p2, sizeof p2) == 0);
    machhurel_file_begin(file);
    machhurel_file_know(file, MACHHUREL_RBX, 0x1000);
    machhurel_file_know(file, MACHHUREL_RIP, 0x401136);
    expected[1] = 1 << 3;
    expected[3] = 1;
    expected[5 + 3 * 8 + 1] = 0x10;
    expected[5 + 16 * 8] = 0x36;
    expected[5 + 16 * 8 + 1] = 0x11;
    expected[5 + 16 * 8 + 2] = 0x40;
    check("a file's bytes", memcmp(file, expected, sizeof file) == 0);
    check("P2 is not refused", number_of(record, file) == 0);
    machhurel_record_immediate(record, 0x0807060504030201u);
    machhurel_record_prefixes(record, MACHHUREL_PREFIX_REX_W | MACHHUREL_PREFIX_ADDRESS_SIZE, 7);
    check("fields", record[26] == 1 && record[33] == 8 && record[34] == 10 && record[35] == 7 && number_of(record, file) == 0);
}

/* P2 in segment fs, whose base is known: the base is read first, and the accesses lie that much further */
static void a_segment(void)
{
    static const uint8_t log_begins[] = {2, 11, 0, 1, 13, 0, 1, 0, 3, 3, 8, 0x80, 0, 0, 0, 0, 0, 0, 8};
    uint8_t record[MACHHUREL_SEGMENT_RECORD_BYTES], file[MACHHUREL_BASED_FILE_BYTES], log[MACHHUREL_LOG_BYTES];
    uint64_t answer;
    begin_p2(record);
    machhurel_record_segment(record, MACHHUREL_SEGMENT_FS);
    machhurel_based_file_begin(file);
    machhurel_file_know(file, MACHHUREL_RBX, 0x1000);
    machhurel_file_know(file, MACHHUREL_FS_BASE, 0x7000);
    answer = machhurel_visit(record, sizeof record, file, sizeof file, log, sizeof log, 0);
    check("a record in a segment", MACHHUREL_NUMBER(answer) == 0 && MACHHUREL_COUNT(answer) == 38);
    check("the base is read and added", memcmp(log, log_begins, sizeof log_begins) == 0);
    machhurel_record_segment(record, 3);
    answer = machhurel_visit(record, sizeof record, file, sizeof file, log, sizeof log, 0);
    check("segment 3", MACHHUREL_NUMBER(answer) == MACHHUREL_REFUSED_FIELD);
    machhurel_file_know(file, MACHHUREL_GS_BASE + 1, 0);
    machhurel_record_segment(record, MACHHUREL_SEGMENT_GS);
    answer = machhurel_visit(record, sizeof record, file, sizeof file, log, sizeof log, 0);
    check("a register behind the bases", MACHHUREL_NUMBER(answer) == MACHHUREL_REFUSED_FILE);
}

/* push rax without a digest: the opcode gives the accesses and the list, whatever was set */
static void digest_by_opcode(void)
{
    uint8_t record[MACHHUREL_RECORD_BYTES];
    uint64_t answer;
    machhurel_record_begin(record, MACHHUREL_OPCODE_PUSH);
    machhurel_record_operand(record, MACHHUREL_SPEC_REG_RRR, MACHHUREL_ACCESS_BOTH);
    machhurel_record_everyday(record);
    answer = machhurel_digest(record, MACHHUREL_EVERYDAY_RECORD_BYTES);
    check("a push", MACHHUREL_NUMBER(answer) == 0 && MACHHUREL_LIST(answer) == MACHHUREL_LIST_PUSH &&
                        MACHHUREL_OPERAND_ACCESS(answer) == MACHHUREL_ACCESS_READ);
    machhurel_record_begin(record, MACHHUREL_OPCODE_POP + 1);
    machhurel_record_everyday(record);
    answer = machhurel_digest(record, MACHHUREL_EVERYDAY_RECORD_BYTES);
    check("an opcode without a digest", answer == MACHHUREL_REFUSED_OPCODE);
}

static void mistakes_are_refused(void)
{
    uint8_t record[MACHHUREL_RECORD_BYTES], file[MACHHUREL_FILE_BYTES];
    int i;
    machhurel_file_begin(file);
    begin_p2(record);
    for (i = 0; i < 300; i++)
        machhurel_record_operand(record, MACHHUREL_SPEC_NOTHING, MACHHUREL_ACCESS_NONE);
    check("too many operands", number_of(record, file) == MACHHUREL_REFUSED_FIELD);
    begin_p2(record);
    machhurel_record_register(record, 4, MACHHUREL_BANK_Q, MACHHUREL_RAX);
    check("a slot above 3", number_of(record, file) == MACHHUREL_REFUSED_FIELD);
    begin_p2(record);
    machhurel_record_register(record, 0, 256 + MACHHUREL_BANK_Q, MACHHUREL_RAX);
    check("a bank above 255", number_of(record, file) == MACHHUREL_REFUSED_FIELD);
    begin_p2(record);
    machhurel_record_memory(record, 256 + 8, 0, 8);
    check("a size above 255", number_of(record, file) == MACHHUREL_REFUSED_FIELD);
    begin_p2(record);
    machhurel_file_know(file, MACHHUREL_RIP + 1, 0);
    check("a register that no file has", number_of(record, file) == MACHHUREL_REFUSED_FILE);
}

int main(void)
{
    bytes_as_defined();
    a_segment();
    digest_by_opcode();
    mistakes_are_refused();
    return failed;
}
