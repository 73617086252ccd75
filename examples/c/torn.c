/*
 * Tells in how many stores a position was written. Two instructions store half of it each, a third stores it whole: the log of each
 * says where and how much. Build it with the library that tools/native-lib writes:
 *
 *     cc -std=c11 -I include examples/c/torn.c -L target/native -lmachhurel -o torn
 *
 * or with an installed package:
 *
 *     cc -std=c11 torn.c $(pkg-config --cflags --libs machhurel) -o torn
 */
#include <inttypes.h>
#include <stdio.h>

#include "machhurel.h"

/* mov [rbx + disp], rax, or its low half */
static void store(uint8_t record[MACHHUREL_RECORD_BYTES], uint8_t size, uint8_t disp)
{
    machhurel_record_begin(record, 40);
    machhurel_record_operand(record, MACHHUREL_SPEC_DISP, MACHHUREL_ACCESS_WRITE);
    machhurel_record_operand(record, MACHHUREL_SPEC_REG_RRR, MACHHUREL_ACCESS_READ);
    machhurel_record_register(record, 0, size == 8 ? MACHHUREL_BANK_Q : MACHHUREL_BANK_D, MACHHUREL_RAX);
    machhurel_record_register(record, 1, MACHHUREL_BANK_Q, MACHHUREL_RBX);
    machhurel_record_memory(record, size, 0, disp);
}

/* prints the memory writes of a log, event by event */
static void print_writes(const uint8_t *log, size_t n)
{
    for (size_t at = 0;;) {
        uint64_t event = machhurel_event(log, n, at);
        if (MACHHUREL_NUMBER(event) != 0)
            return;
        if (log[at] == MACHHUREL_EVENT_MEMORY_WRITE)
            printf("write [0x%016" PRIx64 "] %d bytes\n", machhurel_get_number(log + at + 1), log[at + 9]);
        at += MACHHUREL_COUNT(event);
    }
}

int main(void)
{
    uint8_t file[MACHHUREL_FILE_BYTES];
    machhurel_file_begin(file);
    machhurel_file_know(file, MACHHUREL_RBX, 0x1000);
    const uint8_t stores[3][2] = {{4, 8}, {4, 12}, {8, 8}};
    for (int i = 0; i < 3; i++) {
        uint8_t record[MACHHUREL_RECORD_BYTES];
        uint8_t log[MACHHUREL_LOG_BYTES];
        store(record, stores[i][0], stores[i][1]);
        uint64_t answer = machhurel_visit(record, sizeof record, file, sizeof file, log, sizeof log, 0);
        if (MACHHUREL_NUMBER(answer) != 0) {
            printf("refused %u\n", MACHHUREL_NUMBER(answer));
            return 1;
        }
        print_writes(log, MACHHUREL_COUNT(answer));
    }
    return 0;
}
