// The memory events of a log, and sets of accesses.
#include "witness.h"
#include "../include/machhurel.h"
#include "out.h"
#include <stdlib.h>
#include <string.h>

int next_access(const uint8_t *log, size_t length, size_t *at, Access *access) {
    while (*at < length) {
        const uint8_t *event = log + *at;
        int kind = event[0];
        *at += kind <= 2 ? 3 : kind <= 4 ? 10 : 2;
        if (kind != 3 && kind != 4)
            continue;
        access->writes = kind == 4;
        access->address = 0;
        for (int i = 0; i < 8; i++)
            access->address |= (uint64_t)event[1 + i] << 8 * i;
        access->size = event[9];
        return 1;
    }
    return 0;
}

static int in_order(const void *a, const void *b) {
    const Access *x = a, *y = b;
    if (x->address != y->address)
        return x->address < y->address ? -1 : 1;
    return x->size != y->size ? (int)x->size - (int)y->size : x->writes - y->writes;
}

unsigned accesses_logged(const uint8_t *record, size_t size, const Regs *regs, Accesses *into) {
    uint8_t file[157], log[MACHHUREL_LOG_BYTES];
    uint64_t answer = machhurel_visit(record, size, file, file_item(file, (1u << SLOTS) - 1, regs->slot), log, sizeof log, 0);
    into->count = 0;
    for (size_t at = 0; !MACHHUREL_NUMBER(answer) && into->count < MOST_ACCESSES;)
        if (!next_access(log, MACHHUREL_COUNT(answer), &at, &into->all[into->count++])) {
            into->count--;
            break;
        }
    qsort(into->all, (size_t)into->count, sizeof *into->all, in_order);
    return MACHHUREL_NUMBER(answer);
}

int accesses_equal(const Accesses *a, const Accesses *b) {
    Accesses x = *a, y = *b;
    qsort(x.all, (size_t)x.count, sizeof *x.all, in_order);
    qsort(y.all, (size_t)y.count, sizeof *y.all, in_order);
    if (x.count != y.count)
        return 0;
    for (int k = 0; k < x.count; k++)
        if (in_order(&x.all[k], &y.all[k]) != 0)
            return 0;
    return 1;
}

int accesses_touch(const Accesses *a, uint64_t address, int writes_only) {
    for (int k = 0; k < a->count; k++)
        if (address - a->all[k].address < a->all[k].size && (a->all[k].writes || !writes_only))
            return 1;
    return 0;
}
