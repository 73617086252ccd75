// Writes the trace. A register file is written where a register that the next record's address needs has changed: records wait in a
// group until then, so that the file knows what all of them need, and nothing else.
#include "out.h"
#include <errno.h>
#include <string.h>

static FILE *create(const char *name, const char *ending) {
    char path[4096];
    int n = snprintf(path, sizeof path, "%s%s", name, ending);
    if (n < 0 || (size_t)n >= sizeof path) {
        errno = ENAMETOOLONG;
        return NULL;
    }
    return fopen(path, "we");
}

int out_open(Out *o, const char *name, int full) {
    memset(o, 0, sizeof *o);
    o->full = full;
    o->trace = create(name, ".trace");
    o->side = o->trace ? create(name, ".side") : NULL;
    if (!o->side)
        return -1;
    fputs("machhurel side 1\n", o->side);
    return 0;
}

size_t file_item(uint8_t item[157], uint32_t known, const uint64_t value[SLOTS]) {
    int with_bases = known >> SLOT_FS != 0;
    int slots = with_bases ? SLOTS : SLOT_FS;
    memset(item, 0, 157);
    item[0] = with_bases ? 0x21 : 0x20;
    for (int k = 0; k < 4; k++)
        item[1 + k] = (uint8_t)(known >> 8 * k);
    for (int k = 0; k < slots; k++)
        for (int i = 0; i < 8 && known >> k & 1; i++)
            item[5 + 8 * k + i] = (uint8_t)(value[k] >> 8 * i);
    return (size_t)(5 + 8 * slots);
}

static void put_group(Out *o) {
    uint8_t item[157];
    if (!o->group_records)
        return;
    if (o->known || !o->files) { // the first records need a register file, even one that knows nothing
        fwrite(item, 1, file_item(item, o->known, o->value), o->trace);
        o->files++;
    }
    fwrite(o->group, 1, o->group_bytes, o->trace);
    o->group_bytes = o->group_records = 0;
    o->known = 0;
}

void out_record(Out *o, const uint8_t *record, size_t size, uint32_t needs, const Regs *regs, unsigned length) {
    uint64_t value[SLOTS];
    memcpy(value, regs->slot, sizeof value);
    value[SLOT_RIP] += length; // that of the next instruction
    if (o->full)
        needs = (1u << SLOTS) - 1;
    int fits = o->group_records < GROUP_RECORDS;
    for (int k = 0; k < SLOTS; k++)
        if (needs >> k & 1 && o->known >> k & 1 && o->value[k] != value[k])
            fits = 0;
    if (!fits)
        put_group(o);
    for (int k = 0; k < SLOTS; k++)
        if (needs >> k & 1)
            o->value[k] = value[k];
    o->known |= needs;
    memcpy(o->group + o->group_bytes, record, size);
    o->group_bytes += size;
    o->group_records++;
    o->records++;
}

void out_word(Out *o, const char *text) {
    if (!*text)
        text = "-";
    for (const unsigned char *c = (const unsigned char *)text; *c; c++)
        if (*c <= ' ' || *c >= 0x7f || *c == '\\')
            fprintf(o->side, "\\x%02x", *c);
        else
            fputc(*c, o->side);
}

int out_close(Out *o) {
    int bad = 0;
    if (o->trace && o->side)
        put_group(o);
    FILE *both[2] = {o->trace, o->side};
    for (int k = 0; k < 2; k++)
        if (both[k] && (ferror(both[k]) | fclose(both[k])))
            bad = -1;
    return bad;
}
